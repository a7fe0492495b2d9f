"""Random encodings and logs without hints. Of most lines `u` unit propagation over all that stands finds the conflict."""
from typing import Dict, List, Tuple

#: The coefficients of variables, and the bound from which on the sum of those that are true holds.
Form = Tuple[Dict[int, int], int]


def ends_in_conflict(forms, setting):
    """Whether unit propagation over the forms finds a conflict once these variables are set."""
    setting = dict(setting)
    again = True
    while again:
        again = False
        for terms, bound in forms:
            slack = sum((coefficient if setting[v] else 0) if v in setting else max(coefficient, 0) for v, coefficient in terms.items()) - bound
            if slack < 0:
                return True
            for v, coefficient in terms.items():
                if v not in setting and abs(coefficient) > slack:
                    setting[v] = coefficient > 0
                    again = True
    return False


def clause(literals) -> Form:
    """One of the literals holds."""
    return {v: 1 if sign else -1 for v, sign in literals}, 1 - sum(not sign for _, sign in literals)


def some_literals(rng, variables, count):
    """So many literals, of different variables."""
    return [(v, rng.random() < 0.5) for v in rng.sample(range(1, variables + 1), min(variables, count))]


def some_form(rng, variables) -> Form:
    """A clause, a sum that counts literals, or one with coefficients."""
    literals = some_literals(rng, variables, rng.randint(1, rng.choice([2, 3, 4, 8, 12])))
    kind = rng.random()
    if kind < 0.45:
        return clause(literals)
    wide = 2**40 if rng.random() < 0.1 else 7
    sizes = [1 if kind < 0.85 else rng.choice([1, 1, 2, 3, 5, 40, wide]) for _ in literals]
    signs = [rng.random() < 0.2 for _ in literals]
    degree = rng.choice([1, 1, 2, min(sizes), rng.randint(0, sum(sizes))])
    terms = {v: size if sign else -size for (v, _), size, sign in zip(literals, sizes, signs)}
    return terms, degree - sum(size for size, sign in zip(sizes, signs) if not sign)


def text_of(form: Form) -> str:
    terms, bound = form
    return " ".join([*(f"{coefficient:+d} x{v}" for v, coefficient in terms.items()), ">=", str(bound), ";"])


class Log:
    """A log that is being made: its lines, what stands by which name, and how many names each owner has given."""

    def __init__(self, rng, variables, forms):
        self.rng = rng
        self.variables = variables
        self.stands: Dict[str, Form] = {str(i + 1): form for i, form in enumerate(forms)}
        self.lines: List[str] = ["embedding proof 2", f"m {len(forms)}"]
        self.given = [0, 0]
        self.row = 0

    def name(self):
        owner = self.rng.randrange(2)
        self.given[owner] += 1
        return f"{owner}.{self.given[owner]}"

    def close(self, careless):
        """A line `u`, of a clause that propagation closes where one is found in a few tries; a careless log may have another."""
        rng = self.rng
        for _ in range(12):
            literals = some_literals(rng, self.variables, rng.randint(0, rng.choice([1, 2, 3, 6])))
            if ends_in_conflict(self.stands.values(), {v: not sign for v, sign in literals}):
                break
        else:
            if not careless or rng.random() < 0.9:
                return
        name = self.name()
        self.lines.append(" ".join(["u", name, *(("" if sign else "~") + f"x{v}" for v, sign in literals), ";"]))
        self.stands[name] = clause(literals)

    def step(self, careless):
        """One line more: of any kind, most often a `u`."""
        rng = self.rng
        names = [name for name in self.stands if "." in name]
        kind = rng.random()
        if kind < 0.12 and names:
            gone = rng.choice([name for name in self.stands if "." in name or "#" in name])
            del self.stands[gone]
            self.lines.append(f"d {gone}")
        elif kind < 0.2 and names:
            self.row += rng.randint(1, 2)
            named = rng.choice(names)
            self.lines.append(f"n {self.row} {named}")
            self.stands[f"#{self.row}"] = self.stands[named]
        elif kind < 0.32 and self.stands:
            copied = rng.choice(list(self.stands))
            name = self.name()
            self.lines.append(f"p {name} {copied} ;")
            self.stands[name] = self.stands[copied]
        else:
            self.close(careless)

    def end(self):
        """A refutation where a constraint that stands is false, else no claim; one time in five whatever comes."""
        rng = self.rng
        false = [name for name, (terms, bound) in self.stands.items() if sum(max(it, 0) for it in terms.values()) < bound]
        if rng.random() < 0.8:
            self.lines.append(f"e {rng.choice(false)}" if false else "q")
            return
        ones = "".join(f" x{v}" for v in range(1, self.variables + 1) if rng.random() < 0.5)
        last = list(self.stands)[-1] if self.stands else "1"
        self.lines.append(rng.choice(["q", f"e {last}", "y" + ones]))


def closed_pair(rng):
    """An encoding and a log without hints. One log in seven may have a line `u` that propagation does not close."""
    variables = rng.randint(2, rng.choice([6, 10, 16]))
    forms = [some_form(rng, variables) for _ in range(rng.randint(1, 3 * variables))]
    log = Log(rng, variables, forms)
    careless = rng.random() < 0.15
    for _ in range(rng.randint(1, 30)):
        log.step(careless)
    log.end()
    head = f"* #variable= {variables} #constraint= {len(forms)}"
    return "\n".join([head, *map(text_of, forms), ""]).encode(), "\n".join([*log.lines, ""]).encode()
