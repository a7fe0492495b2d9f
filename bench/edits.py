"""Edits that make a good text a hostile one, chosen by the generator of random numbers that each is given.

What they aim at: ends of ranges and one past them, bytes that are blanks in one format and parts of words in another, texts that end in
mid-word, and forms of numbers that other readers take.
"""
import re

NUMBER = re.compile(rb"[0-9]+")
WORD = re.compile(rb"[^ \t\r\n]+")
#: Limits of the formats; one below and one past each is tried too.
LIMITS = [0, 2, 64, 1024, 8192, 65536, 4194304, 67108864, 2**31, 2**32, 2**40, 2**53, 2**62, 2**63, 2**64, 2**125, 2**127, 2**128]
#: Bytes that some reader takes for a blank, a line end, a digit or an end, and ones that are no UTF-8.
BYTES = [b" ", b"\t", b"\n", b"\r", b"\v", b"\f", b"\0", b"\x1a", b"\x1b", b"\x7f", b"\x80", b"\xc0", b"\xff"]
BYTES += [b"+", b"-", b"~", b"#", b";", b".", b"*", b"x", b"0", b"9", b"%", b"\\", b'"']
#: The same of more than one byte: another blank, line end, digit or sign of Unicode, a mark of order, a half of a pair.
STRANGE = [text.encode() for text in ("\u00a0", "\u0085", "\u2028", "\ufeff", "\u0663", "\uff11", "\u2212")] + [b"\xed\xa0\x80"]
#: Numbers as other readers know them.
SPELLINGS = [b"0x%d", b"%de0", b"%d.0", b"%d_0", b"%d,", b"0b%d", b"%dL", b"1e%d", b"(%d)", b"--%d", b"+-%d", b"%d-", b"NaN%d"]


def place_in(rng, text):
    return rng.randrange(len(text) + 1)


def one_of(rng, pattern, text):
    """The ends of one match; an empty place where there is none."""
    found = [it.span() for it in pattern.finditer(text)]
    return rng.choice(found) if found else (0, 0)


def any_byte(rng):
    return rng.choice(BYTES) if rng.random() < 0.7 else rng.choice(STRANGE) if rng.random() < 0.4 else bytes([rng.randrange(256)])


def change_byte(rng, text):
    at = place_in(rng, text)
    return text[:at] + any_byte(rng) + text[at + 1 :]


def insert_byte(rng, text):
    at = place_in(rng, text)
    return text[:at] + any_byte(rng) + text[at:]


def drop_byte(rng, text):
    at = place_in(rng, text)
    return text[:at] + text[at + 1 :]


def blank(rng, text):
    """Another blank, or several, where one stands."""
    begin, end = one_of(rng, re.compile(rb"[ \n]"), text)
    return text[:begin] + rng.choice([b"\t", b"  ", b" \t ", b"\n", b"\n\n", b"\r\n", b"\r", b"\v", b"\f", b"\0", b""]) + text[end:]


def drop_word(rng, text):
    begin, end = one_of(rng, WORD, text)
    return text[:begin] + text[end:]


def double_word(rng, text):
    begin, end = one_of(rng, WORD, text)
    return text[:end] + rng.choice([b" ", b"\n", b""]) + text[begin:]


def exchange_words(rng, text):
    (a, b), (c, d) = sorted([one_of(rng, WORD, text), one_of(rng, WORD, text)])
    return text if (a, b) == (c, d) else text[:a] + text[c:d] + text[b:c] + text[a:b] + text[d:]


def other_number(rng, digits):
    kind = rng.random()
    if kind < 0.35:
        return b"%d" % max(0, rng.choice(LIMITS) + rng.choice([-1, 0, 1]))
    if kind < 0.65:
        return b"%d" % max(0, int(digits[:60]) + rng.choice([-2, -1, 1, 2]))
    if kind < 0.75:
        return b"0" * rng.choice([1, 2, 30, 5000]) + digits
    if kind < 0.85:
        return rng.choice([b"+", b"-", b"~", b"#"]) + digits
    if kind < 0.9:
        return rng.choice([b"9", b"1", b"0"]) * rng.choice([10, 20, 39, 40, 5000])
    return rng.choice(SPELLINGS) % int(digits[:60])


def change_number(rng, text):
    begin, end = one_of(rng, NUMBER, text)
    return text[:begin] + other_number(rng, text[begin:end] or b"0") + text[end:]


def edit_lines(rng, text):
    """A line is dropped, doubled or exchanged with another."""
    lines = text.split(b"\n")
    i, j = rng.randrange(len(lines)), rng.randrange(len(lines))
    how = rng.choice(["drop", "double", "exchange"])
    if how == "drop":
        del lines[i]
    elif how == "double":
        lines.insert(j, lines[i])
    else:
        lines[i], lines[j] = lines[j], lines[i]
    return b"\n".join(lines)


def cut(rng, text):
    """The text's front or, less often, its rest."""
    at = place_in(rng, text)
    return text[:at] if rng.random() < 0.8 else text[at:]


def whole(rng, text):
    """The same change all over the text."""
    old, new = rng.choice([(b"\n", b"\r\n"), (b"\n", b"\r"), (b" ", b"\t"), (b"\n", b" "), (b" ", b"\n"), (b" ", b""), (b"\n", b"\n\n")])
    return text.replace(old, new)


def end(rng, text):
    """Something behind the text, or its line end gone."""
    return rng.choice([text.rstrip(b"\n"), text + rng.choice([b"\n", b" ", b"\r", b"\0", b"\x1a", b"0", b"\n0\n", b"q\n", text])])


def front(rng, text):
    return rng.choice([b"\n", b" ", b"\xef\xbb\xbf", b"\0", b"0 ", b"#", b"* ", b"%"]) + text


SMALL = [change_byte, insert_byte, drop_byte, blank, drop_word, double_word, exchange_words, change_number]
EDITS = 2 * SMALL + 3 * [change_number] + [edit_lines, edit_lines, cut, cut, whole, end, front]


def hostile(rng, text):
    """The text after one to three edits."""
    for _ in range(rng.choice([1, 1, 1, 1, 2, 3])):
        text = rng.choice(EDITS)(rng, text)
    return text
