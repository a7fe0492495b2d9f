// An encoding as the program writes it (OPB, each coefficient 1 or -1) as clauses (DIMACS).
//
//     opb_cnf < ENCODING > CNF
//
// A line that at least one literal holds is a clause. One that at most one variable of many holds is six clauses or fewer for each four of them
// and a variable more that stands for the four, which then stands in a line of the same kind. Any other line is refused with status 2.
#include <cstdio>
#include <cstdlib>
#include <string>
#include <vector>

static std::string text, out;
static long variables, clauses;

static void put(long literal) {
    char digits[24];
    out.append(digits, snprintf(digits, sizeof digits, "%ld ", literal));
}

static void clause(const std::vector<long>& literals) {
    for (long it : literals) put(it);
    out += "0\n";
    clauses++;
}

static void at_most_one(std::vector<long> of) {
    while (of.size() > 1) {
        std::vector<long> above;
        for (size_t from = 0; from < of.size(); from += 4) {
            size_t to = std::min(of.size(), from + 4);
            for (size_t i = from; i < to; i++)
                for (size_t j = i + 1; j < to; j++) clause({-of[i], -of[j]});
            if (of.size() <= 4) return;
            above.push_back(++variables);
            for (size_t i = from; i < to; i++) clause({-of[i], variables});
        }
        of.swap(above);
    }
}

int main() {
    char piece[1 << 16];
    size_t got;
    while ((got = fread(piece, 1, sizeof piece, stdin))) text.append(piece, got);
    const char* at = text.c_str();
    if (sscanf(at, "* #variable= %ld", &variables) != 1) return 2;
    while (*at && *at++ != '\n') {}
    std::vector<long> literals;
    while (*at) {
        literals.clear();
        long negative = 0;
        while (*at == '+' || *at == '-') {
            bool minus = *at == '-';
            if (at[1] != '1' || at[2] != ' ' || at[3] != 'x') return 2;
            char* end;
            long variable = strtol(at + 4, &end, 10);
            literals.push_back(minus ? -variable : variable);
            negative += minus;
            at = end + (*end == ' ');
        }
        if (at[0] != '>' || at[1] != '=') return 2;
        char* end;
        long bound = strtol(at + 2, &end, 10);
        at = end;
        while (*at && *at++ != '\n') {}
        if (bound == 1 - negative) {
            clause(literals);
        } else if (bound == -1 && negative == (long)literals.size()) {
            for (long& it : literals) it = -it;
            at_most_one(literals);
        } else if (bound > -negative) {
            return 2;
        }
    }
    printf("p cnf %ld %ld\n", variables, clauses);
    fwrite(out.data(), 1, out.size(), stdout);
    return 0;
}
