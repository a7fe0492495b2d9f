// Judges a log without hints by counter propagation, in plain C++ and unproved: what a `u` line costs without a proof.
//
//     closing ENCODING LOG
//
// Prints the verdict, or the first line that is refused, with no cause. Each constraint has a slack: the sum of its literals' coefficients
// that are not false, less its bound. A variable's occurrences are in one list; whoever becomes false lowers slacks, and a constraint
// is looked through only where its slack falls below its greatest coefficient (Sheini and Sakallah 2006; Elffers and Nordstrom 2018).
// What is forced without assumptions stays from line to line. Numbers are of 64 bits, with no test for their overflow.
#include <algorithm>
#include <cstdint>
#include <cstdio>
#include <cstdlib>
#include <fstream>
#include <iostream>
#include <map>
#include <sstream>
#include <string>
#include <vector>

using namespace std;

struct Term {
    int64_t weight;
    uint32_t literal;  // 2 v, and 2 v + 1 where negated
};

struct Constraint {
    size_t from, to;
    int64_t bound, slack, greatest;
};

struct Occurrence {
    uint32_t constraint;
    int64_t weight;
};

using Sum = pair<map<uint32_t, int64_t>, int64_t>;  // a coefficient for each variable, and the bound

vector<Term> terms;
vector<Constraint> constraints;
vector<vector<Occurrence>> occurrences;  // by literal
vector<int8_t> values;                   // by literal: 1 true, -1 false, 0 open
vector<uint32_t> trail;
size_t read_to = 0;
bool is_refuted = false;

void make_true(uint32_t literal) {
    values[literal] = 1;
    values[literal ^ 1] = -1;
    trail.push_back(literal);
}

// Makes true what the constraint forces; whether it is in conflict.
bool look(const Constraint &c) {
    if (c.slack < 0) return true;
    if (c.slack < c.greatest)
        for (size_t i = c.from; i < c.to; i++)
            if (terms[i].weight > c.slack && values[terms[i].literal] == 0) make_true(terms[i].literal);
    return false;
}

// Whether a conflict comes. All slacks are those of the trail up to `read_to`.
bool propagate() {
    while (read_to < trail.size()) {
        uint32_t gone = trail[read_to++] ^ 1;
        bool conflict = false;
        for (const Occurrence &o : occurrences[gone]) {
            Constraint &c = constraints[o.constraint];
            c.slack -= o.weight;
            if (c.slack < c.greatest && !conflict) conflict = look(c);
        }
        if (conflict) return true;
    }
    return false;
}

void undo_to(size_t length) {
    while (trail.size() > length) {
        uint32_t literal = trail.back();
        trail.pop_back();
        if (trail.size() < read_to)
            for (const Occurrence &o : occurrences[literal ^ 1]) constraints[o.constraint].slack += o.weight;
        values[literal] = values[literal ^ 1] = 0;
    }
    read_to = min(read_to, length);
}

// A constraint more, and all that it forces without assumptions.
void add(const Sum &sum) {
    Constraint c{terms.size(), 0, sum.second, 0, 0};
    for (auto [variable, weight] : sum.first) {
        if (weight == 0) continue;
        Term t{llabs(weight), 2 * variable + (weight < 0)};
        if (weight < 0) c.bound += t.weight;
        terms.push_back(t);
        c.greatest = max(c.greatest, t.weight);
        if (values[t.literal] >= 0) c.slack += t.weight;
        if (occurrences.size() <= t.literal) abort();
        occurrences[t.literal].push_back({uint32_t(constraints.size()), t.weight});
    }
    c.to = terms.size();
    c.slack -= c.bound;
    constraints.push_back(c);
    if (!is_refuted) is_refuted = look(constraints.back()) || propagate();
}

Sum sum_of(const Constraint &c) {
    Sum s{{}, c.bound};
    for (size_t i = c.from; i < c.to; i++) {
        bool negated = terms[i].literal & 1;
        s.first[terms[i].literal / 2] = negated ? -terms[i].weight : terms[i].weight;
        if (negated) s.second -= terms[i].weight;
    }
    return s;
}

Sum normal(Sum s, int sign) {  // coefficients of literals in place of variables: bound raised, or lowered back
    for (auto [variable, weight] : s.first)
        if (weight < 0) s.second -= sign * weight;
    return s;
}

uint32_t literal_of(const string &word) {
    bool negated = word[0] == '~';
    return 2 * uint32_t(stoul(word.substr(negated ? 2 : 1))) + negated;
}

map<string, uint32_t> names;

const Constraint &named(const string &word) {
    if (word.find_first_of(".#") == string::npos) return constraints.at(stoul(word) - 1);
    return constraints.at(names.at(word));
}

Sum evaluated(istringstream &words) {
    vector<Sum> stack;
    string word;
    while (words >> word && word != ";") {
        if (word == "+") {
            Sum last = stack.back();
            stack.pop_back();
            Sum &s = stack.back();
            for (auto [variable, weight] : last.first) s.first[variable] += weight;
            s.second += last.second;
        } else if (word == "*" || word == "d") {
            int64_t factor = stack.back().second;
            stack.pop_back();
            Sum s = word == "d" ? normal(stack.back(), 1) : stack.back();
            for (auto &[variable, weight] : s.first)
                weight = word == "*" ? weight * factor : weight < 0 ? -((-weight + factor - 1) / factor) : (weight + factor - 1) / factor;
            s.second = word == "*" ? s.second * factor : s.second > 0 ? (s.second + factor - 1) / factor : -(-s.second / factor);
            stack.back() = word == "d" ? normal(s, -1) : s;
        } else if (word == "s") {
            Sum s = normal(stack.back(), 1);
            int64_t most = max<int64_t>(s.second, 0);
            for (auto &[variable, weight] : s.first) weight = max(min(weight, most), -most);
            stack.back() = normal(s, -1);
        } else if (word[0] == 'x' || word[0] == '~') {
            uint32_t literal = literal_of(word);
            stack.push_back({{{literal / 2, literal & 1 ? -1 : 1}}, literal & 1 ? -1 : 0});
        } else {
            // A bare number before `*` or `d` is a factor; which one it is, its follower tells.
            streampos at = words.tellg();
            string next;
            words >> next;
            words.clear();
            words.seekg(at);
            if (next == "*" || next == "d")
                stack.push_back({{}, stoll(word)});
            else
                stack.push_back(sum_of(named(word)));
        }
    }
    return stack.at(0);
}

bool is_false(const Constraint &c) { return c.from == c.to && c.bound > 0; }

int main(int count, char **arguments) {
    if (count != 3) return 3;
    ios::sync_with_stdio(false);
    ifstream encoding(arguments[1]), log(arguments[2]);
    string line, word;
    size_t number = 0;
    while (getline(encoding, line)) {
        istringstream words(line);
        if (line.rfind("* #variable=", 0) == 0) {
            size_t variables;
            words >> word >> word >> variables;
            occurrences.resize(2 * variables + 2);
            values.resize(2 * variables + 2);
        } else if (!line.empty() && line[0] != '*') {
            Sum sum;
            while (words >> word && word != ">=") {
                int64_t weight = stoll(word);
                words >> word;
                sum.first[literal_of(word) / 2] += weight;
            }
            words >> sum.second;
            add(sum);
        }
    }
    while (getline(log, line)) {
        number++;
        if (number < 3) continue;
        istringstream words(line);
        words >> word;
        if (word == "q") return puts("accepted undecided"), 0;
        if (word == "e") {
            words >> word;
            if (is_false(named(word))) return puts("accepted unsatisfiable"), 0;
            break;
        }
        if (word == "y") return puts("not judged: a solution"), 3;
        string name;
        words >> name;
        if (word == "n") {
            words >> word;
            names["#" + name] = names.at(word);
        } else if (word == "p") {
            names[name] = uint32_t(constraints.size());
            add(evaluated(words));
        } else {
            size_t root = trail.size();
            Sum clause{{}, 1};
            bool closed = is_refuted;
            while (words >> word && word != ";") {
                uint32_t literal = literal_of(word);
                clause.first[literal / 2] = literal & 1 ? -1 : 1;
                clause.second -= literal & 1;
                if (values[literal] > 0) closed = true;
                else if (values[literal] == 0) make_true(literal ^ 1);
            }
            closed = closed || propagate();
            undo_to(root);
            if (!closed) break;
            names[name] = uint32_t(constraints.size());
            add(clause);
        }
    }
    printf("refused at line %zu\n", number);
    return 1;
}
