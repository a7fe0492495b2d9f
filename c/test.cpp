// Tests of the library from C++: random questions in all formats, of all kinds of maps and with orders of images, each
// held against a search that tries every map, and many questions of one open target, each held against the call with its
// text. Several threads ask at once.
#include <algorithm>
#include <cstdio>
#include <cstdlib>
#include <numeric>
#include <random>
#include <string>
#include <thread>
#include <utility>
#include <vector>

#include "subgraph.h"

namespace {

constexpr int none = -1;

// Labels of vertices, and for each two vertices the label of the edge, or `none`.
struct Graph {
    std::vector<int> labels;
    std::vector<std::vector<int>> edges;
    int size() const { return static_cast<int>(labels.size()); }
    bool near(int a, int b) const { return a != b && (edges[a][b] != none || edges[b][a] != none); }
};

struct Question {
    Graph pattern, target;
    subgraph_options options;
    std::vector<subgraph_pair> less;
};

using Random = std::mt19937_64;

int below(Random &random, int n) { return static_cast<int>(random() % static_cast<unsigned>(n)); }

Graph graph_of(Random &random, int size, unsigned format) {
    const bool vertices = format % 2 == 1, directed = format >= 2, labelled = format == 3;
    const int density = 20 + below(random, 60);
    Graph g;
    for (int a = 0; a < size; a++) g.labels.push_back(vertices ? below(random, 2) : 0);
    g.edges.assign(size, std::vector<int>(size, none));
    for (int a = 0; a < size; a++)
        for (int b = 0; b < size; b++) {
            if ((!directed && b < a) || below(random, 100) >= (a == b ? density / 4 : density)) continue;
            g.edges[a][b] = labelled ? below(random, 2) : 0;
            if (!directed) g.edges[b][a] = g.edges[a][b];
        }
    return g;
}

std::string text_of(const Graph &g, unsigned format) {
    std::string text = std::to_string(g.size());
    for (int a = 0; a < g.size(); a++) {
        std::string listed;
        int count = 0;
        for (int b = 0; b < g.size(); b++)
            if (g.edges[a][b] != none) {
                count++;
                listed += " " + std::to_string(b) + (format == 3 ? " " + std::to_string(g.edges[a][b]) : "");
            }
        text += "\n" + (format % 2 == 1 ? std::to_string(g.labels[a]) + " " : "") + std::to_string(count) + listed;
    }
    return text + "\n";
}

Question question_of(Random &random) {
    Question q;
    q.options = SUBGRAPH_OPTIONS;
    q.options.seed = random();
    q.options.rows = static_cast<uint32_t>(below(random, 2) * 64);
    q.options.format = static_cast<uint32_t>(below(random, 4));
    q.options.maps = static_cast<uint32_t>(below(random, 3));
    q.options.induced = q.options.maps == SUBGRAPH_INJECTIVE ? static_cast<uint32_t>(below(random, 2)) : 0;
    q.pattern = graph_of(random, below(random, 5), q.options.format);
    q.target = graph_of(random, below(random, 6), q.options.format);
    const int size = q.pattern.size();
    for (int k = size > 1 ? below(random, 3) : 0; k > 0; k--) {
        const int a = below(random, size), b = (a + 1 + below(random, size - 1)) % size;
        q.less.push_back({static_cast<uint32_t>(a), static_cast<uint32_t>(b)});
    }
    return q;
}

bool differ(const Question &q, int a, int b) {
    if (q.options.maps == SUBGRAPH_LOCAL)
        for (int c = 0; c < q.pattern.size(); c++)
            if (q.pattern.near(c, a) && q.pattern.near(c, b)) return true;
    return q.options.maps == SUBGRAPH_INJECTIVE;
}

// Whether the map is an embedding, by the definition.
bool embeds(const Question &q, const std::vector<uint32_t> &map) {
    const int size = q.pattern.size();
    if (static_cast<int>(map.size()) != size) return false;
    for (int a = 0; a < size; a++) {
        if (static_cast<int>(map[a]) >= q.target.size() || q.pattern.labels[a] != q.target.labels[map[a]]) return false;
        for (int b = 0; b <= a; b++) {
            if (b < a && map[a] == map[b] && differ(q, a, b)) return false;
            for (auto [c, d] : {std::pair(a, b), std::pair(b, a)}) {
                const int edge = q.pattern.edges[c][d], image = q.target.edges[map[c]][map[d]];
                if (edge != image && (edge != none || q.options.induced == 1)) return false;
            }
        }
    }
    return std::all_of(q.less.begin(), q.less.end(), [&](const auto &it) { return map[it.first] < map[it.second]; });
}

// Whether some map is, by trying each.
bool has_embedding(const Question &q, std::vector<uint32_t> &map) {
    if (static_cast<int>(map.size()) == q.pattern.size()) return embeds(q, map);
    for (int t = 0; t < q.target.size(); t++) {
        map.push_back(static_cast<uint32_t>(t));
        if (has_embedding(q, map)) return true;
        map.pop_back();
    }
    return false;
}

const uint8_t *bytes(const std::string &text) { return reinterpret_cast<const uint8_t *>(text.data()); }

// Whether the library answers as it should.
bool is_right(const Question &q, Random &random) {
    const subgraph_pair nothing = {0, 0};
    const subgraph_pair *less = q.less.empty() ? &nothing : q.less.data();
    const std::string pattern = text_of(q.pattern, q.options.format), target = text_of(q.target, q.options.format);
    std::vector<uint32_t> map(8, 77), tried;
    subgraph_report report;
    const uint32_t status = subgraph_decide(bytes(pattern), pattern.size(), bytes(target), target.size(), &q.options,
                                            less, q.less.size(), map.data(), map.size(), &report);
    if (status != (has_embedding(q, tried) ? SUBGRAPH_YES : SUBGRAPH_NONE)) return false;
    if (report.count != (status == SUBGRAPH_YES ? q.pattern.labels.size() : 0)) return false;
    const auto rest = map.begin() + static_cast<long>(report.count);
    if (std::any_of(rest, map.end(), [](uint32_t t) { return t != 77; })) return false;
    map.resize(report.count);
    if (status == SUBGRAPH_YES && !embeds(q, map)) return false;
    for (int k = 0; k < 4; k++) {
        const uint32_t *images = map.empty() ? &nothing.first : map.data();
        const uint32_t said = subgraph_verify(bytes(pattern), pattern.size(), bytes(target), target.size(), &q.options,
                                              less, q.less.size(), images, map.size(), &report);
        if (said != (embeds(q, map) ? SUBGRAPH_YES : SUBGRAPH_NO_EMBEDDING)) return false;
        map.resize(static_cast<size_t>(q.pattern.size() + (below(random, 8) == 0)));
        for (auto &t : map) t = static_cast<uint32_t>(below(random, q.target.size() + 1));
    }
    return true;
}

// Whether a target that is open answers as its text does, for so many random patterns.
bool is_held(int patterns, Random &random) {
    const subgraph_pair nothing = {0, 0};
    const Question first = question_of(random);
    const std::string target = text_of(first.target, first.options.format);
    subgraph_target held = SUBGRAPH_TARGET;
    subgraph_report report, due;
    if (subgraph_target_open(bytes(target), target.size(), first.options.format, &held, &report) != SUBGRAPH_OPENED)
        return false;
    bool right = true;
    for (int n = 0; n < patterns && right; n++) {
        Question q = question_of(random);
        q.options.format = first.options.format;
        q.pattern = graph_of(random, q.pattern.size(), q.options.format);
        const subgraph_pair *less = q.less.empty() ? &nothing : q.less.data();
        const std::string pattern = text_of(q.pattern, q.options.format);
        std::vector<uint32_t> map(8, 77), images(8, 77);
        const uint32_t status = subgraph_decide_in(bytes(pattern), pattern.size(), &held, &q.options, less,
                                                   q.less.size(), map.data(), map.size(), &report);
        right = status == subgraph_decide(bytes(pattern), pattern.size(), bytes(target), target.size(), &q.options, less,
                                          q.less.size(), images.data(), images.size(), &due);
        right = right && map == images && report.count == due.count && report.cause == due.cause;
    }
    subgraph_target_close(&held);
    return right;
}

}  // namespace

int main(int count, char **words) {
    const int each = count > 1 ? std::atoi(words[1]) : 500;
    constexpr unsigned threads = 4;
    std::vector<int> wrong(threads, 0);
    std::vector<std::thread> going;
    for (unsigned k = 0; k < threads; k++)
        going.emplace_back([&wrong, each, k] {
            Random random(k);
            for (int n = 0; n < each; n++) wrong[k] += !is_right(question_of(random), random);
            for (int n = 0; n < 4; n++) wrong[k] += !is_held(each / 2, random);
        });
    for (auto &it : going) it.join();
    const int all = std::accumulate(wrong.begin(), wrong.end(), 0);
    std::printf("C++: %d questions by %u threads, %d wrong\n", each * static_cast<int>(threads), threads, all);
    return all > 0;
}
