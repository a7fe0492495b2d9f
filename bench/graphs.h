// Graphs from LAD text, for the programs that are measured beside this one: in each of the four formats.
#pragma once
#include <algorithm>
#include <cstdint>
#include <cstdlib>
#include <cstring>
#include <fstream>
#include <iostream>
#include <optional>
#include <string>
#include <utility>
#include <vector>

// Ends where a program does not take what is asked for.
[[noreturn]] inline void not_taken() {
    std::cout << "not taken\n";
    std::exit(3);
}

// What a format tells beside each vertex's neighbours.
struct Format {
    bool labels = false, directed = false, edge_labels = false;

    static Format named(const std::string &name) {
        if (name == "vertexlabelledlad") return {true, false, false};
        if (name == "directedlad") return {false, true, false};
        if (name == "labelledlad") return {true, true, true};
        return {};
    }
};

struct Graph {
    std::vector<uint32_t> labels;
    std::vector<std::vector<uint16_t>> near;   // sorted, without the vertex itself; with directions those that its edges lead to
    std::vector<std::vector<uint32_t>> kinds;  // the labels of these edges, all 0 where edges have none
    std::vector<bool> loop;
    std::vector<uint32_t> loop_kind;
    bool directed = false;

    size_t size() const { return labels.size(); }

    static Graph read(const char *path, Format format) {
        std::ifstream file(path);
        size_t size;
        if (!(file >> size)) {
            std::cerr << path << " can't be read\n";
            std::exit(4);
        }
        Graph graph;
        graph.directed = format.directed;
        graph.labels.assign(size, 0);
        graph.loop.assign(size, false);
        graph.loop_kind.assign(size, 0);
        std::vector<std::vector<std::pair<uint16_t, uint32_t>>> rows(size);
        for (size_t v = 0; v < size; v++) {
            size_t count, u;
            if (format.labels) file >> graph.labels[v];
            for (file >> count; count > 0 && file >> u; count--) {
                uint32_t kind = 0;
                if (format.edge_labels) file >> kind;
                if (u == v) graph.loop[v] = true, graph.loop_kind[v] = kind;
                else {
                    rows[v].push_back({u, kind});
                    if (!format.directed) rows[u].push_back({v, kind});
                }
            }
        }
        graph.near.resize(size);
        graph.kinds.resize(size);
        for (size_t v = 0; v < size; v++) {
            std::sort(rows[v].begin(), rows[v].end());
            rows[v].erase(std::unique(rows[v].begin(), rows[v].end()), rows[v].end());
            for (auto [u, kind] : rows[v]) graph.near[v].push_back(u), graph.kinds[v].push_back(kind);
        }
        return graph;
    }
};

// Calls `visit` with the ends and the label of each edge, one without directions once.
template <class Visit> void each_edge(const Graph &graph, Visit visit) {
    for (size_t v = 0; v < graph.size(); v++)
        for (size_t i = 0; i < graph.near[v].size(); i++)
            if (graph.directed || v < graph.near[v][i]) visit(v, graph.near[v][i], graph.kinds[v][i]);
}

// What a single vertex asks of its image.
inline bool fits(const Graph &pattern, const Graph &target, bool induced, size_t p, size_t t) {
    return pattern.labels[p] == target.labels[t] &&
           (pattern.loop[p] ? target.loop[t] && pattern.loop_kind[p] == target.loop_kind[t] : !induced || !target.loop[t]);
}

struct Asked {
    std::vector<const char *> files;
    const char *list = nullptr;
    bool induced = false;
    Format format;
    uint64_t seed = 0, budget = UINT64_MAX;

    Asked(int count, char **words) {
        for (int i = 1; i < count; i++) {
            std::string word = words[i];
            if (word == "--induced") induced = true;
            else if (word == "--map" || word == "--less") not_taken();
            else if (word == "--list" && i + 1 < count) list = words[++i];
            else if (word == "--format" && i + 1 < count) format = Format::named(words[++i]);
            else if (word == "--seed" && i + 1 < count) seed = std::strtoull(words[++i], nullptr, 10);
            else if (word == "--budget" && i + 1 < count) budget = std::strtoull(words[++i], nullptr, 10);
            else files.push_back(words[i]);
        }
        if (files.size() != (list ? 0 : 2)) {
            std::cerr << "PATTERN TARGET [--induced] [--format F], or --list LIST [--format F]\n";
            std::exit(3);
        }
    }
};

// Prints the answer and the map, and gives the status.
template <class Image> int told(bool found, size_t size, Image image) {
    std::cout << (found ? "yes\n" : "none\n");
    for (size_t p = 0; found && p < size; p++) std::cout << p << " -> " << image(p) << "\n";
    return found ? 0 : 1;
}

// The images of the pattern's vertices, or none.
using Images = std::optional<std::vector<size_t>>;

// Answers the one question of the words; or with a list each of its lines, a pattern and a target, as `subgraph batch` does. `search` gets both
// graphs.
template <class Search> int answer_all(const Asked &asked, Search search) {
    if (!asked.list) {
        Images found = search(Graph::read(asked.files[0], asked.format), Graph::read(asked.files[1], asked.format));
        return told(found.has_value(), found ? found->size() : 0, [&](size_t p) { return (*found)[p]; });
    }
    std::ifstream list(asked.list);
    std::string pattern, target;
    for (size_t job = 1; list >> pattern >> target; job++) {
        Images found = search(Graph::read(pattern.c_str(), asked.format), Graph::read(target.c_str(), asked.format));
        std::cout << job << (found ? ": yes" : ": none");
        for (size_t image : found.value_or(std::vector<size_t>())) std::cout << " " << image;
        std::cout << "\n";
    }
    return 0;
}
