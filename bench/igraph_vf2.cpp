// VF2 (L. P. Cordella, P. Foggia, C. Sansone, M. Vento, 2004) as igraph has it, which is not for the induced kind. Build:
// g++ -O3 igraph_vf2.cpp $(pkg-config --cflags --libs igraph)
#include "igraph_graphs.h"

struct Both {
    const Graph *pattern, *target;
};

// igraph names the larger graph first.
static igraph_bool_t may_go(const igraph_t *, const igraph_t *, const igraph_integer_t t, const igraph_integer_t p, void *both) {
    auto graphs = static_cast<Both *>(both);
    return fits(*graphs->pattern, *graphs->target, false, p, t);
}

static void colours(const Graph &from, igraph_vector_int_t *colour) {
    igraph_vector_int_init(colour, 0);
    each_edge(from, [&](size_t, size_t, uint32_t kind) { igraph_vector_int_push_back(colour, kind); });
}

static Images search(const Graph &pattern, const Graph &target, bool coloured) {
    if (pattern.size() > target.size()) return {};
    igraph_t small, large;
    build(pattern, &small);
    build(target, &large);
    igraph_vector_int_t small_colours, large_colours, map;
    colours(pattern, &small_colours);
    colours(target, &large_colours);
    igraph_vector_int_init(&map, 0);
    igraph_bool_t found = 0;
    Both both{&pattern, &target};
    igraph_subisomorphic_vf2(&large, &small, nullptr, nullptr, coloured ? &large_colours : nullptr, coloured ? &small_colours : nullptr, &found,
                             nullptr, &map, may_go, nullptr, &both);
    Images images;
    if (found) images.emplace(VECTOR(map), VECTOR(map) + pattern.size());
    for (auto it : {&small_colours, &large_colours, &map}) igraph_vector_int_destroy(it);
    for (auto it : {&small, &large}) igraph_destroy(it);
    return images;
}

int main(int count, char **words) {
    Asked asked(count, words);
    if (asked.induced) not_taken();
    return answer_all(asked, [&](const Graph &pattern, const Graph &target) { return search(pattern, target, asked.format.edge_labels); });
}
