// LAD (C. Solnon, 2010) as igraph has it; it knows no labels of edges. Build: g++ -O3 igraph_lad.cpp $(pkg-config --cflags --libs igraph)
#include "igraph_graphs.h"

int main(int count, char **words) {
    Asked asked(count, words);
    if (asked.format.edge_labels) not_taken();
    Graph pattern = Graph::read(asked.files[0], asked.format), target = Graph::read(asked.files[1], asked.format);
    igraph_t small, large;
    build(pattern, &small);
    build(target, &large);
    igraph_vector_int_list_t domains;
    igraph_vector_int_list_init(&domains, pattern.size());
    bool possible = pattern.size() <= target.size();
    for (size_t p = 0; p < pattern.size(); p++) {
        igraph_vector_int_t *domain = igraph_vector_int_list_get_ptr(&domains, p);
        for (size_t t = 0; t < target.size(); t++)
            if (fits(pattern, target, asked.induced, p, t)) igraph_vector_int_push_back(domain, t);
        possible = possible && igraph_vector_int_size(domain) > 0;
    }
    igraph_bool_t found = 0;
    igraph_vector_int_t map;
    igraph_vector_int_init(&map, 0);
    if (possible) igraph_subisomorphic_lad(&small, &large, &domains, &found, &map, nullptr, asked.induced, 0);
    return told(found, pattern.size(), [&](size_t p) { return VECTOR(map)[p]; });
}
