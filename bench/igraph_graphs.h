// Graphs of igraph from LAD text.
#pragma once
#include "graphs.h"
#include <igraph.h>

// The edges stand in the order of `each_edge`.
inline void build(const Graph &from, igraph_t *graph) {
    igraph_vector_int_t ends;
    igraph_vector_int_init(&ends, 0);
    each_edge(from, [&](size_t v, size_t u, uint32_t) {
        igraph_vector_int_push_back(&ends, v);
        igraph_vector_int_push_back(&ends, u);
    });
    igraph_create(graph, &ends, from.size(), from.directed ? IGRAPH_DIRECTED : IGRAPH_UNDIRECTED);
    igraph_vector_int_destroy(&ends);
}
