// VF2 (L. P. Cordella, P. Foggia, C. Sansone, M. Vento, 2004) as Boost has it. Build: g++ -std=c++17 -O3 boost_vf2.cpp
#include "graphs.h"
#include <boost/graph/adjacency_list.hpp>
#include <boost/graph/vf2_sub_graph_iso.hpp>

typedef boost::property<boost::edge_name_t, uint32_t> Kind;
typedef boost::adjacency_list<boost::setS, boost::vecS, boost::undirectedS> Plain;
typedef boost::adjacency_list<boost::setS, boost::vecS, boost::bidirectionalS> Directed;
typedef boost::adjacency_list<boost::setS, boost::vecS, boost::bidirectionalS, boost::no_property, Kind> Labelled;

static void join(Plain &graph, size_t v, size_t u, uint32_t) { add_edge(v, u, graph); }
static void join(Directed &graph, size_t v, size_t u, uint32_t) { add_edge(v, u, graph); }
static void join(Labelled &graph, size_t v, size_t u, uint32_t kind) { add_edge(v, u, Kind(kind), graph); }

static boost::always_equivalent same_kind(const Plain &, const Plain &) { return {}; }
static boost::always_equivalent same_kind(const Directed &, const Directed &) { return {}; }
static auto same_kind(const Labelled &small, const Labelled &large) {
    return boost::make_property_map_equivalent(get(boost::edge_name, small), get(boost::edge_name, large));
}

template <class Edges> static Images answer(const Asked &asked, const Graph &pattern, const Graph &target) {
    Images found;
    if (pattern.size() <= target.size()) {
        Edges small(pattern.size()), large(target.size());
        each_edge(pattern, [&](size_t v, size_t u, uint32_t kind) { join(small, v, u, kind); });
        each_edge(target, [&](size_t v, size_t u, uint32_t kind) { join(large, v, u, kind); });
        auto take = [&](auto forward, auto) {
            found.emplace();
            for (size_t p = 0; p < pattern.size(); p++) found->push_back(get(forward, p));
            return false;
        };
        auto fit = [&](size_t p, size_t t) { return fits(pattern, target, asked.induced, p, t); };
        auto order = boost::vertex_order_by_mult(small);
        auto ids = get(boost::vertex_index, small), target_ids = get(boost::vertex_index, large);
        auto same = same_kind(small, large);
        if (asked.induced) boost::vf2_subgraph_iso(small, large, take, ids, target_ids, order, same, fit);
        else boost::vf2_subgraph_mono(small, large, take, ids, target_ids, order, same, fit);
    }
    return found;
}

int main(int count, char **words) {
    Asked asked(count, words);
    return answer_all(asked, [&](const Graph &pattern, const Graph &target) {
        if (asked.format.edge_labels) return answer<Labelled>(asked, pattern, target);
        if (asked.format.directed) return answer<Directed>(asked, pattern, target);
        return answer<Plain>(asked, pattern, target);
    });
}
