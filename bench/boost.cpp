// Boost's boyer_myrvold_planarity_test, with the containers of its own examples.
#include "programs.h"

#include <boost/graph/adjacency_list.hpp>
#include <boost/graph/boyer_myrvold_planar_test.hpp>
#include <iterator>
#include <vector>

namespace {

using Graph = boost::adjacency_list<boost::vecS, boost::vecS, boost::undirectedS, boost::no_property,
                                    boost::property<boost::edge_index_t, int>>;
using Edge = boost::graph_traits<Graph>::edge_descriptor;
namespace parameters = boost::boyer_myrvold_params;

struct Built {
    explicit Built(const network &from) : graph(from.vertices) {
        for (std::size_t line = 0; line < from.lines; line++)
            add_edge(from.ends[2 * line], from.ends[2 * line + 1], static_cast<int>(line), graph);
    }

    Graph graph;
    std::vector<std::vector<Edge>> embedding;
    std::vector<Edge> obstruction;
};

void *build(const network *from) {
    return new Built(*from);
}

int test(void *built) {
    return boost::boyer_myrvold_planarity_test(static_cast<Built *>(built)->graph) ? FLAT : NOT_FLAT;
}

int embed(void *built) {
    Built &own = *static_cast<Built *>(built);
    own.embedding.resize(num_vertices(own.graph));
    bool flat = boost::boyer_myrvold_planarity_test(parameters::graph = own.graph, parameters::embedding = &own.embedding[0]);
    return flat ? FLAT : NOT_FLAT;
}

int reason(void *built) {
    Built &own = *static_cast<Built *>(built);
    bool flat = boost::boyer_myrvold_planarity_test(parameters::graph = own.graph,
                                                    parameters::kuratowski_subgraph = std::back_inserter(own.obstruction));
    return flat ? FLAT : NOT_FLAT;
}

void order(void *built, uint16_t *order) {
    Built &own = *static_cast<Built *>(built);
    auto numbers = get(boost::edge_index, own.graph);
    for (const auto &around : own.embedding)
        for (const Edge &edge : around)
            *order++ = static_cast<uint16_t>(numbers[edge]);
}

void release(void *built) {
    delete static_cast<Built *>(built);
}

} // namespace

extern const program boost_peer = {"Boost", build, test, embed, reason, order, release};
