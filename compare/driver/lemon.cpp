// A call of LEMON's maximum-weight matching on a graph that was made before. For most pairs every weight is
// raised by one amount that outweighs any difference between matchings.
#include <cstddef>
#include <cstdint>
#include <lemon/matching.h>
#include <lemon/smart_graph.h>

namespace {

using Graph = lemon::SmartGraph;
using Weights = Graph::EdgeMap<std::int64_t>;

struct Problem {
    Graph graph;
    Weights weights{graph};
    std::int64_t raised = 0;
};

} // namespace

extern "C" void *lemon_make(std::size_t n, const std::uint16_t *first, const std::uint16_t *second,
                            const std::int64_t *weight, std::size_t m, bool most_pairs) {
    Problem *made = new Problem;
    for (std::size_t node = 0; node < n; node++)
        made->graph.addNode();
    for (std::size_t edge = 0; edge < m; edge++) {
        std::int64_t size = weight[edge] < 0 ? -weight[edge] : weight[edge];
        if (most_pairs && made->raised < 2 * std::int64_t(n) * size + 1)
            made->raised = 2 * std::int64_t(n) * size + 1;
    }
    for (std::size_t edge = 0; edge < m; edge++) {
        Graph::Edge added = made->graph.addEdge(made->graph.nodeFromId(first[edge]), made->graph.nodeFromId(second[edge]));
        made->weights[added] = weight[edge] + made->raised;
    }
    return made;
}

// The total weight of the matching found.
extern "C" std::int64_t lemon_run(void *problem) {
    Problem *made = static_cast<Problem *>(problem);
    lemon::MaxWeightedMatching<Graph, Weights> matching(made->graph, made->weights);
    matching.run();
    return matching.matchingWeight() - made->raised * matching.matchingSize();
}
