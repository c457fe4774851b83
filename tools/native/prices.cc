// glb-prices: a transport problem's optimum and its dual variables, by the network simplex of LEMON.
//
//     glb-prices < PROBLEM > ANSWER
//
// Numbers are signed 64-bit integers in the machine's order. The problem: the counts of nodes and arcs, each node's
// supply, then of all arcs their sources, targets, capacities and costs. The answer: each node's potential, then each
// arc's flow. Status 0 says that the answer is there, 2 that the problem cannot be read or has no flow, 3 that there is
// no memory, 4 that the answer cannot be written. glb_tools/planning/prices.py asks it, and proves the answer by itself.

#include <lemon/network_simplex.h>
#include <lemon/smart_graph.h>

#include <cstdint>
#include <cstdio>
#include <new>
#include <string>
#include <vector>

#ifndef VERSION
#define VERSION "unpackaged"
#endif

namespace {

using Number = std::int64_t;
using Simplex = lemon::NetworkSimplex<lemon::SmartDigraph, Number, Number>;
enum Status { done = 0, no_problem = 2, no_memory = 3, not_written = 4, wrong_words = 64 };
constexpr const char* help =
    "usage: glb-prices < PROBLEM > ANSWER\n"
    "\n"
    "Solves a transport problem for glb-topology, and writes its dual variables and its flow.\n"
    "\n"
    "exit status:\n"
    "  0     the answer is on standard output\n"
    "  2     the problem cannot be read, or has no flow\n"
    "  3     there is no memory\n"
    "  4     the answer cannot be written\n"
    "  64    a word that the command does not have\n";
// more than any topology has: 65,536 units of 8,192 pools
constexpr Number most_nodes = Number{1} << 24, most_arcs = Number{1} << 29;

bool read(std::vector<Number>& numbers) {
    return std::fread(numbers.data(), sizeof(Number), numbers.size(), stdin) == numbers.size();
}

bool write(const std::vector<Number>& numbers) {
    return std::fwrite(numbers.data(), sizeof(Number), numbers.size(), stdout) == numbers.size();
}

Status solve() {
    std::vector<Number> counts(2);
    if (!read(counts)) return no_problem;
    const Number nodes = counts[0], arcs = counts[1];
    if (nodes < 1 || nodes > most_nodes || arcs < 1 || arcs > most_arcs) return no_problem;
    std::vector<Number> supplies(nodes), sources(arcs), targets(arcs), capacities(arcs), costs(arcs);
    for (auto* numbers : {&supplies, &sources, &targets, &capacities, &costs})
        if (!read(*numbers)) return no_problem;

    lemon::SmartDigraph graph;
    graph.reserveNode(static_cast<int>(nodes));
    graph.reserveArc(static_cast<int>(arcs));
    for (Number node = 0; node < nodes; ++node) graph.addNode();
    for (Number arc = 0; arc < arcs; ++arc) {
        if (sources[arc] < 0 || sources[arc] >= nodes || targets[arc] < 0 || targets[arc] >= nodes || capacities[arc] < 0)
            return no_problem;
        graph.addArc(graph.nodeFromId(static_cast<int>(sources[arc])), graph.nodeFromId(static_cast<int>(targets[arc])));
    }
    lemon::SmartDigraph::NodeMap<Number> supply(graph);
    lemon::SmartDigraph::ArcMap<Number> capacity(graph), cost(graph);
    for (Number node = 0; node < nodes; ++node) supply[graph.nodeFromId(static_cast<int>(node))] = supplies[node];
    for (Number arc = 0; arc < arcs; ++arc) {
        capacity[graph.arcFromId(static_cast<int>(arc))] = capacities[arc];
        cost[graph.arcFromId(static_cast<int>(arc))] = costs[arc];
    }

    Simplex simplex(graph);
    simplex.supplyMap(supply).upperMap(capacity).costMap(cost);
    if (simplex.run() != Simplex::OPTIMAL) return no_problem;
    for (Number node = 0; node < nodes; ++node) supplies[node] = simplex.potential(graph.nodeFromId(static_cast<int>(node)));
    for (Number arc = 0; arc < arcs; ++arc) costs[arc] = simplex.flow(graph.arcFromId(static_cast<int>(arc)));
    return write(supplies) && write(costs) && std::fflush(stdout) == 0 ? done : not_written;
}

}  // namespace

int main(int count, char** words) {
    const std::string word = count > 1 ? words[1] : "";
    if (word == "--version") return std::puts("glb-prices " VERSION) < 0 ? not_written : done;
    if (word == "--help") return std::fputs(help, stdout) < 0 ? not_written : done;
    if (count > 1) return std::fputs("glb-prices: it takes no words but --help and --version\n", stderr), wrong_words;
    try {
        return solve();
    } catch (const std::bad_alloc&) {
        return no_memory;
    }
}
