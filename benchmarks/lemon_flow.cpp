// Times LEMON's Preflow on a problem of selection, for planner.py.
//
// Standard input has the numbers of links and points, the gains, the charges, the costs, and for each link the number of its
// needs and the needs; a word of the command line says how many runs there are, else seven. A charge is a private point of its
// link: a node with an arc from the link, and an arc to the sink of that capacity; where there is none there is no node. Standard
// output has the value of the flow, and the least seconds that a run took of a processor: Preflow made, run, and the source's side
// of a least cut read, over a network that was built before.
#include <cstdio>
#include <cstdlib>
#include <ctime>
#include <lemon/preflow.h>
#include <lemon/smart_graph.h>
#include <vector>

using namespace lemon;

static long long number() {
    long long read = 0;
    if (std::scanf("%lld", &read) != 1) read = 0;
    return read;
}

int main(int count, char **words) {
    const int runs = count > 1 ? std::atoi(words[1]) : 7;
    const int links = static_cast<int>(number()), points = static_cast<int>(number());
    SmartDigraph graph;
    graph.reserveNode(links + points + 2);
    std::vector<SmartDigraph::Node> nodes;
    for (int node = 0; node < links + points + 2; ++node) nodes.push_back(graph.addNode());
    const auto source = nodes[links + points], sink = nodes[links + points + 1];
    SmartDigraph::ArcMap<long long> room(graph);
    long long all = 0;
    for (int link = 0; link < links; ++link) {
        const long long gain = number();
        all += gain;
        room[graph.addArc(source, nodes[link])] = gain;
    }
    for (int link = 0; link < links; ++link) {
        const long long charge = number();
        if (charge == 0) continue;
        const auto own = graph.addNode();
        room[graph.addArc(nodes[link], own)] = all;
        room[graph.addArc(own, sink)] = charge;
    }
    for (int point = 0; point < points; ++point) room[graph.addArc(nodes[links + point], sink)] = number();
    for (int link = 0; link < links; ++link)
        for (long long needs = number(); needs > 0; --needs)
            room[graph.addArc(nodes[link], nodes[links + number()])] = all;
    double least = 1e9;
    long long value = 0;
    for (int turn = 0; turn < runs; ++turn) {
        const std::clock_t start = std::clock();
        Preflow<SmartDigraph, SmartDigraph::ArcMap<long long>> preflow(graph, room, source, sink);
        preflow.run();
        int chosen = 0;
        for (int link = 0; link < links; ++link) chosen += preflow.minCut(nodes[link]);
        const double taken = double(std::clock() - start) / CLOCKS_PER_SEC;
        value = preflow.flowValue();
        if (chosen >= 0 && taken < least) least = taken;
    }
    std::printf("%lld %.9f\n", value, least);
}
