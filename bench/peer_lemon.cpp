// LEMON's network simplex, on whole numbers: costs are multiplied by the network's scale.
#include "peer.h"

#include <lemon/network_simplex.h>
#include <lemon/smart_graph.h>
#include <memory>
#include <vector>

using lemon::SmartDigraph;
using Simplex = lemon::NetworkSimplex<SmartDigraph, long long, long long>;

namespace {

struct Model {
    SmartDigraph graph;
    SmartDigraph::ArcMap<long long> capacity{graph}, cost{graph};
    SmartDigraph::NodeMap<long long> supply{graph};
    std::vector<SmartDigraph::Arc> band[MAX_LEVELS];
    std::unique_ptr<Simplex> simplex;
};

std::unique_ptr<Model> model;

void load(const network *w)
{
    model = std::make_unique<Model>();
    auto &m = *model;
    std::vector<SmartDigraph::Node> interval;
    auto sink = m.graph.addNode();
    long long sum = 0;
    for (int i = 0; i < w->intervals; i++)
        interval.push_back(m.graph.addNode());
    // a job's cycles are the supply of its node: the arcs from one common source would only pass them on
    for (int j = 0; j < w->jobs; j++) {
        auto job = m.graph.addNode();
        m.supply[job] = w->cycles[j];
        sum += w->cycles[j];
        for (int i = w->first[j]; i < w->last[j]; i++) {
            auto arc = m.graph.addArc(job, interval[i]);
            m.capacity[arc] = w->cycles[j];
            m.cost[arc] = 0;
        }
    }
    m.supply[sink] = -sum;
    for (int i = 0; i < w->intervals; i++)
        for (int k = 0; k < w->bands; k++) {
            auto arc = m.graph.addArc(interval[i], sink);
            m.capacity[arc] = w->size[i] * w->gap[k];
            m.cost[arc] = w->price[k];
            m.band[k].push_back(arc);
        }
    m.simplex = std::make_unique<Simplex>(m.graph);
    m.simplex->upperMap(m.capacity).costMap(m.cost).supplyMap(m.supply);
}

int solve()
{
    return model->simplex->run() == Simplex::OPTIMAL;
}

void answer(totals *t)
{
    for (int k = 0; k < MAX_LEVELS; k++) {
        t->band[k] = 0;
        for (auto arc : model->band[k])
            t->band[k] += model->simplex->flow(arc);
    }
}

void unload()
{
    model.reset();
}

}

extern "C" const struct peer lemon_peer = { "LEMON", load, nullptr, solve, answer, unload };
