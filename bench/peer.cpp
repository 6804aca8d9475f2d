#include "peer.hpp"

#include <boost/graph/adjacency_list.hpp>
#include <boost/graph/boykov_kolmogorov_max_flow.hpp>
#include <boost/graph/push_relabel_max_flow.hpp>

#include <algorithm>
#include <cstdlib>
#include <stdexcept>

namespace {

// What a height costs a cell.
long long price(char letter, int reading, int trust, int height) {
    const long long weight = trust * (trust + 1) / 2, off = std::abs(height - reading);
    switch (letter) {
    case 'A': return weight * off;
    case 'Q': return weight * off * off;
    case 'L': return height > reading ? 4 * weight * off : weight * off;
    default: throw std::invalid_argument("no such rule");
    }
}

// -1, 0 or 1: which of two brackets lies below the other.
int compare(int low, int other) { return low < other ? -1 : low > other ? 1 : 0; }

} // namespace

Rounds::Rounds(const Scene &scene)
    : scene_(scene), low_(scene.cells(), 0), high_(scene.cells(), scene.top) {}

int Rounds::due() const {
    int rounds = 0;
    while ((1 << rounds) < scene_.top + 1) ++rounds;
    return rounds;
}

Charged Rounds::charged() const {
    const int n = scene_.cells();
    Charged tile{scene_.rows, scene_.columns, scene_.top, std::vector<int>(n, 0), low_, high_, scene_.right, scene_.down};
    for (int cell = 0; cell < n; ++cell) {
        if (tile.is_settled(cell)) continue;
        const int middle = (low_[cell] + high_[cell]) / 2;
        tile.charge[cell] = static_cast<int>(price(scene_.letter, scene_.reading[cell], scene_.trust[cell], middle + 1) -
                                             price(scene_.letter, scene_.reading[cell], scene_.trust[cell], middle));
    }
    // a tie to a lower bracket pulls down, one to a higher bracket up
    auto pull = [&](int cell, int other, int weight) {
        if (weight == 0) return;
        if (!tile.is_settled(cell)) tile.charge[cell] += weight * compare(low_[cell], low_[other]);
        if (!tile.is_settled(other)) tile.charge[other] += weight * compare(low_[other], low_[cell]);
    };
    for (int cell = 0; cell < n; ++cell) {
        if (cell % scene_.columns + 1 < scene_.columns) pull(cell, cell + 1, scene_.right[cell]);
        if (cell + scene_.columns < n) pull(cell, cell + scene_.columns, scene_.down[cell]);
    }
    return tile;
}

void Rounds::narrow(const Marks &marks) {
    for (int cell = 0; cell < scene_.cells(); ++cell) {
        const int middle = (low_[cell] + high_[cell]) / 2;
        if (marks[cell])
            low_[cell] = middle + 1;
        else
            high_[cell] = middle;
    }
}

long long Rounds::energy() const {
    long long sum = 0;
    for (int cell = 0; cell < scene_.cells(); ++cell) {
        sum += price(scene_.letter, scene_.reading[cell], scene_.trust[cell], low_[cell]);
        if (cell % scene_.columns + 1 < scene_.columns)
            sum += static_cast<long long>(scene_.right[cell]) * std::abs(low_[cell] - low_[cell + 1]);
        if (cell + scene_.columns < scene_.cells())
            sum += static_cast<long long>(scene_.down[cell]) * std::abs(low_[cell] - low_[cell + scene_.columns]);
    }
    return sum;
}

// ---- one cut

namespace {

using Directed = boost::adjacency_list_traits<boost::vecS, boost::vecS, boost::directedS>;

struct Arc {
    int capacity = 0, residual = 0;
    Directed::edge_descriptor reverse;
};

struct Node {
    boost::default_color_type color = boost::white_color;
    int distance = 0;
    Directed::edge_descriptor predecessor;
};

using Network = boost::adjacency_list<boost::vecS, boost::vecS, boost::directedS, Node, Arc>;

// The nodes of the cells that are not settled, after the source and the sink; -1 for the others, which are left out.
std::vector<int> nodes_of(const Charged &tile) {
    std::vector<int> node(tile.cells(), -1);
    int next = 2;
    for (int cell = 0; cell < tile.cells(); ++cell)
        if (!tile.is_settled(cell)) node[cell] = next++;
    return node;
}

// The problem as a network: an arc from the source to each cell that gains by its mark, one to the sink from each cell that
// loses, and arcs both ways over each live tie.
struct Problem {
    std::vector<int> node;
    Network network;
    int source = 0, sink = 1;

    Problem(const Charged &tile, Method method);
    void join(int from, int to, int forth, int back);
};

void Problem::join(int from, int to, int forth, int back) {
    const auto one = add_edge(from, to, network).first;
    const auto other = add_edge(to, from, network).first;
    network[one].capacity = forth;
    network[other].capacity = back;
    network[one].reverse = other;
    network[other].reverse = one;
}

// Boykov and Kolmogorov's method takes the two arcs of a tie as each other's reverse; push-relabel wants reverse arcs that have no
// capacity of their own.
Problem::Problem(const Charged &tile, Method method)
    : node(nodes_of(tile)), network(2 + std::count_if(node.begin(), node.end(), [](int k) { return k >= 0; })) {
    auto tie = [&](int cell, int other, int weight) {
        if (weight == 0 || !tile.is_live(cell, other)) return;
        if (method == Method::boykov_kolmogorov) {
            join(node[cell], node[other], weight, weight);
        } else {
            join(node[cell], node[other], weight, 0);
            join(node[other], node[cell], weight, 0);
        }
    };
    long long gains = 0;
    for (int cell = 0; cell < tile.cells(); ++cell) {
        if (node[cell] < 0) continue;
        const int charge = tile.charge[cell];
        if (charge < 0) join(source, node[cell], -charge, 0);
        if (charge > 0) join(node[cell], sink, charge, 0);
        if (charge < 0) gains -= charge;
        if (cell % tile.columns + 1 < tile.columns) tie(cell, cell + 1, tile.right[cell]);
        if (cell + tile.columns < tile.cells()) tie(cell, cell + tile.columns, tile.down[cell]);
    }
    if (gains >= 1ll << 31) throw std::overflow_error("a flow of 2^31 and more");
}

void find_flow(Problem &problem, Method method) {
    Network &g = problem.network;
    const auto capacity = get(&Arc::capacity, g);
    const auto residual = get(&Arc::residual, g);
    const auto reverse = get(&Arc::reverse, g);
    const auto index = get(boost::vertex_index, g);
    if (method == Method::boykov_kolmogorov)
        boost::boykov_kolmogorov_max_flow(g, capacity, residual, reverse, get(&Node::predecessor, g), get(&Node::color, g),
                                          get(&Node::distance, g), index, problem.source, problem.sink);
    else
        boost::push_relabel_max_flow(g, problem.source, problem.sink, capacity, residual, reverse, index);
}

// What arcs that are not full reach from the source is the smallest of the cheapest sets.
Marks reached(const Problem &problem) {
    const Network &g = problem.network;
    std::vector<char> seen(num_vertices(g), 0);
    std::vector<int> waiting{problem.source};
    seen[problem.source] = 1;
    while (!waiting.empty()) {
        const int at = waiting.back();
        waiting.pop_back();
        for (auto [arc, end] = out_edges(at, g); arc != end; ++arc) {
            const int to = static_cast<int>(target(*arc, g));
            if (seen[to] || g[*arc].residual <= 0) continue;
            seen[to] = 1;
            waiting.push_back(to);
        }
    }
    Marks marks(problem.node.size(), 0);
    for (std::size_t cell = 0; cell < marks.size(); ++cell)
        if (problem.node[cell] >= 0) marks[cell] = seen[problem.node[cell]];
    return marks;
}

} // namespace

Cut peer_cut(const Charged &tile, Method method) {
    using Clock = std::chrono::steady_clock;
    const auto start = Clock::now();
    Problem problem(tile, method);
    const auto made = Clock::now();
    find_flow(problem, method);
    const auto found = Clock::now();
    return {made - start, found - made, reached(problem)};
}
