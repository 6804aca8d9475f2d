// The peer: Boost's maximum flows on the halving problems of a tile, and the rounds around them, worked out apart from the library.
#pragma once

#include "scenes.hpp"

#include <chrono>
#include <vector>

using Seconds = std::chrono::duration<double>;
using Marks = std::vector<char>; // 1 for a cell that goes into the upper half of its bracket

// The rounds of a scene: brackets, and the problem that they pose.
class Rounds {
  public:
    explicit Rounds(const Scene &scene);

    // how many are due
    int due() const;

    // the tile as it stands, charged
    Charged charged() const;

    // halves every bracket
    void narrow(const Marks &marks);

    // what the low ends cost
    long long energy() const;

    const std::vector<int> &low() const { return low_; }
    const std::vector<int> &high() const { return high_; }

  private:
    const Scene &scene_;
    std::vector<int> low_, high_;
};

enum class Method { boykov_kolmogorov, push_relabel };

// One cut: the time to make the graph, the time of the flow alone, and the smallest cheapest set.
struct Cut {
    Seconds making{0}, flowing{0};
    Marks marks;
};

Cut peer_cut(const Charged &tile, Method method);
