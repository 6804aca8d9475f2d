// The library's side, by its C interface and by the calls of bench_host.h: memory for records, workspace and heights, and the calls on it.
#pragma once

#include "peer.hpp"
#include "scenes.hpp"

#include "bench_host.h"

#include <cstdint>
#include <vector>

enum class Maker { push_relabel, augmenting_paths };

// One tile in the library's records. A refusal ends the program, as none is due.
class Tile {
  public:
    Tile(Maker maker, int cells);

    // Solves a tile file; answers the energy, and the low ends are the heights.
    long long solve(const std::vector<std::uint8_t> &file);

    // The same round by round: a scene's file is read as a draft, and then comes one round after the other.
    void begin(const Scene &scene, const std::vector<std::uint8_t> &file);
    void round();

    // Lays a charged tile into the records; cuts what was laid.
    void lay(const Charged &charged);
    void cut();

    Marks marks() const;
    std::vector<int> low() const;
    std::vector<int> high() const;

  private:
    Maker maker_;
    std::vector<yolanthuk_cell> records_;
    std::vector<std::uint16_t> entries_, heights_;
    std::size_t rows_ = 0, columns_ = 0;
    std::uint16_t top_ = 0;
    std::uint8_t done_ = 0, letter_ = 0;
};
