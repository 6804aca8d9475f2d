// The scenes that are measured: tiles to be solved, and one charged tile to be cut alone.
#pragma once

#include <cstdint>
#include <string>
#include <vector>

// A tile of readings, trust classes and ties, cell by cell and row by row, with the letter of its price rule: A, Q or L.
struct Scene {
    std::string name;
    bool terrain;
    char letter;
    int rows, columns, top;
    std::vector<int> reading, trust, right, down;

    int cells() const { return rows * columns; }
};

// A tile that is charged, so that one cut can be made of it. A tie is live where both its ends have the same bracket, whose low and
// high end differ.
struct Charged {
    int rows, columns, top;
    std::vector<int> charge, low, high, right, down;

    int cells() const { return rows * columns; }
    bool is_settled(int cell) const { return low[cell] == high[cell]; }
    bool is_live(int cell, int other) const {
        return !is_settled(cell) && low[cell] == low[other] && high[cell] == high[other];
    }
};

// The same in every run.
std::vector<Scene> all_scenes();
Charged long_tile();

// The bytes of a scene's tile file.
std::vector<std::uint8_t> tile_file(const Scene &scene);
