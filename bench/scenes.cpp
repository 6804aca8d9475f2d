#include "scenes.hpp"

#include <algorithm>
#include <cstdlib>
#include <numeric>

namespace {

constexpr int side = 64;
constexpr int top = 1023;
constexpr int most_tie = 10000;

// Pseudo-random numbers from a seed.
class Random {
  public:
    explicit Random(std::uint64_t seed) : state(seed) {}

    // from least to most, both included
    int between(int least, int most) {
        state = state * 6364136223846793005u + 1442695040888963407u;
        return least + static_cast<int>((state >> 33) % static_cast<std::uint64_t>(most - least + 1));
    }

  private:
    std::uint64_t state;
};

// A scene with one reading, one class and one weight of all ties.
Scene even_scene(const std::string &name, char letter, int reading, int trust, int tie) {
    const int n = side * side;
    Scene scene{name, false, letter, side, side, top, {}, {}, {}, {}};
    scene.reading.assign(n, reading);
    scene.trust.assign(n, trust);
    scene.right.assign(n, tie);
    scene.down.assign(n, tie);
    return scene;
}

// No tie leads off the edge.
Scene with_edges(Scene scene) {
    for (int cell = 0; cell < scene.cells(); ++cell) {
        if (cell % scene.columns + 1 == scene.columns) scene.right[cell] = 0;
        if (cell + scene.columns >= scene.cells()) scene.down[cell] = 0;
    }
    return scene;
}

// A cone on the ground: so much higher in its middle, and less by the fall with each cell away from it.
struct Hill {
    int row, column, height, fall;

    int at(int i, int j) const { return std::max(0, height - fall * (std::abs(i - row) + std::abs(j - column))); }
};

// A flat roof.
struct Roof {
    int row, column, rows, columns, height;

    int at(int i, int j) const {
        return i >= row && i < row + rows && j >= column && j < column + columns ? height : 0;
    }
};

// Slopes, hills and roofs under noise, with ties of about this weight.
Scene terrain(const std::string &name, std::uint64_t seed, char letter, int weight) {
    Random random(seed);
    Scene scene = even_scene(name, letter, 0, 0, 0);
    scene.terrain = true;
    const int south = random.between(-2, 2), east = random.between(-2, 2);
    std::vector<Hill> hills;
    for (int k = 0; k < 5; ++k)
        hills.push_back({random.between(0, 63), random.between(0, 63), random.between(60, 250), random.between(4, 15)});
    std::vector<Roof> roofs;
    for (int k = 0; k < 3; ++k)
        roofs.push_back({random.between(0, 50), random.between(0, 50), random.between(4, 16), random.between(4, 16), random.between(60, 160)});
    for (int cell = 0; cell < scene.cells(); ++cell) {
        const int i = cell / side, j = cell % side;
        int height = 350 + south * i + east * j;
        for (const Hill &hill : hills) height += hill.at(i, j);
        for (const Roof &roof : roofs) height += roof.at(i, j);
        height += random.between(-20, 20) + random.between(-20, 20);
        scene.reading[cell] = std::clamp(height, 0, top);
        scene.trust[cell] = random.between(2, 12);
        scene.right[cell] = std::min(most_tie, random.between(weight / 2, weight + weight / 2));
        scene.down[cell] = std::min(most_tie, random.between(weight / 2, weight + weight / 2));
    }
    return with_edges(scene);
}

// High and low readings by turns.
Scene checkerboard() {
    Scene scene = even_scene("checkerboard", 'A', 200, 8, 40);
    for (int cell = 0; cell < scene.cells(); ++cell)
        if ((cell / side + cell % side) % 2 == 1) scene.reading[cell] = 800;
    return with_edges(scene);
}

// A low half beside a high one.
Scene halves() {
    Scene scene = even_scene("halves", 'A', 200, 8, 300);
    for (int cell = 0; cell < scene.cells(); ++cell)
        if (cell % side >= side / 2) scene.reading[cell] = 800;
    return with_edges(scene);
}

// One corridor of ties that goes to and fro over the whole tile; only a few cells along it are trusted.
Scene snake() {
    Scene scene = even_scene("snake", 'A', 500, 0, 0);
    Random random(11);
    for (int step = 0; step < scene.cells(); ++step) {
        const int i = step / side, k = step % side;
        const bool eastward = i % 2 == 0;
        const int cell = i * side + (eastward ? k : side - 1 - k);
        const int weight = random.between(9000, 10000);
        if (k + 1 == side)
            scene.down[cell] = weight;
        else
            scene.right[eastward ? cell : cell - 1] = weight;
        if (step % 256 == 0) {
            scene.trust[cell] = 15;
            scene.reading[cell] = random.between(0, top);
        }
    }
    return with_edges(scene);
}

// Corridors of ties without a way round: a spanning tree of the cells, of which one in sixteen is trusted.
Scene maze() {
    Scene scene = even_scene("maze", 'A', 500, 0, 0);
    Random random(12);
    std::vector<int> ties(2 * scene.cells()), joined(scene.cells());
    std::iota(ties.begin(), ties.end(), 0);
    std::iota(joined.begin(), joined.end(), 0);
    for (int k = static_cast<int>(ties.size()) - 1; k > 0; --k) std::swap(ties[k], ties[random.between(0, k)]);
    auto root = [&](int cell) {
        while (joined[cell] != cell) cell = joined[cell] = joined[joined[cell]];
        return cell;
    };
    for (int tie : ties) {
        const int cell = tie / 2;
        const bool rightward = tie % 2 == 0;
        if (rightward ? cell % side + 1 == side : cell + side >= scene.cells()) continue;
        const int a = root(cell), b = root(cell + (rightward ? 1 : side));
        if (a == b) continue;
        joined[a] = b;
        (rightward ? scene.right : scene.down)[cell] = random.between(100, 400);
    }
    for (int cell = 0; cell < scene.cells(); ++cell) {
        if (random.between(0, 15) != 0) continue;
        scene.trust[cell] = random.between(4, 15);
        scene.reading[cell] = random.between(0, top);
    }
    return scene;
}

void put_number(std::vector<std::uint8_t> &bytes, int number) {
    bytes.push_back(static_cast<std::uint8_t>(number >> 8));
    bytes.push_back(static_cast<std::uint8_t>(number));
}

} // namespace

std::vector<Scene> all_scenes() {
    std::vector<Scene> scenes;
    // about half a reading's weight, twice and eight times; a squared price rises with the distance, so its ties weigh more
    struct Strength {
        const char *name;
        int weight, squared;
    };
    const Strength strengths[] = {{"weak", 15, 300}, {"middling", 60, 1200}, {"strong", 240, 4800}};
    std::uint64_t seed = 1;
    for (char letter : {'A', 'Q', 'L'})
        for (const Strength &strength : strengths) {
            const std::string name = std::string("terrain ") + letter + ", " + strength.name;
            scenes.push_back(terrain(name, seed++, letter, letter == 'Q' ? strength.squared : strength.weight));
        }
    scenes.push_back(with_edges(even_scene("flat", 'A', 500, 8, 60)));
    scenes.push_back(checkerboard());
    scenes.push_back(halves());
    scenes.push_back(snake());
    scenes.push_back(maze());
    return scenes;
}

Charged long_tile() {
    const int rows = 256, n = rows * side;
    Random random(13);
    Charged tile{rows, side, top, std::vector<int>(n), std::vector<int>(n, 0), std::vector<int>(n, top), std::vector<int>(n), std::vector<int>(n)};
    for (int cell = 0; cell < n; ++cell) {
        tile.charge[cell] = random.between(-9000, 9000);
        tile.right[cell] = cell % side + 1 == side ? 0 : random.between(0, most_tie / 2);
        tile.down[cell] = cell + side >= n ? 0 : random.between(0, most_tie / 2);
    }
    return tile;
}

std::vector<std::uint8_t> tile_file(const Scene &scene) {
    std::vector<std::uint8_t> bytes;
    put_number(bytes, 1);
    bytes.push_back(static_cast<std::uint8_t>(scene.letter));
    put_number(bytes, 3);
    put_number(bytes, scene.rows);
    put_number(bytes, scene.columns);
    put_number(bytes, scene.top);
    put_number(bytes, scene.cells());
    for (int cell = 0; cell < scene.cells(); ++cell) {
        put_number(bytes, scene.reading[cell]);
        bytes.push_back(static_cast<std::uint8_t>(scene.trust[cell]));
    }
    put_number(bytes, scene.cells());
    for (int cell = 0; cell < scene.cells(); ++cell) {
        put_number(bytes, scene.right[cell]);
        put_number(bytes, scene.down[cell]);
    }
    return bytes;
}
