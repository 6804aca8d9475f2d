// Reads one scene and does its rounds again and again, for a profiler to look at (bench/passes.sh).
//
//     loop SCENE TIMES
#include "library.hpp"

#include <cstdio>
#include <cstdlib>

int main(int count, char **words) {
    if (count != 3) {
        std::fprintf(stderr, "usage: loop SCENE TIMES\n");
        return 2;
    }
    const Scene scene = all_scenes().at(std::atoi(words[1]));
    const auto file = tile_file(scene);
    int due = 0;
    while ((1 << due) <= scene.top) ++due;
    Tile tile(Maker::push_relabel, scene.cells());
    for (int k = std::atoi(words[2]); k > 0; --k) {
        tile.begin(scene, file);
        for (int round = 0; round < due; ++round) tile.round();
    }
    std::printf("%s", scene.name.c_str());
    return 0;
}
