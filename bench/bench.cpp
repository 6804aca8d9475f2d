// Measures solves by both cut makers against Boost's maximum flows on the same problems in the same process, and prints ratios.
//
//     bench [REPEATS]
//
// The exit status is 1 where an energy, a bracket or a mark does not agree.
#include "library.hpp"

#include <algorithm>
#include <cmath>
#include <cstdio>
#include <cstdlib>
#include <fstream>
#include <functional>
#include <map>
#include <numeric>
#include <string>
#include <thread>

namespace {

// What is timed.
enum Timed { push_solve, paths_solve, push_cuts, paths_cuts, bk_flow, bk_graph, pr_flow, timed_things };

// The times of one scene, of each repeat; a time is told by its median.
class Times {
  public:
    void add(Timed what, Seconds time) { samples_[what].push_back(time.count()); }

    double median(Timed what) const {
        std::vector<double> sorted = samples_[what];
        std::sort(sorted.begin(), sorted.end());
        const std::size_t n = sorted.size();
        return n == 0 ? 0 : (sorted[(n - 1) / 2] + sorted[n / 2]) / 2;
    }

  private:
    std::vector<double> samples_[timed_things];
};

Seconds time_of(const std::function<void()> &work) {
    const auto start = std::chrono::steady_clock::now();
    work();
    return std::chrono::steady_clock::now() - start;
}

// ---- agreement

// Does every round of both makers leave the brackets, and every cut the marks, that both of the peer's methods give? Answers the
// problems of the rounds by the way.
bool rounds_agree(const Scene &scene, std::vector<Charged> &problems) {
    Rounds rounds(scene);
    Tile by_push(Maker::push_relabel, scene.cells()), by_paths(Maker::augmenting_paths, scene.cells());
    const auto file = tile_file(scene);
    by_push.begin(scene, file);
    by_paths.begin(scene, file);
    bool agree = true;
    for (int round = 0; round < rounds.due(); ++round) {
        problems.push_back(rounds.charged());
        const Marks marks = peer_cut(problems.back(), Method::boykov_kolmogorov).marks;
        agree = agree && peer_cut(problems.back(), Method::push_relabel).marks == marks;
        rounds.narrow(marks);
        for (Tile *tile : {&by_push, &by_paths}) {
            tile->round();
            agree = agree && tile->marks() == marks && tile->low() == rounds.low() && tile->high() == rounds.high();
        }
    }
    for (Tile *tile : {&by_push, &by_paths})
        agree = agree && tile->solve(file) == rounds.energy() && tile->low() == rounds.low();
    return agree;
}

// Do both makers and both of the peer's methods mark the same cells?
bool cuts_agree(const Charged &charged) {
    const Marks marks = peer_cut(charged, Method::boykov_kolmogorov).marks;
    bool agree = peer_cut(charged, Method::push_relabel).marks == marks;
    for (Maker maker : {Maker::push_relabel, Maker::augmenting_paths}) {
        Tile tile(maker, charged.cells());
        tile.lay(charged);
        tile.cut();
        agree = agree && tile.marks() == marks;
    }
    return agree;
}

// ---- measuring

// The cuts of all these problems by one maker, each from flows at 0.
Seconds cuts_by(Tile &tile, const std::vector<Charged> &problems) {
    Seconds sum{0};
    for (const Charged &problem : problems) {
        tile.lay(problem);
        sum += time_of([&] { tile.cut(); });
    }
    return sum;
}

void measure_peer(const std::vector<Charged> &problems, Times &times) {
    Seconds making{0}, flowing{0}, pushing{0};
    for (const Charged &problem : problems) {
        const Cut cut = peer_cut(problem, Method::boykov_kolmogorov);
        making += cut.making;
        flowing += cut.flowing;
    }
    for (const Charged &problem : problems) pushing += peer_cut(problem, Method::push_relabel).flowing;
    times.add(bk_flow, flowing);
    times.add(bk_graph, making);
    times.add(pr_flow, pushing);
}

// All by turns, so that whatever else the machine does falls on all of them alike.
Times measure(const std::vector<Charged> &problems, const std::vector<std::uint8_t> &file, int repeats) {
    const int n = problems.front().cells();
    Tile by_push(Maker::push_relabel, n), by_paths(Maker::augmenting_paths, n);
    Times times;
    for (int repeat = 0; repeat < repeats; ++repeat) {
        if (!file.empty()) {
            times.add(push_solve, time_of([&] { by_push.solve(file); }));
            times.add(paths_solve, time_of([&] { by_paths.solve(file); }));
        }
        measure_peer(problems, times);
        times.add(push_cuts, cuts_by(by_push, problems));
        times.add(paths_cuts, cuts_by(by_paths, problems));
    }
    return times;
}

// ---- the table

constexpr const char *headings[] = {"push/BK", "paths/BK", "push/PR", "push/BK+", "push cut", "paths cut", "passes"};
constexpr int columns = 7;

// The ratios of one scene; of a tile that is only cut, the cut stands for the solve.
std::vector<double> ratios(const Times &times) {
    const double bk = times.median(bk_flow), cut = times.median(push_cuts), paths_cut = times.median(paths_cuts);
    const bool solved = times.median(push_solve) > 0;
    const double push = solved ? times.median(push_solve) : cut, paths = solved ? times.median(paths_solve) : paths_cut;
    return {push / bk, paths / bk, push / times.median(pr_flow), push / (bk + times.median(bk_graph)), cut / bk, paths_cut / bk, solved ? 1 - cut / push : 0};
}

void print_row(const std::string &name, const std::vector<double> &row, const char *note) {
    std::printf("%-26s", name.c_str());
    for (int k = 0; k < columns; ++k) {
        if (k + 1 < columns)
            std::printf("%11.2f", row[k]);
        else
            std::printf("%10.0f%%", 100 * row[k]);
    }
    std::printf("  %s\n", note);
}

// The geometric mean of each column of ratios; the mean of the last, which is a share.
std::vector<double> means(const std::vector<std::vector<double>> &rows) {
    std::vector<double> mean(columns, 0);
    for (const auto &row : rows)
        for (int k = 0; k < columns; ++k) mean[k] += (k + 1 < columns ? std::log(row[k]) : row[k]) / static_cast<double>(rows.size());
    for (int k = 0; k + 1 < columns; ++k) mean[k] = std::exp(mean[k]);
    return mean;
}

std::vector<double> greatest(const std::vector<std::vector<double>> &rows) {
    std::vector<double> most(columns, 0);
    for (const auto &row : rows)
        for (int k = 0; k < columns; ++k) most[k] = std::max(most[k], row[k]);
    return most;
}

// What the machine says of itself under a name in /proc/cpuinfo.
std::string said_of_processor(const std::string &name) {
    std::ifstream file("/proc/cpuinfo");
    for (std::string line; std::getline(file, line);)
        if (line.compare(0, name.size(), name) == 0) return line.substr(line.find(':') + 2);
    return "unknown";
}

void print_head(int repeats) {
    std::string load = "unknown";
    std::ifstream("/proc/loadavg") >> load;
    std::printf("machine: %s, %s MHz, %u processors, load %s; medians of %d repeats\n", said_of_processor("model name").c_str(),
                said_of_processor("cpu MHz").c_str(), std::thread::hardware_concurrency(), load.c_str(), repeats);
    std::printf("push, paths: a solve from the file's bytes, by PushRelabel and by AugmentingPaths\n");
    std::printf("BK, PR: Boost's flow calls on the same problems alone; BK+: with the making of its graphs\n");
    std::printf("push cut, paths cut: the cuts of a solve alone, over BK; passes: what is left of a solve by push\n\n");
    std::printf("%-26s", "");
    for (const char *heading : headings) std::printf("%11s", heading);
    std::printf("\n");
}

} // namespace

int main(int count, char **words) {
    const int repeats = count > 1 ? std::max(1, std::atoi(words[1])) : 15;
    std::vector<std::vector<double>> all, on_terrain;
    bool agree = true;
    print_head(repeats);
    auto row = [&](const std::string &name, const Times &times, bool terrain, bool agrees) {
        all.push_back(ratios(times));
        if (terrain) on_terrain.push_back(all.back());
        agree = agree && agrees;
        print_row(name, all.back(), agrees ? "" : "DOES NOT AGREE");
        std::fflush(stdout);
    };
    for (const Scene &scene : all_scenes()) {
        std::vector<Charged> problems;
        const bool agrees = rounds_agree(scene, problems);
        row(scene.name, measure(problems, tile_file(scene), repeats), scene.terrain, agrees);
    }
    const std::vector<Charged> one{long_tile()};
    const bool agrees = cuts_agree(one.front());
    row("256 x 64, one cut", measure(one, {}, repeats), false, agrees);
    std::printf("\n");
    print_row("geometric mean, terrain", means(on_terrain), "");
    print_row("geometric mean, all", means(all), "");
    print_row("greatest", greatest(all), "");
    std::printf("\n%s\n", agree ? "all energies, brackets and marks agree" : "SOME DO NOT AGREE");
    return agree ? 0 : 1;
}
