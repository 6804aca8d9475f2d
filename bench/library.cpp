#include "library.hpp"

#include <cstdio>
#include <cstdlib>

namespace {

void expect_done(const char *call, std::int32_t answer) {
    if (answer == 0) return;
    std::fprintf(stderr, "%s: refused %d\n", call, static_cast<int>(answer));
    std::exit(2);
}

} // namespace

Tile::Tile(Maker maker, int cells) : maker_(maker), records_(cells), entries_(cells), heights_(cells) {}

long long Tile::solve(const std::vector<std::uint8_t> &file) {
    yolanthuk_solution solution;
    yolanthuk_fault fault;
    const std::int32_t answer =
        maker_ == Maker::push_relabel
            ? yolanthuk_solve_file(file.data(), file.size(), records_.data(), records_.size(), entries_.data(), entries_.size(),
                                   heights_.data(), heights_.size(), &solution, &fault)
            : yolanthuk_solve_file_by_paths(file.data(), file.size(), records_.data(), records_.size(), heights_.data(),
                                            heights_.size(), &solution, &fault);
    expect_done("solve", answer);
    return static_cast<long long>(solution.energy);
}

void Tile::begin(const Scene &scene, const std::vector<std::uint8_t> &file) {
    rows_ = scene.rows;
    columns_ = scene.columns;
    top_ = static_cast<std::uint16_t>(scene.top);
    letter_ = static_cast<std::uint8_t>(scene.letter);
    done_ = 0;
    expect_done("read", bench_read(file.data(), file.size(), records_.data(), records_.size()));
}

void Tile::round() {
    const std::int32_t answer =
        maker_ == Maker::push_relabel
            ? bench_round(rows_, columns_, top_, done_, letter_, records_.data(), records_.size(), entries_.data(), entries_.size())
            : bench_round_by_paths(rows_, columns_, top_, done_, letter_, records_.data(), records_.size());
    expect_done("round", answer);
    ++done_;
}

void Tile::lay(const Charged &charged) {
    rows_ = charged.rows;
    columns_ = charged.columns;
    for (int cell = 0; cell < charged.cells(); ++cell) {
        yolanthuk_cell record{};
        record.right = charged.right[cell];
        record.down = charged.down[cell];
        record.low = charged.low[cell];
        record.high = charged.high[cell];
        record.charge = charged.charge[cell];
        records_[cell] = record;
    }
}

void Tile::cut() {
    const std::int32_t answer = maker_ == Maker::push_relabel
                                    ? bench_cut(rows_, columns_, records_.data(), records_.size(), entries_.data(), entries_.size())
                                    : bench_cut_by_paths(rows_, columns_, records_.data(), records_.size());
    expect_done("cut", answer);
}

Marks Tile::marks() const {
    Marks marks;
    for (const yolanthuk_cell &record : records_) marks.push_back(static_cast<char>(record.mark));
    return marks;
}

std::vector<int> Tile::low() const {
    std::vector<int> low;
    for (const yolanthuk_cell &record : records_) low.push_back(record.low);
    return low;
}

std::vector<int> Tile::high() const {
    std::vector<int> high;
    for (const yolanthuk_cell &record : records_) high.push_back(record.high);
    return high;
}
