/* The calls of the benchmark, in libbench_host.a (crates/bench_host): reading a file, one round, and one cut, by either maker. They are for
 * measuring alone; what a host is offered stands in include/yolanthuk.h.
 *
 * Every function answers 0 where it did its work, and -1 where it refused; then the tile and the workspace are as they were. */
#ifndef BENCH_HOST_H
#define BENCH_HOST_H

#include "yolanthuk.h"

#ifdef __cplusplus
extern "C" {
#endif

/* Reads a tile file into the records, which are then a draft. Refuses a file with a fault. */
int32_t bench_read(const uint8_t *bytes, size_t length, yolanthuk_cell *tile, size_t records);

/* Does one round under the rule of a letter, by push-relabel with its workspace. Refuses rows, columns or a top out of range, a letter that
 * names no rule, fewer records or entries than cells, and records that so many rounds can't have left. */
int32_t bench_round(size_t rows, size_t columns, uint16_t top, uint8_t done, uint8_t letter, yolanthuk_cell *tile, size_t records,
                    uint16_t *entries, size_t entry_count);

/* The same by augmenting paths, with their workspace on the stack. */
int32_t bench_round_by_paths(size_t rows, size_t columns, uint16_t top, uint8_t done, uint8_t letter, yolanthuk_cell *tile, size_t records);

/* Cuts a charged tile of up to 256 rows once, by push-relabel with its workspace. Refuses rows or columns out of range, fewer records or
 * entries than cells, and a tile that no cut maker takes. */
int32_t bench_cut(size_t rows, size_t columns, yolanthuk_cell *tile, size_t records, uint16_t *entries, size_t entry_count);

/* The same by augmenting paths, with their workspace on the stack. */
int32_t bench_cut_by_paths(size_t rows, size_t columns, yolanthuk_cell *tile, size_t records);

#ifdef __cplusplus
}
#endif

#endif
