/* Solves the tile file on standard input and prints what flatten prints.
 *
 *     solve_file [--records N] [--cut push|paths]
 *
 * N is how many records there are, 1,024 if not given and at most 4,096; the cut maker is push-relabel if not given. The exit status is 2
 * where the arguments are not understood, and 1 where reading or writing fails. A file that is refused is an answer, with status 0. */
#include <inttypes.h>
#include <stdio.h>
#include <stdlib.h>
#include <string.h>

#include "yolanthuk.h"

/* One byte more than the longest sound file, so that a file that is too long is seen to be. */
static uint8_t bytes[YOLANTHUK_MAX_FILE + 1];
static yolanthuk_cell tile[YOLANTHUK_MAX_CELLS];
static uint16_t entries[YOLANTHUK_MAX_CELLS];
static uint16_t heights[YOLANTHUK_MAX_CELLS];

typedef struct options {
    size_t records;
    int by_paths;
} options;

/* Whether the text is a number of records; written to `records`. */
static int read_records(const char *text, size_t *records)
{
    size_t digits = strspn(text, "0123456789");

    if (digits == 0 || digits > 4 || text[digits] != '\0') {
        return 0;
    }
    *records = strtoul(text, NULL, 10);
    return *records <= YOLANTHUK_MAX_CELLS;
}

/* Whether the text names a cut maker; written to `by_paths`. */
static int read_maker(const char *text, int *by_paths)
{
    *by_paths = strcmp(text, "paths") == 0;
    return *by_paths || strcmp(text, "push") == 0;
}

/* Whether the arguments are understood. */
static int read_options(int argc, char **argv, options *asked)
{
    for (int i = 1; i + 1 < argc; i += 2) {
        if (strcmp(argv[i], "--records") == 0) {
            if (!read_records(argv[i + 1], &asked->records)) return 0;
        } else if (strcmp(argv[i], "--cut") == 0) {
            if (!read_maker(argv[i + 1], &asked->by_paths)) return 0;
        } else {
            return 0;
        }
    }
    return argc % 2 == 1;
}

static void print_solution(const yolanthuk_solution *solution)
{
    printf("%zu %zu %d %d %" PRIu64 "\n", solution->rows, solution->columns, solution->top, solution->rounds, solution->energy);
    for (size_t row = 0; row < solution->rows; row++) {
        for (size_t column = 0; column < solution->columns; column++) {
            printf("%s%" PRIu16, column == 0 ? "" : " ", heights[row * solution->columns + column]);
        }
        printf("\n");
    }
}

static void solve(size_t length, const options *asked)
{
    yolanthuk_solution solution;
    yolanthuk_fault fault;
    int32_t refused;

    if (asked->by_paths) {
        refused = yolanthuk_solve_file_by_paths(bytes, length, tile, asked->records, heights, YOLANTHUK_MAX_CELLS, &solution, &fault);
    } else {
        refused = yolanthuk_solve_file(bytes, length, tile, asked->records, entries, YOLANTHUK_MAX_CELLS, heights,
                                       YOLANTHUK_MAX_CELLS, &solution, &fault);
    }
    if (refused) {
        printf("refused %" PRId32 " %d %zu %d\n", fault.number, fault.section, fault.place, fault.inner);
    } else {
        print_solution(&solution);
    }
}

int main(int argc, char **argv)
{
    options asked = {1024, 0};
    size_t length;

    if (!read_options(argc, argv, &asked)) {
        fprintf(stderr, "usage: solve_file [--records N] [--cut push|paths] <FILE\n");
        return 2;
    }
    length = fread(bytes, 1, sizeof bytes, stdin);
    if (ferror(stdin)) {
        perror("solve_file: standard input");
        return 1;
    }
    solve(length, &asked);
    if (fflush(stdout) != 0 || ferror(stdout)) {
        perror("solve_file: standard output");
        return 1;
    }
    return 0;
}
