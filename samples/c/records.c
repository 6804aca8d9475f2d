/* Solves a tile of two rows and three columns by either maker, and reads back every field of every record: compares readings, classes and
 * ties with the file, brackets with the heights, charges and marks with the last round as it is worked out here, and the flows with what
 * the marks need of them. Records past the cells hold what they held. Prints what is not as it has to be; the exit status is then 1. */
#include <inttypes.h>
#include <stdio.h>
#include <stdlib.h>
#include <string.h>

#include "yolanthuk.h"

enum { ROWS = 2, COLUMNS = 3, CELLS = ROWS * COLUMNS, TOP = 12 };

/* No two ties are alike, so that none can be taken for another. */
static const int readings[CELLS] = {0, 12, 5, 9, 1, 7};
static const int classes[CELLS] = {1, 2, 3, 2, 4, 1};
static const int right_ties[CELLS] = {3, 5, 0, 7, 2, 0};
static const int down_ties[CELLS] = {4, 1, 6, 0, 0, 0};

static int bad;

static void expect(const char *what, int cell, long long is, long long wanted)
{
    if (is != wanted) {
        printf("%s of cell %d is %lld and not %lld\n", what, cell, is, wanted);
        bad = 1;
    }
}

static uint8_t *put16(uint8_t *at, int number)
{
    at[0] = (uint8_t)(number >> 8);
    at[1] = (uint8_t)(number & 255);
    return at + 2;
}

/* The tile as a file of the squared rule; answers its length. */
static size_t lay(uint8_t *bytes)
{
    uint8_t *at = put16(bytes, 1);

    *at++ = 'Q';
    at = put16(put16(put16(put16(at, 3), ROWS), COLUMNS), TOP);
    at = put16(at, CELLS);
    for (int cell = 0; cell < CELLS; cell++) {
        at = put16(at, readings[cell]);
        *at++ = (uint8_t)classes[cell];
    }
    at = put16(at, CELLS);
    for (int cell = 0; cell < CELLS; cell++) at = put16(put16(at, right_ties[cell]), down_ties[cell]);
    return (size_t)(at - bytes);
}

/* The bracket that holds a height after so many halvings of 0..TOP. */
static void bracket(int height, int halvings, int *low, int *high)
{
    *low = 0;
    *high = TOP;
    while (halvings-- > 0) {
        int middle = (*low + *high) / 2;
        if (height <= middle) *high = middle;
        else *low = middle + 1;
    }
}

/* What a neighbour adds to a cell's charge: its tie's weight, by the lower ends of their brackets before the last round. */
static int pull(int weight, int low, int other)
{
    return low > other ? weight : low < other ? -weight : 0;
}

/* Compares the charge and the mark of the last of four rounds. */
static void check_last_round(const yolanthuk_cell *tile)
{
    int low[CELLS], high[CELLS];

    for (int cell = 0; cell < CELLS; cell++) bracket(tile[cell].low, 3, &low[cell], &high[cell]);
    for (int cell = 0; cell < CELLS; cell++) {
        int middle = (low[cell] + high[cell]) / 2, q = classes[cell];
        int charge = q * (q + 1) / 2 * (2 * (middle - readings[cell]) + 1);
        if (cell % COLUMNS < COLUMNS - 1) charge += pull(right_ties[cell], low[cell], low[cell + 1]);
        if (cell % COLUMNS > 0) charge += pull(right_ties[cell - 1], low[cell], low[cell - 1]);
        if (cell < CELLS - COLUMNS) charge += pull(down_ties[cell], low[cell], low[cell + COLUMNS]);
        if (cell >= COLUMNS) charge += pull(down_ties[cell - COLUMNS], low[cell], low[cell - COLUMNS]);
        if (low[cell] == high[cell]) charge = 0;
        expect("charge", cell, tile[cell].charge, charge);
        expect("mark", cell, tile[cell].mark, low[cell] < high[cell] && tile[cell].low > middle);
    }
}

/* Compares what the flows leave of the charges with what the marks say: a marked cell is in no surplus, any other in no deficit. */
static void check_flows(const yolanthuk_cell *tile)
{
    for (int cell = 0; cell < CELLS; cell++) {
        long long left = (long long)tile[cell].charge + tile[cell].right_flow + tile[cell].down_flow;
        if (cell % COLUMNS > 0) left -= tile[cell - 1].right_flow;
        if (cell >= COLUMNS) left -= tile[cell - COLUMNS].down_flow;
        expect("a remainder against the mark", cell, tile[cell].mark ? left > 0 : left < 0, 0);
        expect("a right flow beyond its tie", cell, labs((long)tile[cell].right_flow) > right_ties[cell], 0);
        expect("a down flow beyond its tie", cell, labs((long)tile[cell].down_flow) > down_ties[cell], 0);
    }
}

static void check(const yolanthuk_cell *tile, const uint16_t *heights, const yolanthuk_solution *solution)
{
    long long energy = 0;

    for (int cell = 0; cell < CELLS; cell++) {
        int height = heights[cell], q = classes[cell], away = height - readings[cell];
        expect("reading", cell, tile[cell].reading, readings[cell]);
        expect("class", cell, tile[cell].class_, q);
        expect("right tie", cell, tile[cell].right, right_ties[cell]);
        expect("down tie", cell, tile[cell].down, down_ties[cell]);
        expect("low end", cell, tile[cell].low, height);
        expect("high end", cell, tile[cell].high, height);
        energy += q * (q + 1) / 2 * away * away;
        if (right_ties[cell]) energy += right_ties[cell] * abs(height - heights[cell + 1]);
        if (down_ties[cell]) energy += down_ties[cell] * abs(height - heights[cell + COLUMNS]);
    }
    check_last_round(tile);
    check_flows(tile);
    expect("rows", -1, (long long)solution->rows, ROWS);
    expect("columns", -1, (long long)solution->columns, COLUMNS);
    expect("top", -1, solution->top, TOP);
    expect("rounds", -1, solution->rounds, 4);
    expect("energy", -1, (long long)solution->energy, energy);
}

/* Solves the file by one of the makers, in records, entries and places of which one more is there than wanted. */
static void solve(const uint8_t *bytes, size_t length, int by_paths, const int *wanted)
{
    yolanthuk_cell tile[CELLS + 1], before;
    uint16_t entries[CELLS], heights[CELLS + 1];
    yolanthuk_solution solution;
    yolanthuk_fault fault;

    memset(tile, 0xA5, sizeof tile);
    memset(heights, 0xA5, sizeof heights);
    before = tile[CELLS];
    expect("answer", -1,
           by_paths ? yolanthuk_solve_file_by_paths(bytes, length, tile, CELLS + 1, heights, CELLS + 1, &solution, &fault)
                    : yolanthuk_solve_file(bytes, length, tile, CELLS + 1, entries, CELLS, heights, CELLS + 1, &solution, &fault),
           YOLANTHUK_DONE);
    for (int cell = 0; cell < CELLS; cell++) expect("height", cell, heights[cell], wanted[cell]);
    check(tile, heights, &solution);
    expect("a record past the cells", CELLS, memcmp(&tile[CELLS], &before, sizeof before), 0);
    expect("a place past the cells", CELLS, heights[CELLS], 0xA5A5);
}

/* Takes the heights that are wanted as its arguments. */
int main(int argc, char **argv)
{
    uint8_t bytes[YOLANTHUK_MAX_FILE];
    size_t length = lay(bytes);
    int wanted[CELLS];

    if (argc == 2 && strcmp(argv[1], "--file") == 0) {
        return fwrite(bytes, 1, length, stdout) == length && fflush(stdout) == 0 ? 0 : 1;
    }
    if (argc != 1 + CELLS) {
        fprintf(stderr, "usage: records --file | records HEIGHT..\n");
        return 2;
    }
    for (int cell = 0; cell < CELLS; cell++) wanted[cell] = atoi(argv[1 + cell]);
    solve(bytes, length, 0, wanted);
    solve(bytes, length, 1, wanted);
    if (!bad) printf("every field of every record is as it has to be\n");
    return bad;
}
