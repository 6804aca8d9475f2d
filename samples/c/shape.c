/* Asks for the shape of the tile file on standard input, finds memory for just that tile, solves it and prints its highest cell.
 * The exit status is 1 where reading, writing or the memory fails, and 3 where the file is refused. */
#include <inttypes.h>
#include <stdio.h>
#include <stdlib.h>

#include "yolanthuk.h"

static uint8_t bytes[YOLANTHUK_MAX_FILE + 1];

static int refuse(const yolanthuk_fault *fault)
{
    fprintf(stderr, "refused with %" PRId32 " in section %d at byte %zu, inner %d\n", fault->number, fault->section, fault->place,
            fault->inner);
    return 3;
}

static int print_highest(const yolanthuk_shape *shape, const uint16_t *heights)
{
    size_t highest = 0;

    for (size_t cell = 0; cell < shape->rows * shape->columns; cell++) {
        if (heights[cell] > heights[highest]) highest = cell;
    }
    printf("%zu x %zu cells, the highest in row %zu and column %zu: %d of %d\n", shape->rows, shape->columns,
           highest / shape->columns, highest % shape->columns, heights[highest], shape->top);
    return fflush(stdout) != 0;
}

/* Solves the file into this memory, where all of it was found. */
static int solve(size_t length, const yolanthuk_shape *shape, yolanthuk_cell *tile, uint16_t *entries, uint16_t *heights)
{
    size_t cells = shape->rows * shape->columns;
    yolanthuk_solution solution;
    yolanthuk_fault fault;

    if (!tile || !entries || !heights) {
        perror("shape: memory");
        return 1;
    }
    if (yolanthuk_solve_file(bytes, length, tile, cells, entries, cells, heights, cells, &solution, &fault)) {
        return refuse(&fault);
    }
    return print_highest(shape, heights);
}

int main(void)
{
    size_t length = fread(bytes, 1, sizeof bytes, stdin);
    yolanthuk_shape shape;
    yolanthuk_fault fault;

    if (ferror(stdin)) {
        perror("shape: standard input");
        return 1;
    }
    if (yolanthuk_file_shape(bytes, length, &shape, &fault)) {
        return refuse(&fault);
    }
    size_t cells = shape.rows * shape.columns;
    yolanthuk_cell *tile = calloc(cells, sizeof *tile);
    uint16_t *entries = calloc(cells, sizeof *entries);
    uint16_t *heights = calloc(cells, sizeof *heights);
    int status = solve(length, &shape, tile, entries, heights);
    free(tile);
    free(entries);
    free(heights);
    return status;
}
