/* The exact ground-tile filter, for a host in C. docs/C.md says more; docs/FILTER.md says what a tile, a price rule and a grid are.
 *
 * Answers. Every function answers one number: YOLANTHUK_DONE, the number of the refusal where it has one, or a negative code. A call that is
 * refused writes nothing, but for the struct that takes the refusal. Any numbers may be passed, and any values may lie in the memory that is lent.
 *
 * Memory. The host owns all of it, and lends it for the time of a call. A pointer and the length behind it are one slice: so many
 * values, in memory that may be read and, where the pointer is not to const, written. Where the length is 0 the pointer may be NULL;
 * no other pointer may be. It is aligned as its type asks. What one call may write overlaps nothing else that the same call is lent. No
 * function keeps a pointer, allocates memory, reads or writes a file, or has state of its own; so calls on different memory may run in
 * several threads at a time, and a call may run in an interrupt. Nothing checks what this paragraph asks of the host; what the functions then
 * answer and write is proved.
 *
 * Stack. Less than 4 KiB for a call, as measured; solving by augmenting paths needs 17 KiB more.
 *
 * Linking. libhost.a needs memset of the C library, and nothing else.
 */
#ifndef YOLANTHUK_H
#define YOLANTHUK_H

#include <stddef.h>
#include <stdint.h>

#ifdef __cplusplus
#define YOLANTHUK_HOLDS(condition) static_assert(condition, #condition)
extern "C" {
#else
#define YOLANTHUK_HOLDS(condition) _Static_assert(condition, #condition)
#endif

/* ---- bounds */

enum {
    YOLANTHUK_MAX_ROWS = 64,
    YOLANTHUK_MAX_COLUMNS = 64,
    YOLANTHUK_MAX_CELLS = 4096,
    YOLANTHUK_MAX_TOP = 1023,
    YOLANTHUK_MAX_ROUNDS = 10,
    YOLANTHUK_MAX_CLASS = 15,
    YOLANTHUK_MAX_TIE = 10000,
    YOLANTHUK_MAX_FILE = 15 + 7 * YOLANTHUK_MAX_CELLS /* bytes: no sound file is longer */
};

/* ---- answers */

enum {
    YOLANTHUK_DONE = 0,
    YOLANTHUK_FEW_PLACES = -1,    /* fewer places for heights than cells */
    YOLANTHUK_FEW_ENTRIES = 7,    /* fewer entries of workspace than cells */
    YOLANTHUK_TRUNCATED = 11,     /* the file ends too early */
    YOLANTHUK_COUNT = 12,         /* a count in the file is not the one that has to stand there */
    YOLANTHUK_LETTER = 13,        /* the file's letter is not 'A', 'Q' or 'L' */
    YOLANTHUK_ENTRY = 14,         /* an entry of the file is not one of a tile: `inner` says why */
    YOLANTHUK_TRAILING = 15       /* bytes follow the file's last section */
};

/* What is wrong with an entry: the `inner` of a refusal with 14. */
enum {
    YOLANTHUK_INNER_RANGE = 1,       /* rows, columns or top is out of range */
    YOLANTHUK_INNER_FEW_RECORDS = 2, /* fewer records were lent than the tile has cells */
    YOLANTHUK_INNER_READING = 5,     /* the reading is above top, or the class above 15 */
    YOLANTHUK_INNER_TIE = 6          /* a tie is above 10,000, or not 0 where the tile ends */
};

/* ---- records */

/* One cell. The records of a tile stand row by row; those past rows x columns are never touched. */
typedef struct yolanthuk_cell {
    uint16_t reading;
    uint8_t class_; /* the trust class of the reading */
    uint16_t right; /* the weight of the tie to the neighbour on the right */
    uint16_t down;  /* and of the tie to the one below */
    int32_t right_flow;
    int32_t down_flow;
    uint16_t low; /* the bracket: the lowest and the highest height that the cell may still take; equal once a tile is solved */
    uint16_t high;
    int32_t charge;
    uint8_t mark;
    uint16_t rank;
} yolanthuk_cell;

/* What a file asks for. */
typedef struct yolanthuk_shape {
    size_t rows;
    size_t columns;
    uint16_t top;
} yolanthuk_shape;

/* What solving a file came to. */
typedef struct yolanthuk_solution {
    size_t rows;
    size_t columns;
    uint16_t top;
    uint8_t rounds;
    uint64_t energy;
} yolanthuk_solution;

/* Why a file is refused. `number` is what the call answers. For a number from 11 on `section` is from 1 to 4, `place` is a byte number
 * from 0, and `inner` says more where the number is 14; all else is 0. */
typedef struct yolanthuk_fault {
    size_t place;
    int32_t number;
    uint8_t section;
    uint8_t inner;
} yolanthuk_fault;

/* ---- the calls */

/* Checks a tile file (docs/FILE.md) and says what it asks for, so that memory can be found for it: rows x columns records, entries and
 * places. Refuses with 11 to 15, as solving it with memory for 4,096 cells would. */
int32_t yolanthuk_file_shape(const uint8_t *bytes, size_t length, yolanthuk_shape *shape, yolanthuk_fault *fault);

/* Solves a tile file by push-relabel, under the rule of its letter. The low ends of the first rows x columns records are then the lowest
 * cheapest grid, copied to `heights` row by row; `solution` says what came of it. Refused, `fault` says why. The workspace and `heights` need a
 * place for each cell. Refuses with 11 to 15; YOLANTHUK_FEW_PLACES; 7. */
int32_t yolanthuk_solve_file(const uint8_t *bytes, size_t length, yolanthuk_cell *tile, size_t records, uint16_t *entries,
                             size_t entry_count, uint16_t *heights, size_t places, yolanthuk_solution *solution,
                             yolanthuk_fault *fault);

/* The same by augmenting paths, with their workspace on the stack. Refuses with 11 to 15; YOLANTHUK_FEW_PLACES. */
int32_t yolanthuk_solve_file_by_paths(const uint8_t *bytes, size_t length, yolanthuk_cell *tile, size_t records,
                                      uint16_t *heights, size_t places, yolanthuk_solution *solution, yolanthuk_fault *fault);

/* ---- the layouts that the library was built for */

YOLANTHUK_HOLDS(sizeof(size_t) == 8);

YOLANTHUK_HOLDS(sizeof(yolanthuk_cell) == 28);
YOLANTHUK_HOLDS(offsetof(yolanthuk_cell, reading) == 0);
YOLANTHUK_HOLDS(offsetof(yolanthuk_cell, class_) == 2);
YOLANTHUK_HOLDS(offsetof(yolanthuk_cell, right) == 4);
YOLANTHUK_HOLDS(offsetof(yolanthuk_cell, down) == 6);
YOLANTHUK_HOLDS(offsetof(yolanthuk_cell, right_flow) == 8);
YOLANTHUK_HOLDS(offsetof(yolanthuk_cell, down_flow) == 12);
YOLANTHUK_HOLDS(offsetof(yolanthuk_cell, low) == 16);
YOLANTHUK_HOLDS(offsetof(yolanthuk_cell, high) == 18);
YOLANTHUK_HOLDS(offsetof(yolanthuk_cell, charge) == 20);
YOLANTHUK_HOLDS(offsetof(yolanthuk_cell, mark) == 24);
YOLANTHUK_HOLDS(offsetof(yolanthuk_cell, rank) == 26);

YOLANTHUK_HOLDS(sizeof(yolanthuk_shape) == 24);
YOLANTHUK_HOLDS(offsetof(yolanthuk_shape, columns) == 8);
YOLANTHUK_HOLDS(offsetof(yolanthuk_shape, top) == 16);

YOLANTHUK_HOLDS(sizeof(yolanthuk_solution) == 32);
YOLANTHUK_HOLDS(offsetof(yolanthuk_solution, columns) == 8);
YOLANTHUK_HOLDS(offsetof(yolanthuk_solution, top) == 16);
YOLANTHUK_HOLDS(offsetof(yolanthuk_solution, rounds) == 18);
YOLANTHUK_HOLDS(offsetof(yolanthuk_solution, energy) == 24);

YOLANTHUK_HOLDS(sizeof(yolanthuk_fault) == 16);
YOLANTHUK_HOLDS(offsetof(yolanthuk_fault, number) == 8);
YOLANTHUK_HOLDS(offsetof(yolanthuk_fault, section) == 12);
YOLANTHUK_HOLDS(offsetof(yolanthuk_fault, inner) == 13);

#ifdef __cplusplus
}
#endif

#endif
