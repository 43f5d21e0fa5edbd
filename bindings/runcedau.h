/* Runcedau: floor maps with sight lines, proved. The functions of the static library
 * (bindings/build), over tables that the caller owns. For C (from C99 on) and C++ (from C++11 on).
 * runcedau_floor.h includes this file, and has one struct for a map and its tables.
 *
 * A slice is a pointer and a count of elements. The pointer is never null, even where the count is
 * 0, and no slice that is written overlaps another. A refused call returns its number in `refusal`
 * and zeros in all else, and writes nothing. runcedau_why has the numbers in words; a number above
 * 10 is none of this library's: take it for an error, never for done.
 * A cell in a list is a key, (x + 2^31) * 2^32 + (y + 2^31). A blocker is a key, or 0 for none.
 *
 * A map is a struct and five tables that belong together. Two mistakes lose it:
 *   - Taking `map` from a refused answer: it is zeros, and the map is still what was handed in.
 *   - Using a struct from before an accepted batch or radius: it fits the tables no more. Calls
 *     cannot notice and mostly accept it, and a batch drops the cells beyond those it counts.
 * So keep one struct beside the tables, and write to it where `refusal` is 0 and nowhere else. */
#ifndef RUNCEDAU_H
#define RUNCEDAU_H

#ifndef __cplusplus
#include <stdbool.h>
#endif
#include <stddef.h>
#include <stdint.h>

#ifdef __GNUC__
#define RUNCEDAU_CHECKED __attribute__((warn_unused_result))
#else
#define RUNCEDAU_CHECKED
#endif

#ifdef __cplusplus
extern "C" {
#endif

/* How many places the tables of a map need, in elements. */
#define RUNCEDAU_CELLS 1024 /* cells; also a list of occupied cells or of corner cells */
#define RUNCEDAU_POINTS 64  /* points, statuses, blockers; also any other list of cells */
#define RUNCEDAU_PAIRS 4096 /* pairs */
/* How many the other lists need. */
#define RUNCEDAU_CONFIRMED 256     /* confirmed changes of a batch */
#define RUNCEDAU_CORNERS 2304      /* corner changes of a batch */
#define RUNCEDAU_LISTED_PAIRS 2016 /* a list of pairs */
#define RUNCEDAU_LISTING 166656    /* a listing, in bytes */
/* How many entries a batch may have. */
#define RUNCEDAU_ENTRIES 256

typedef struct runcedau_point {
    double x, y;
} runcedau_point;

typedef struct runcedau_cell {
    int64_t x, y;
} runcedau_cell;

typedef struct runcedau_segment {
    runcedau_point p0, p1;
} runcedau_segment;

/* The struct of a map: cell size, radius, number of occupied cells, number of points. */
typedef struct runcedau_map {
    double size, radius;
    size_t cells, points;
} runcedau_map;

/* Where `refusal` is 0, `map` is the map from now on; else it is zeros. */
typedef struct runcedau_outcome {
    uint8_t refusal;
    runcedau_map map;
} runcedau_outcome;

/* `field` is the field of the map file that was refused (RULES 5.3), 0 where none was. */
typedef struct runcedau_opened {
    uint8_t refusal;
    uint64_t field;
    runcedau_map map;
} runcedau_opened;

/* `yes`: something was confirmed. `confirmed`, `corners`: how many changes of each kind. */
typedef struct runcedau_changed {
    uint8_t refusal;
    bool yes;
    size_t confirmed, corners;
    runcedau_map map;
} runcedau_changed;

/* Answers. A refused question says 0, no and no cell as well: look at `refusal` first. */
typedef struct runcedau_count {
    uint8_t refusal;
    size_t count;
} runcedau_count;

typedef struct runcedau_told {
    uint8_t refusal;
    bool yes;
} runcedau_told;

typedef struct runcedau_found {
    uint8_t refusal;
    bool some;
    runcedau_cell cell;
} runcedau_found;

/* The shapes of a question: the point p, a square about p of width `extent`, a circle about p of
 * radius `extent`, a sweep from p to q of width `extent`. */
typedef enum runcedau_shape
#ifdef __cplusplus
    : int
#endif
{
    RUNCEDAU_SHAPE_POINT = 0,
    RUNCEDAU_SHAPE_SQUARE = 1,
    RUNCEDAU_SHAPE_CIRCLE = 2,
    RUNCEDAU_SHAPE_SWEEP = 3
} runcedau_shape;

/* ---- Altering a map */

/* An empty map. */
RUNCEDAU_CHECKED runcedau_outcome runcedau_open(
    double size, double radius, uint64_t *cells, size_t cells_len, uint64_t *points,
    size_t points_len, uint8_t *statuses, size_t statuses_len, uint64_t *blockers,
    size_t blockers_len, uint64_t *pairs, size_t pairs_len);

/* The map of a map file (RULES 5). Where a table is short, `field` is 0. */
RUNCEDAU_CHECKED runcedau_opened runcedau_lent_read(
    const uint8_t *bytes, size_t bytes_len, uint64_t *cells, size_t cells_len, uint64_t *points,
    size_t points_len, uint8_t *statuses, size_t statuses_len, uint64_t *blockers,
    size_t blockers_len, uint64_t *pairs, size_t pairs_len);

/* A batch. Three numbers an entry: x, y, and 0 for free or any other for occupied; cells ascend by
 * x, then y. `batch_len` counts numbers, not entries: one that is no multiple of three is refused
 * with 4, but a count of three entries, 3, is taken for one entry. */
RUNCEDAU_CHECKED runcedau_changed runcedau_change_cells(
    runcedau_map map, uint64_t *cells, size_t cells_len, uint64_t *points, size_t points_len,
    uint8_t *statuses, size_t statuses_len, uint64_t *blockers, size_t blockers_len,
    uint64_t *pairs, size_t pairs_len, const int64_t *batch, size_t batch_len,
    uint64_t *confirmed, size_t confirmed_len, uint8_t *full, size_t full_len,
    uint64_t *corners, size_t corners_len, uint8_t *altered, size_t altered_len);

RUNCEDAU_CHECKED runcedau_outcome runcedau_change_radius(
    runcedau_map map, const uint64_t *cells, size_t cells_len, uint64_t *points,
    size_t points_len, uint8_t *statuses, size_t statuses_len, uint64_t *blockers,
    size_t blockers_len, uint64_t *pairs, size_t pairs_len, double radius);

/* ---- Asking it */

RUNCEDAU_CHECKED runcedau_told runcedau_is_occupied(
    runcedau_map map, const uint64_t *cells, size_t cells_len, runcedau_cell cell);

/* The first occupied cell, by x, then y, in a shape (one of runcedau_shape; any other number is
 * refused with 8). `q` counts for a sweep only, `extent` not for a point. */
RUNCEDAU_CHECKED runcedau_found runcedau_ask(
    runcedau_map map, const uint64_t *cells, size_t cells_len, uint8_t shape, runcedau_point p,
    runcedau_point q, double extent);

RUNCEDAU_CHECKED runcedau_count runcedau_occupied_cells(
    runcedau_map map, const uint64_t *cells, size_t cells_len, uint64_t *out, size_t out_len);

RUNCEDAU_CHECKED runcedau_count runcedau_corner_cells(
    runcedau_map map, const uint64_t *cells, size_t cells_len, uint64_t *out, size_t out_len,
    uint8_t *statuses, size_t statuses_len);

RUNCEDAU_CHECKED runcedau_count runcedau_all_points(
    runcedau_map map, const uint64_t *points, size_t points_len, const uint8_t *statuses,
    size_t statuses_len, const uint64_t *blockers, size_t blockers_len, uint64_t *out,
    size_t out_len, uint8_t *bits, size_t bits_len, uint64_t *blocks, size_t blocks_len);

RUNCEDAU_CHECKED runcedau_count runcedau_free_points(
    runcedau_map map, const uint64_t *points, size_t points_len, const uint64_t *blockers,
    size_t blockers_len, uint64_t *out, size_t out_len);

RUNCEDAU_CHECKED runcedau_count runcedau_all_pairs(
    runcedau_map map, const uint64_t *points, size_t points_len, const uint64_t *pairs,
    size_t pairs_len, uint64_t *lesser, size_t lesser_len, uint64_t *greater,
    size_t greater_len, uint64_t *blocks, size_t blocks_len);

RUNCEDAU_CHECKED runcedau_count runcedau_open_pairs(
    runcedau_map map, const uint64_t *points, size_t points_len, const uint64_t *blockers,
    size_t blockers_len, const uint64_t *pairs, size_t pairs_len, uint64_t *lesser,
    size_t lesser_len, uint64_t *greater, size_t greater_len);

RUNCEDAU_CHECKED runcedau_count runcedau_visibility(
    runcedau_map map, const uint64_t *cells, size_t cells_len, const uint64_t *points,
    size_t points_len, const uint8_t *statuses, size_t statuses_len, const uint64_t *blockers,
    size_t blockers_len, const uint64_t *pairs, size_t pairs_len, runcedau_cell cell,
    uint64_t *out, size_t out_len);

RUNCEDAU_CHECKED runcedau_count runcedau_neighbours(
    runcedau_map map, const uint64_t *cells, size_t cells_len, runcedau_cell cell, uint64_t *out,
    size_t out_len);

/* The listing of the map (RULES 6.1). */
RUNCEDAU_CHECKED runcedau_count runcedau_lent_list(
    runcedau_map map, const uint64_t *cells, size_t cells_len, const uint64_t *points,
    size_t points_len, const uint8_t *statuses, size_t statuses_len, const uint64_t *blockers,
    size_t blockers_len, const uint64_t *pairs, size_t pairs_len, uint8_t *out, size_t out_len);

/* ---- Of no map */

/* What a refusal's number means, as a sentence without full stop. The text is there for good. */
static inline const char *runcedau_why(uint8_t number) {
    static const char *const words[] = {
        "done, not refused",
        "the cell size is not a number from 1/1,024 to 65,536",
        "the radius is not a number from 0 to 63.5 times the cell size",
        "the batch has more than 256 entries",
        "the batch's cells do not ascend by x, then y",
        ("a cell is too far out: its x and y may be from -1,048,576 to 1,048,576 "
         "(in a question 64 more)"),
        "more than 1,024 cells would be occupied",
        "there would be more than 64 points",
        "a number of the question is not finite or out of bounds, or there is no such shape",
        "a buffer is shorter than it has to be",
        "the map file is malformed: bytes are missing, wrong or left over",
    };
    if (number < sizeof words / sizeof *words)
        return words[number];
    return "the library answered a number that has no meaning here";
}

/* The listing of a map file: what the program `listing` prints. Of a file that is refused that is
 * the line `refused N at F`, and the call is not: it is refused, with 9, only where `out_len` is
 * below 166,656. No pointer is null. Stack 192 KB. */
RUNCEDAU_CHECKED runcedau_count runcedau_list_file(const uint8_t *bytes, size_t bytes_len,
                                                   uint8_t *out, size_t out_len);

/* The functions from here on refuse nothing: whatever is handed in, there is an answer. The whole
 * number of a NaN is 0, and one beyond an int64_t is brought to the nearer end. Stack 6 KB each. */

/* The cell of a key, and the key of a cell, (x + 2^31) * 2^32 + (y + 2^31). A coordinate beyond
 * -2^31 .. 2^31 - 1 is brought to the nearer end. */
runcedau_cell runcedau_cell_of_key(uint64_t key);
uint64_t runcedau_key_of_cell(runcedau_cell cell);

/* How many cells out from its corner a point lies. */
int64_t runcedau_shift(double size, double radius);

/* The cell that a place is in; a cell's centre, and its corner with the least x and y. */
runcedau_cell runcedau_cell_of(double size, runcedau_point p);
runcedau_point runcedau_centre(double size, runcedau_cell cell);
runcedau_point runcedau_bottom_left(double size, runcedau_cell cell);

/* How far a place is from a segment. */
double runcedau_distance(runcedau_segment s, runcedau_point p);

/* Where a segment meets the vertical line at x (or the horizontal one at y): the y (the x) of no
 * place, of one, or of both its ends where it lies on the line. What there is not is 0. */
typedef struct runcedau_crossings {
    uint8_t count;
    double first, second;
} runcedau_crossings;
runcedau_crossings runcedau_vertical(runcedau_segment s, double x);
runcedau_crossings runcedau_horizontal(runcedau_segment s, double y);

/* Whether a segment passes near a cell (RULES 1.11), the cell's coordinates as in a key. */
bool runcedau_near(runcedau_segment s, runcedau_cell cell, double size, double radius);

/* The same of many cells, as keys: a 1 in `near` for each that it passes near, a 0 for each other.
 * False, with nothing written, where `near` is shorter than `cells`. No pointer is null. */
bool runcedau_near_cells(runcedau_segment s, double size, double radius, const uint64_t *cells,
                         size_t cells_len, uint8_t *near, size_t near_len);

/* Rounded down, up, and towards 0. */
int64_t runcedau_floor_to_i64(double x);
int64_t runcedau_ceil_to_i64(double x);
int64_t runcedau_cut_to_i64(double x);

/* Rounded down and up as a key holds a column: 2^31 more, brought to 0 .. 2^32 - 1. */
uint64_t runcedau_column_of(double x);
uint64_t runcedau_column_up(double x);

/* Of a NaN and a number the least and the greatest is the number. */
double runcedau_abs(double x);
double runcedau_min(double a, double b);
double runcedau_max(double a, double b);

/* The root, correctly rounded, and the least value whose root is at least x. */
double runcedau_root(double x);
double runcedau_root_threshold(double x);

#ifdef __cplusplus
}
#endif

#undef RUNCEDAU_CHECKED

#endif
