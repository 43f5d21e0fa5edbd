/* Runcedau: floor maps with sight lines, proved, a map with all its tables being one struct. For C
 * (from C99 on) and C++ (from C++11 on).
 *
 *     static runcedau_floor hall;
 *     const runcedau_entry racks[] = {{0, 0, 1}, {0, 1, 1}};
 *     uint8_t refusal = runcedau_floor_begin(&hall, 256.0, 128.0);
 *     if (refusal == 0)
 *         refusal = runcedau_floor_apply(&hall, racks, 2, NULL);
 *     if (refusal != 0)
 *         puts(runcedau_why(refusal));
 *
 * A floor is one struct of 42 KB. It has no pointer in it and no call allocates, so it may be
 * static, local or in allocated memory, and is copied by assignment: a copy is a floor of its own,
 * and to assign it back undoes what was done since. A floor of zeros is one that was not begun. No
 * call takes a null pointer for a floor.
 *
 * Refusals. A call that is refused does nothing: the floor, and every list that was handed over, is
 * as it was, byte for byte. Any `refusal` but 0 is one; runcedau_why has the numbers in words. On a
 * floor that was not begun all calls but runcedau_floor_begin and runcedau_floor_read are refused
 * with 1.
 *
 * Lists. The caller hands over a list and its room, the number of its places; several lists of one
 * call have `room` places each. Less room than the comment says, or a null list, is refused with 9
 * before all else, even if there is little to list. An accepted call writes to the front and tells
 * how many places it wrote; the rest stays as it was. A list lies outside the floor, and no two
 * lists overlap. Cells come as keys (runcedau_cell_of_key), ascending by x, then y; where there is
 * no blocker stands 0. A status is a sum: southwest 1, southeast 2, northwest 4, northeast 8.
 *
 * Threads. Calls keep nothing from one to the next. Several threads may ask one floor at a time;
 * one that alters a floor (begin, read, apply, change_radius, an assignment) needs it alone.
 *
 * Stack. `stack` is how much a call needs, in KB of 1,024 bytes: measured on x86-64, not proved. Of
 * it 4 KB are for the dynamic linker, which may look up a function when it is called first.
 *
 * Words and limits: docs/RULES.md. The library's own calls are in runcedau.h. */
#ifndef RUNCEDAU_FLOOR_H
#define RUNCEDAU_FLOOR_H

#include "runcedau.h"

#ifdef __GNUC__
#define RUNCEDAU_CHECKED __attribute__((warn_unused_result))
#else
#define RUNCEDAU_CHECKED
#endif
#define RUNCEDAU_CALL RUNCEDAU_CHECKED static inline

#ifdef __cplusplus
extern "C" {
#endif

/* A floor. A caller may read map.size, map.radius, map.cells (how many are occupied) and map.points
 * (how many there are). All else is for the calls alone, and later versions may have more of it. */
typedef struct runcedau_floor {
    runcedau_map map;
    uint64_t cells[RUNCEDAU_CELLS];
    uint64_t points[RUNCEDAU_POINTS];
    uint8_t statuses[RUNCEDAU_POINTS];
    uint64_t blockers[RUNCEDAU_POINTS];
    uint64_t pairs[RUNCEDAU_PAIRS];
} runcedau_floor;

/* An entry of a batch: the cell x,y shall be free (`occupied` is 0) or occupied (any other). */
typedef struct runcedau_entry {
    int64_t x, y, occupied;
} runcedau_entry;

/* What a batch altered. `confirmed` are the cells that it changed, and `occupied` is 1 for those
 * that are occupied now, 0 for those that are free. `corners` are the cells whose corners altered,
 * in the order in which they were met (RULES 1.9), `statuses` their new statuses. */
typedef struct runcedau_changes {
    size_t confirmed_count, corner_count;
    uint64_t confirmed[RUNCEDAU_CONFIRMED];
    uint8_t occupied[RUNCEDAU_CONFIRMED];
    uint64_t corners[RUNCEDAU_CORNERS];
    uint8_t statuses[RUNCEDAU_CORNERS];
} runcedau_changes;

/* `field` is the field of the map file that was refused (RULES 5.3), 0 where none was. */
typedef struct runcedau_reading {
    uint8_t refusal;
    uint64_t field;
} runcedau_reading;

/* Entries are handed over as they stand, three numbers each; a shape has room for more than 255. */
typedef char runcedau_entry_is_three_numbers
    [sizeof(runcedau_entry) == 3 * sizeof(int64_t) && offsetof(runcedau_entry, x) == 0 &&
             offsetof(runcedau_entry, y) == sizeof(int64_t) &&
             offsetof(runcedau_entry, occupied) == 2 * sizeof(int64_t)
         ? 1
         : -1];
typedef char runcedau_shape_is_no_byte[sizeof(runcedau_shape) >= sizeof(int) ? 1 : -1];

/* Each function below is one call of the library over the floor's own tables, with the lengths that
 * these have, and keeps the map that it answers where it was not refused, nowhere else.
 * T: a table and its length. TABLES: all tables, in the order in which the library takes them. */
#define RUNCEDAU_T(table) table, sizeof(table) / sizeof *(table)
#define RUNCEDAU_TABLES(floor)                                                                     \
    RUNCEDAU_T((floor)->cells), RUNCEDAU_T((floor)->points), RUNCEDAU_T((floor)->statuses),        \
        RUNCEDAU_T((floor)->blockers), RUNCEDAU_T((floor)->pairs)

/* ---- Altering a floor */

/* Makes the floor an empty one, whatever was in it. `size` is the length of a cell's side, from
 * 1/1,024 to 65,536; `radius` is a cart's, from 0 to 63.5 times the size. Stack 6 KB. */
RUNCEDAU_CALL uint8_t
runcedau_floor_begin(runcedau_floor *floor, double size, double radius) {
    runcedau_outcome begun = runcedau_open(size, radius, RUNCEDAU_TABLES(floor));
    if (begun.refusal == 0)
        floor->map = begun.map;
    return begun.refusal;
}

/* Makes the floor that of a map file (RULES 5), whatever was in it. `bytes` may be null where there
 * are none. Stack 144 KB. */
RUNCEDAU_CALL runcedau_reading
runcedau_floor_read(runcedau_floor *floor, const uint8_t *bytes, size_t length) {
    const uint8_t none = 0;
    runcedau_opened opened =
        runcedau_lent_read(bytes ? bytes : &none, bytes ? length : 0, RUNCEDAU_TABLES(floor));
    runcedau_reading reading = {opened.refusal, opened.field};
    if (opened.refusal == 0)
        floor->map = opened.map;
    return reading;
}

/* How many numbers are handed over: of more than 256 entries those of 257, which are refused with 3
 * whatever they hold; of entries that are nowhere one, which is refused with 4. */
static inline size_t runcedau_batch_length(const runcedau_entry *entries, size_t count) {
    if (!entries)
        return count == 0 ? 0 : 1;
    return 3 * (count <= RUNCEDAU_ENTRIES ? count : RUNCEDAU_ENTRIES + 1);
}

/* Applies a batch, all of it or nothing: `count` entries, at most 256, their cells ascending by x,
 * then y, no cell named twice. `entries` may be null where there are none. What was altered is
 * written to `changes`, unless that is null. Stack 96 KB. */
RUNCEDAU_CALL uint8_t
runcedau_floor_apply(runcedau_floor *floor, const runcedau_entry *entries, size_t count,
                     runcedau_changes *changes) {
    const int64_t none = 0;
    runcedau_changes unread;
    runcedau_changes *told = changes ? changes : &unread;
    runcedau_changed changed = runcedau_change_cells(
        floor->map, RUNCEDAU_TABLES(floor), entries ? &entries->x : &none,
        runcedau_batch_length(entries, count), RUNCEDAU_T(told->confirmed),
        RUNCEDAU_T(told->occupied), RUNCEDAU_T(told->corners), RUNCEDAU_T(told->statuses));
    if (changed.refusal == 0) {
        floor->map = changed.map;
        told->confirmed_count = changed.confirmed;
        told->corner_count = changed.corners;
    }
    return changed.refusal;
}

/* Gives the floor another radius, and makes its points, pairs and blockers anew (RULES 7.2), even
 * where the radius is the same. Stack 20 KB. */
RUNCEDAU_CALL uint8_t
runcedau_floor_change_radius(runcedau_floor *floor, double radius) {
    runcedau_outcome changed = runcedau_change_radius(floor->map, RUNCEDAU_TABLES(floor), radius);
    if (changed.refusal == 0)
        floor->map = changed.map;
    return changed.refusal;
}

/* ---- Asking it */

/* Whether a cell is occupied; x and y may be any numbers. Stack 6 KB. */
RUNCEDAU_CALL runcedau_told
runcedau_floor_is_occupied(const runcedau_floor *floor, runcedau_cell cell) {
    return runcedau_is_occupied(floor->map, RUNCEDAU_T(floor->cells), cell);
}

/* The number of a shape; 255, which is refused with 8, for what is none. */
static inline uint8_t runcedau_shape_number(runcedau_shape shape) {
    switch (shape) {
    case RUNCEDAU_SHAPE_POINT:
        return RUNCEDAU_SHAPE_POINT;
    case RUNCEDAU_SHAPE_SQUARE:
        return RUNCEDAU_SHAPE_SQUARE;
    case RUNCEDAU_SHAPE_CIRCLE:
        return RUNCEDAU_SHAPE_CIRCLE;
    case RUNCEDAU_SHAPE_SWEEP:
        return RUNCEDAU_SHAPE_SWEEP;
    }
    return 255;
}

/* The first occupied cell, by x, then y, in a shape: at the point p, in a square about p of width
 * `extent`, in a circle about p of radius `extent`, or in a sweep from p to q of width `extent`. No
 * number is beyond 2^40 in size, and `extent` not below 0. Stack 6 KB. */
RUNCEDAU_CALL runcedau_found
runcedau_floor_ask(const runcedau_floor *floor, runcedau_shape shape, runcedau_point p,
                   runcedau_point q, double extent) {
    return runcedau_ask(floor->map, RUNCEDAU_T(floor->cells), runcedau_shape_number(shape), p, q,
                        extent);
}

/* The answer where a list is null, which is a list of no places. */
static inline runcedau_count runcedau_no_room(void) {
    runcedau_count refused = {9, 0};
    return refused;
}

/* The occupied cells. Room 1,024, stack 6 KB. */
RUNCEDAU_CALL runcedau_count
runcedau_floor_occupied_cells(const runcedau_floor *floor, uint64_t *keys, size_t room) {
    if (!keys)
        return runcedau_no_room();
    return runcedau_occupied_cells(floor->map, RUNCEDAU_T(floor->cells), keys, room);
}

/* The occupied cells that have a corner, and their statuses. Room 1,024, stack 6 KB. */
RUNCEDAU_CALL runcedau_count
runcedau_floor_corner_cells(const runcedau_floor *floor, uint64_t *keys, uint8_t *statuses,
                            size_t room) {
    if (!keys || !statuses)
        return runcedau_no_room();
    return runcedau_corner_cells(floor->map, RUNCEDAU_T(floor->cells), keys, room, statuses, room);
}

/* The points, their statuses and their blockers. Room 64, stack 6 KB. */
RUNCEDAU_CALL runcedau_count
runcedau_floor_all_points(const runcedau_floor *floor, uint64_t *keys, uint8_t *statuses,
                          uint64_t *blockers, size_t room) {
    if (!keys || !statuses || !blockers)
        return runcedau_no_room();
    return runcedau_all_points(floor->map, RUNCEDAU_T(floor->points), RUNCEDAU_T(floor->statuses),
                               RUNCEDAU_T(floor->blockers), keys, room, statuses, room, blockers,
                               room);
}

/* The points without blocker. Room 64, stack 6 KB. */
RUNCEDAU_CALL runcedau_count
runcedau_floor_free_points(const runcedau_floor *floor, uint64_t *keys, size_t room) {
    if (!keys)
        return runcedau_no_room();
    return runcedau_free_points(floor->map, RUNCEDAU_T(floor->points), RUNCEDAU_T(floor->blockers),
                                keys, room);
}

/* The pairs, blocked or not: lesser cell, greater cell, blocker. Room 2,016, stack 6 KB. */
RUNCEDAU_CALL runcedau_count
runcedau_floor_all_pairs(const runcedau_floor *floor, uint64_t *lesser, uint64_t *greater,
                         uint64_t *blockers, size_t room) {
    if (!lesser || !greater || !blockers)
        return runcedau_no_room();
    return runcedau_all_pairs(floor->map, RUNCEDAU_T(floor->points), RUNCEDAU_T(floor->pairs),
                              lesser, room, greater, room, blockers, room);
}

/* The open pairs: neither the pair nor one of its points has a blocker. Room 2,016, stack 6 KB. */
RUNCEDAU_CALL runcedau_count
runcedau_floor_open_pairs(const runcedau_floor *floor, uint64_t *lesser, uint64_t *greater,
                          size_t room) {
    if (!lesser || !greater)
        return runcedau_no_room();
    return runcedau_open_pairs(floor->map, RUNCEDAU_T(floor->points), RUNCEDAU_T(floor->blockers),
                               RUNCEDAU_T(floor->pairs), lesser, room, greater, room);
}

/* The points in sight of a cell (RULES 2.5). Room 64, stack 6 KB. */
RUNCEDAU_CALL runcedau_count
runcedau_floor_visibility(const runcedau_floor *floor, runcedau_cell cell, uint64_t *keys,
                          size_t room) {
    if (!keys)
        return runcedau_no_room();
    return runcedau_visibility(floor->map, RUNCEDAU_TABLES(floor), cell, keys, room);
}

/* Those of the eight cells around a cell that a cart on it can drive to (RULES 2.5). Room 64, of
 * which at most 8 are written; stack 6 KB. */
RUNCEDAU_CALL runcedau_count
runcedau_floor_neighbours(const runcedau_floor *floor, runcedau_cell cell, uint64_t *keys,
                          size_t room) {
    if (!keys)
        return runcedau_no_room();
    return runcedau_neighbours(floor->map, RUNCEDAU_T(floor->cells), cell, keys, room);
}

/* The listing of the floor (RULES 6.1): text, no zero at its end. Room 166,656, stack 72 KB. */
RUNCEDAU_CALL runcedau_count
runcedau_floor_list(const runcedau_floor *floor, uint8_t *bytes, size_t room) {
    if (!bytes)
        return runcedau_no_room();
    return runcedau_lent_list(floor->map, RUNCEDAU_TABLES(floor), bytes, room);
}

#ifdef __cplusplus
}
#endif

#undef RUNCEDAU_T
#undef RUNCEDAU_TABLES
#undef RUNCEDAU_CALL
#undef RUNCEDAU_CHECKED

#endif
