/* Every call of the two headers in one form: slices, and what else is asked. For wrong_use.c. */
#include <runcedau_floor.h>
#include <string.h>

typedef struct {
    void *at;
    size_t count;
} slice;

/* What a call is handed beside its slices. */
typedef struct {
    runcedau_map map;
    double radius, extent;
    int shape;
    runcedau_point p, q;
    runcedau_cell cell;
} asked;

/* `count`: how many places the call says that it wrote. `empty`: all but the refusal is zero. */
typedef struct {
    uint8_t refusal;
    size_t count;
    bool empty;
} answer;

/* What a slice holds; BATCH, ENTRIES and FILE_BYTES may have any length. */
typedef enum {
    NO_SLICE,
    CELLS,
    POINTS,
    STATUSES,
    BLOCKERS,
    PAIRS,
    FLOOR,
    CHANGES,
    BATCH,
    ENTRIES,
    FILE_BYTES,
    KEYS_64,
    KEYS_256,
    KEYS_1024,
    KEYS_2016,
    KEYS_2304,
    BYTES_64,
    BYTES_256,
    BYTES_1024,
    BYTES_2304,
    TEXT,
    KINDS
} kind;

/* The bytes of an element, and how many elements there have to be. */
static const struct {
    size_t size, need;
} kinds[KINDS] = {
    [CELLS] = {8, 1024},      [POINTS] = {8, 64},       [STATUSES] = {1, 64},
    [BLOCKERS] = {8, 64},     [PAIRS] = {8, 4096},      [FLOOR] = {sizeof(runcedau_floor), 1},
    [CHANGES] = {sizeof(runcedau_changes), 1},          [BATCH] = {8, 0},
    [ENTRIES] = {24, 0},      [FILE_BYTES] = {1, 0},    [KEYS_64] = {8, 64},
    [KEYS_256] = {8, 256},    [KEYS_1024] = {8, 1024},  [KEYS_2016] = {8, 2016},
    [KEYS_2304] = {8, 2304},  [BYTES_64] = {1, 64},     [BYTES_256] = {1, 256},
    [BYTES_1024] = {1, 1024}, [BYTES_2304] = {1, 2304}, [TEXT] = {1, 166656},
};

static bool zeros(runcedau_map map) {
    return map.size == 0.0 && map.radius == 0.0 && map.cells == 0 && map.points == 0;
}

static answer of_count(runcedau_count count) {
    return (answer){count.refusal, count.count, count.count == 0};
}

static answer of_outcome(runcedau_outcome outcome) {
    return (answer){outcome.refusal, 0, zeros(outcome.map)};
}

static answer of_told(runcedau_told told) { return (answer){told.refusal, 0, !told.yes}; }

static answer of_found(runcedau_found found) {
    return (answer){found.refusal, 0, !found.some && found.cell.x == 0 && found.cell.y == 0};
}

#define A(i) s[i].at, s[i].count
#define FIVE(i) A(i), A(i + 1), A(i + 2), A(i + 3), A(i + 4)
#define CALL(name) static answer name(const slice *s, const asked *a)

/* ---- over lent tables */

CALL(lent_open) {
    return of_outcome(runcedau_open(a->map.size, a->map.radius, FIVE(0)));
}

CALL(lent_read) {
    (void)a;
    runcedau_opened opened = runcedau_lent_read(A(0), FIVE(1));
    return (answer){opened.refusal, 0, zeros(opened.map)};
}

CALL(lent_change_cells) {
    runcedau_changed changed =
        runcedau_change_cells(a->map, FIVE(0), A(5), A(6), A(7), A(8), A(9));
    return (answer){changed.refusal, 0,
                    !changed.yes && changed.confirmed == 0 && changed.corners == 0 &&
                        zeros(changed.map)};
}

CALL(lent_change_radius) {
    return of_outcome(runcedau_change_radius(a->map, FIVE(0), a->radius));
}

CALL(lent_is_occupied) { return of_told(runcedau_is_occupied(a->map, A(0), a->cell)); }

CALL(lent_ask) {
    return of_found(
        runcedau_ask(a->map, A(0), (uint8_t)a->shape, a->p, a->q, a->extent));
}

CALL(lent_occupied_cells) { return of_count(runcedau_occupied_cells(a->map, A(0), A(1))); }

CALL(lent_corner_cells) { return of_count(runcedau_corner_cells(a->map, A(0), A(1), A(2))); }

CALL(lent_all_points) {
    return of_count(runcedau_all_points(a->map, A(0), A(1), A(2), A(3), A(4), A(5)));
}

CALL(lent_free_points) { return of_count(runcedau_free_points(a->map, A(0), A(1), A(2))); }

CALL(lent_all_pairs) {
    return of_count(runcedau_all_pairs(a->map, A(0), A(1), A(2), A(3), A(4)));
}

CALL(lent_open_pairs) {
    return of_count(runcedau_open_pairs(a->map, A(0), A(1), A(2), A(3), A(4)));
}

CALL(lent_visibility) {
    return of_count(runcedau_visibility(a->map, FIVE(0), a->cell, A(5)));
}

CALL(lent_neighbours) {
    return of_count(runcedau_neighbours(a->map, A(0), a->cell, A(1)));
}

CALL(lent_list) { return of_count(runcedau_lent_list(a->map, FIVE(0), A(5))); }

/* ---- over a floor: the first slice; the room of all lists is that of the first list */

CALL(floor_begin) {
    return (answer){runcedau_floor_begin(s[0].at, a->map.size, a->map.radius), 0, true};
}

CALL(floor_read) {
    (void)a;
    return (answer){runcedau_floor_read(s[0].at, A(1)).refusal, 0, true};
}

CALL(floor_apply) {
    (void)a;
    return (answer){runcedau_floor_apply(s[0].at, A(1), s[2].at), 0, true};
}

CALL(floor_apply_untold) {
    (void)a;
    return (answer){runcedau_floor_apply(s[0].at, A(1), NULL), 0, true};
}

CALL(floor_change_radius) {
    return (answer){runcedau_floor_change_radius(s[0].at, a->radius), 0, true};
}

CALL(floor_is_occupied) { return of_told(runcedau_floor_is_occupied(s[0].at, a->cell)); }

CALL(floor_ask) {
    return of_found(
        runcedau_floor_ask(s[0].at, (runcedau_shape)a->shape, a->p, a->q, a->extent));
}

CALL(floor_occupied_cells) {
    (void)a;
    return of_count(runcedau_floor_occupied_cells(s[0].at, A(1)));
}

CALL(floor_corner_cells) {
    (void)a;
    return of_count(runcedau_floor_corner_cells(s[0].at, s[1].at, s[2].at, s[1].count));
}

CALL(floor_all_points) {
    (void)a;
    return of_count(
        runcedau_floor_all_points(s[0].at, s[1].at, s[2].at, s[3].at, s[1].count));
}

CALL(floor_free_points) {
    (void)a;
    return of_count(runcedau_floor_free_points(s[0].at, A(1)));
}

CALL(floor_all_pairs) {
    (void)a;
    return of_count(runcedau_floor_all_pairs(s[0].at, s[1].at, s[2].at, s[3].at, s[1].count));
}

CALL(floor_open_pairs) {
    (void)a;
    return of_count(runcedau_floor_open_pairs(s[0].at, s[1].at, s[2].at, s[1].count));
}

CALL(floor_visibility) { return of_count(runcedau_floor_visibility(s[0].at, a->cell, A(1))); }

CALL(floor_neighbours) { return of_count(runcedau_floor_neighbours(s[0].at, a->cell, A(1))); }

CALL(floor_list) {
    (void)a;
    return of_count(runcedau_floor_list(s[0].at, A(1)));
}

CALL(list_file) {
    (void)a;
    return of_count(runcedau_list_file(A(0), A(1)));
}

/* Which numbers of a map a call judges, whether it alters tables or floor, and its slices, with
 * NO_SLICE at the end. */
typedef enum { NO_MAP, NUMBERS, WHOLE_MAP } judged;
enum { SLICES = 11 };

typedef struct {
    const char *name;
    answer (*run)(const slice *, const asked *);
    judged judges;
    bool alters;
    kind slices[SLICES];
} call;

#define TABLES CELLS, POINTS, STATUSES, BLOCKERS, PAIRS

static const call calls[] = {
    {"lent_open", lent_open, NUMBERS, true, {TABLES}},
    {"lent_read", lent_read, NO_MAP, true, {FILE_BYTES, TABLES}},
    {"lent_change_cells", lent_change_cells, WHOLE_MAP, true,
     {TABLES, BATCH, KEYS_256, BYTES_256, KEYS_2304, BYTES_2304}},
    {"lent_change_radius", lent_change_radius, WHOLE_MAP, true, {TABLES}},
    {"lent_is_occupied", lent_is_occupied, WHOLE_MAP, false, {CELLS}},
    {"lent_ask", lent_ask, WHOLE_MAP, false, {CELLS}},
    {"lent_occupied_cells", lent_occupied_cells, WHOLE_MAP, false, {CELLS, KEYS_1024}},
    {"lent_corner_cells", lent_corner_cells, WHOLE_MAP, false, {CELLS, KEYS_1024, BYTES_1024}},
    {"lent_all_points", lent_all_points, WHOLE_MAP, false,
     {POINTS, STATUSES, BLOCKERS, KEYS_64, BYTES_64, KEYS_64}},
    {"lent_free_points", lent_free_points, WHOLE_MAP, false, {POINTS, BLOCKERS, KEYS_64}},
    {"lent_all_pairs", lent_all_pairs, WHOLE_MAP, false,
     {POINTS, PAIRS, KEYS_2016, KEYS_2016, KEYS_2016}},
    {"lent_open_pairs", lent_open_pairs, WHOLE_MAP, false,
     {POINTS, BLOCKERS, PAIRS, KEYS_2016, KEYS_2016}},
    {"lent_visibility", lent_visibility, WHOLE_MAP, false, {TABLES, KEYS_64}},
    {"lent_neighbours", lent_neighbours, WHOLE_MAP, false, {CELLS, KEYS_64}},
    {"lent_list", lent_list, WHOLE_MAP, false, {TABLES, TEXT}},
    {"list_file", list_file, NO_MAP, false, {FILE_BYTES, TEXT}},
    {"begin", floor_begin, NUMBERS, true, {FLOOR}},
    {"read", floor_read, NO_MAP, true, {FLOOR, FILE_BYTES}},
    {"apply", floor_apply, WHOLE_MAP, true, {FLOOR, ENTRIES, CHANGES}},
    {"apply_untold", floor_apply_untold, WHOLE_MAP, true, {FLOOR, ENTRIES}},
    {"change_radius", floor_change_radius, WHOLE_MAP, true, {FLOOR}},
    {"is_occupied", floor_is_occupied, WHOLE_MAP, false, {FLOOR}},
    {"ask", floor_ask, WHOLE_MAP, false, {FLOOR}},
    {"occupied_cells", floor_occupied_cells, WHOLE_MAP, false, {FLOOR, KEYS_1024}},
    {"corner_cells", floor_corner_cells, WHOLE_MAP, false, {FLOOR, KEYS_1024, BYTES_1024}},
    {"all_points", floor_all_points, WHOLE_MAP, false, {FLOOR, KEYS_64, BYTES_64, KEYS_64}},
    {"free_points", floor_free_points, WHOLE_MAP, false, {FLOOR, KEYS_64}},
    {"all_pairs", floor_all_pairs, WHOLE_MAP, false, {FLOOR, KEYS_2016, KEYS_2016, KEYS_2016}},
    {"open_pairs", floor_open_pairs, WHOLE_MAP, false, {FLOOR, KEYS_2016, KEYS_2016}},
    {"visibility", floor_visibility, WHOLE_MAP, false, {FLOOR, KEYS_64}},
    {"neighbours", floor_neighbours, WHOLE_MAP, false, {FLOOR, KEYS_64}},
    {"list", floor_list, WHOLE_MAP, false, {FLOOR, TEXT}},
};
enum { CALLS = sizeof calls / sizeof *calls };
