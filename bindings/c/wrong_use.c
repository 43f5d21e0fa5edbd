/* Wrong uses of every call: short lists, shapes that there are not, numbers out of bounds, structs
 * that do not fit, tables of random bytes. Each slice ends, and begins, at a page that may not be
 * touched. A refused call has to give the right number and to alter no byte; of tables that hold no
 * map nothing more is promised than that the call ends and stays within its slices. */
#define _GNU_SOURCE
#include <limits.h>
#include <math.h>
#include <signal.h>

#include "guarded.h"

#include "calls.h"
#include "halls.h"

enum { ANY = -1, CAPACITY = 200000, ROUNDS = 1000 };

/* What the slices are filled from. */
static runcedau_floor source;
static runcedau_entry entries[257];
static size_t entry_count, batch_numbers;
static uint8_t file[4096];
static size_t file_length;

static guarded memory[SLICES];
static uint8_t copies[SLICES][CAPACITY];
static int failures;
static unsigned long tried;

static void check(bool fine, const char *name, const char *what) {
    tried++;
    if (!fine) {
        printf("wrong use: %s: %s\n", name, what);
        if (++failures == 20)
            exit(1);
    }
}

static const char *volatile running = "before the first call";

static void stop(int number) {
    dprintf(1, "wrong use: %s: %s\n", running,
            number == SIGALRM ? "it does not end" : "a byte too far was touched");
    _exit(1);
}

/* ---- one call */

static const void *content_of(kind of) {
    switch ((int)of) {
    case CELLS:
        return source.cells;
    case POINTS:
        return source.points;
    case STATUSES:
        return source.statuses;
    case BLOCKERS:
        return source.blockers;
    case PAIRS:
        return source.pairs;
    case FLOOR:
        return &source;
    case BATCH:
    case ENTRIES:
        return entries;
    case FILE_BYTES:
        return file;
    default:
        return NULL; /* an output */
    }
}

static size_t length_of(kind of) {
    return of == BATCH        ? batch_numbers
           : of == ENTRIES    ? entry_count
           : of == FILE_BYTES ? file_length
                              : kinds[of].need;
}

/* The slices of a call; slice `shorter` has `by` places less than it has to have. */
static void lend(const call *c, slice *s, bool at_end, int shorter, size_t by) {
    for (int i = 0; c->slices[i] != NO_SLICE; i++) {
        const size_t size = kinds[c->slices[i]].size;
        s[i].count = length_of(c->slices[i]) - (i == shorter ? by : 0);
        s[i].at = guarded_at(memory[i], s[i].count * size, at_end);
        const void *content = content_of(c->slices[i]);
        if (content)
            memcpy(s[i].at, content, s[i].count * size);
        else
            memset(s[i].at, 0xa5, s[i].count * size);
        memcpy(copies[i], s[i].at, s[i].count * size);
    }
}

static bool may_alter(const call *c, kind of) {
    const bool input = of == BATCH || of == ENTRIES || of == FILE_BYTES;
    return !input && (c->alters || !content_of(of));
}

/* A refused call leaves every slice, and any call those that it only reads. A list is last. */
static uint8_t run(const call *c, const asked *a, const slice *s) {
    running = c->name;
    const answer given = c->run(s, a);
    check(given.refusal <= 10, c->name, "a number that has no meaning");
    if (given.refusal != 0)
        check(given.empty, c->name, "a refused answer that is not zeros");
    int i = 0;
    for (; c->slices[i] != NO_SLICE; i++)
        if (given.refusal != 0 || !may_alter(c, c->slices[i]))
            check(memcmp(copies[i], s[i].at, s[i].count * kinds[c->slices[i]].size) == 0, c->name,
                  "a byte was altered");
    check(given.count <= s[i - 1].count, c->name, "a count beyond the list");
    return given.refusal;
}

static void expect_short(const call *c, const asked *a, int refusal, int shorter, size_t by) {
    slice s[SLICES];
    for (int at_end = 0; at_end < 2; at_end++) {
        source.map = a->map;
        lend(c, s, at_end, shorter, by);
        const uint8_t given = run(c, a, s);
        if (refusal != ANY && given != refusal)
            printf("wrong use: %s: %d, and not %d\n", c->name, given, refusal);
        check(refusal == ANY || given == refusal, c->name, "another refusal");
    }
}

static void expect(const call *c, const asked *a, int refusal) {
    expect_short(c, a, refusal, -1, 0);
}

/* ---- a right question */

static void begin_batch(void) { entry_count = batch_numbers = 0; }

static void add(int64_t x, int64_t y, int64_t occupied) {
    entries[entry_count++] = (runcedau_entry){x, y, occupied};
    batch_numbers = 3 * entry_count;
}

static void right_file(void) {
    static const uint8_t one_cell[] = {
        1, 0, 8, 0x40, 0x70, 0, 0, 0, 0, 0, 0,    2, 0, 8, 0x40, 0x60, 0, 0, 0, 0, 0, 0,
        3, 0, 9, 0,    0,    0, 0, 0, 0, 0, 0, 1, 255, 0, 0,
    };
    memcpy(file, one_cell, sizeof one_cell);
    file_length = sizeof one_cell;
}

static asked right(const runcedau_floor *hall) {
    source = *hall;
    const int64_t inner = hall->map.cells == 1024; /* there is no room for points more */
    begin_batch();
    add(inner, inner, 0);
    add(inner, inner + 1, 0);
    right_file();
    return (asked){
        hall->map, 200.0, 100.0, RUNCEDAU_SHAPE_SWEEP, {-700.0, 0.0}, {900.0, 800.0}, {2, -1}};
}

/* ---- the wrong uses */

static void try_right_uses(void) {
    const runcedau_floor *halls[] = {&empty_hall, &aisle, &full_hall};
    for (int h = 0; h < 3; h++) {
        const asked a = right(halls[h]);
        for (int i = 0; i < CALLS; i++)
            expect(&calls[i], &a, 0);
    }
}

/* Of the lists over a floor only the first is made shorter: its length is the room of all. */
static void try_short_lists(void) {
    const asked a = right(&full_hall);
    for (int c = 0; c < CALLS; c++)
        for (int i = 0; calls[c].slices[i] != NO_SLICE; i++) {
            const kind of = calls[c].slices[i];
            const size_t need = kinds[of].need;
            if (need == 0 || of == FLOOR || of == CHANGES || (calls[c].slices[0] == FLOOR && i > 1))
                continue;
            expect_short(&calls[c], &a, 9, i, 1);
            expect_short(&calls[c], &a, 9, i, need);
        }
}

static void try_map(judged least, asked a, int refusal) {
    for (int c = 0; c < CALLS; c++)
        if (calls[c].judges >= least)
            expect(&calls[c], &a, refusal);
}

static void try_wrong_maps(void) {
    const double sizes[] = {0.0, -0.0, -256.0, 1.0 / 2048, 65537.0, INFINITY, -INFINITY, NAN};
    const double radii[] = {-1.0, -1e-300, 16257.0, 1e300, INFINITY, -INFINITY, NAN};
    const size_t counts[] = {1025, 1u << 31, SIZE_MAX};
    const asked good = right(&aisle);
    asked a = good;
    a.map = (runcedau_map){0.0, 0.0, 0, 0};
    try_map(NUMBERS, a, 1);
    for (size_t i = 0; i < sizeof sizes / sizeof *sizes; i++) {
        a = good;
        a.map.size = sizes[i];
        try_map(NUMBERS, a, 1);
    }
    for (size_t i = 0; i < sizeof radii / sizeof *radii; i++) {
        a = good;
        a.map.radius = radii[i];
        try_map(NUMBERS, a, 2);
    }
    for (size_t i = 0; i < sizeof counts / sizeof *counts; i++) {
        a = good;
        a.map.cells = counts[i];
        try_map(WHOLE_MAP, a, 6);
        a = good;
        a.map.points = i == 0 ? 65 : counts[i];
        try_map(WHOLE_MAP, a, 7);
    }
}

static const call *named(const char *name) {
    for (int i = 0; i < CALLS; i++)
        if (strcmp(calls[i].name, name) == 0)
            return &calls[i];
    printf("wrong use: there is no %s\n", name);
    exit(1);
}

/* A floor that was not begun. */
static void try_zeros(void) {
    static const runcedau_floor not_begun;
    asked a = right(&not_begun);
    try_map(WHOLE_MAP, a, 1);
    expect(named("begin"), &a, 1);
    expect(named("read"), &a, 0);
    a.map = empty_hall.map;
    expect(named("begin"), &a, 0);
}

static void expect_both(const char *name, const asked *a, int refusal) {
    char lent[40];
    snprintf(lent, sizeof lent, "lent_%s", name);
    expect(named(name), a, refusal);
    expect(named(lent), a, refusal);
}

static void try_wrong_shapes(void) {
    const int wide[] = {256, 257, 258, 259, 512, 65536, 1 << 24, INT_MAX, INT_MIN, -1, -253, -256};
    asked a = right(&aisle);
    for (a.shape = 4; a.shape < 256; a.shape++)
        expect_both("ask", &a, 8);
    for (size_t i = 0; i < sizeof wide / sizeof *wide; i++) {
        a.shape = wide[i];
        expect(named("ask"), &a, 8);
    }
}

static void try_wrong_questions(void) {
    const double beyond = 1099511627777.0;
    const double wrong[] = {beyond, -beyond, 1e300, INFINITY, -INFINITY, NAN};
    for (size_t i = 0; i < sizeof wrong / sizeof *wrong; i++)
        for (int place = 0; place < 5; place++) {
            asked a = right(&aisle);
            double *numbers[] = {&a.p.x, &a.p.y, &a.q.x, &a.q.y, &a.extent};
            *numbers[place] = wrong[i];
            expect_both("ask", &a, 8);
        }
    asked a = right(&aisle);
    a.extent = -1.0;
    expect_both("ask", &a, 8);
    const double radii[] = {-1.0, 16257.0, 1e300, INFINITY, -INFINITY, NAN};
    for (size_t i = 0; i < sizeof radii / sizeof *radii; i++) {
        a = right(&aisle);
        a.radius = radii[i];
        expect_both("change_radius", &a, 2);
    }
}

static void try_far_cells(void) {
    const int64_t far[] = {1048641, -1048641, (int64_t)1 << 31, (int64_t)1 << 32, INT64_MAX,
                           INT64_MIN};
    for (size_t i = 0; i < 2 * sizeof far / sizeof *far; i++) {
        asked a = right(&aisle);
        *(i % 2 == 0 ? &a.cell.x : &a.cell.y) = far[i / 2];
        expect_both("visibility", &a, 5);
        expect_both("neighbours", &a, 5);
        expect_both("is_occupied", &a, 0);
    }
}

static void expect_batch(const asked *a, int refusal) {
    expect(named("lent_change_cells"), a, refusal);
    expect(named("apply"), a, refusal);
    expect(named("apply_untold"), a, refusal);
}

static void try_two_entries(runcedau_entry first, runcedau_entry second, int refusal) {
    const asked a = right(&aisle);
    begin_batch();
    add(first.x, first.y, first.occupied);
    add(second.x, second.y, second.occupied);
    expect_batch(&a, refusal);
}

static void try_wrong_batches(void) {
    const int64_t far[] = {1048577, -1048577, (int64_t)1 << 32, INT64_MAX, INT64_MIN};
    try_two_entries((runcedau_entry){9, 9, 1}, (runcedau_entry){9, 9, 0}, 4);
    try_two_entries((runcedau_entry){9, 9, 1}, (runcedau_entry){9, 8, 1}, 4);
    try_two_entries((runcedau_entry){9, 9, 1}, (runcedau_entry){8, 10, 1}, 4);
    try_two_entries((runcedau_entry){INT64_MAX, 0, 1}, (runcedau_entry){0, 0, 1}, 4);
    try_two_entries((runcedau_entry){9, 9, -1}, (runcedau_entry){9, 10, INT64_MIN}, 0);
    for (size_t i = 0; i < sizeof far / sizeof *far; i++) {
        const runcedau_entry middle = {0, 0, 1}, column = {far[i], 0, 1}, row = {-1, far[i], 1};
        try_two_entries(far[i] < 0 ? column : middle, far[i] < 0 ? middle : column, 5);
        try_two_entries(row, middle, 5);
    }
}

/* 257 entries, and for the call over lent tables numbers that are no whole entries. */
static void try_wrong_lengths(void) {
    asked a = right(&aisle);
    begin_batch();
    for (int64_t i = 0; i < 257; i++)
        add(2 * i, 9, i % 2);
    expect_batch(&a, 3);
    memset(entries, 0xa5, sizeof entries);
    expect_batch(&a, 3);
    a = right(&aisle);
    for (batch_numbers = 1; batch_numbers < 6; batch_numbers++)
        expect(named("lent_change_cells"), &a, batch_numbers == 3 ? 0 : 4);
}

/* A cell more than 1,024, and a point more than 64. */
static void try_full_floors(void) {
    asked a = right(&full_hall);
    begin_batch();
    add(-100, -100, 1);
    expect_batch(&a, 6);
    runcedau_floor posts = empty_hall;
    begin_batch();
    for (int64_t i = 0; i < 16; i++)
        add(10 * i, 0, 1);
    accept(runcedau_floor_apply(&posts, entries, entry_count, NULL));
    a = right(&posts);
    begin_batch();
    add(1000, 0, 1);
    expect_batch(&a, 7);
}

static void expect_file(const asked *a, int refusal) {
    expect(named("lent_read"), a, refusal);
    expect(named("read"), a, refusal);
    expect(named("list_file"), a, 0);
}

static uint64_t seed = 88172645463325252u;

static uint64_t random_bits(void) {
    seed ^= seed << 13;
    seed ^= seed >> 7;
    seed ^= seed << 17;
    return seed;
}

static void random_bytes(void *at, size_t size) {
    for (size_t i = 0; i < size; i++)
        ((uint8_t *)at)[i] = (uint8_t)(random_bits() >> 32);
}

static int64_t random_below(uint64_t limit) { return (int64_t)(random_bits() % limit); }

/* Files that end too early; one with a byte altered, and one of random bytes. */
static void try_wrong_files(void) {
    const asked a = right(&aisle);
    const size_t whole = file_length;
    for (file_length = 0; file_length < whole; file_length++)
        expect_file(&a, 10);
    file_length = whole + 1;
    expect_file(&a, 10);
    for (int round = 0; round < ROUNDS; round++) {
        right_file();
        file[random_bits() % whole] ^= (uint8_t)(1 + random_bits() % 255);
        expect_file(&a, ANY);
        file_length = random_bits() % 100;
        random_bytes(file, file_length);
        expect_file(&a, file_length > 0 && file[0] == 1 ? ANY : 10);
    }
}

/* ---- tables that hold no map */

static uint64_t key_near_origin(void) {
    const int64_t x = random_below(12) - 2;
    return runcedau_key_of_cell((runcedau_cell){x, random_below(12) - 2});
}

/* Keys around the racks, in no order and some of them twice. */
static void scatter(void) {
    for (size_t i = 0; i < RUNCEDAU_CELLS; i++)
        source.cells[i] = key_near_origin();
    for (size_t i = 0; i < RUNCEDAU_POINTS; i++) {
        source.points[i] = key_near_origin();
        source.statuses[i] = (uint8_t)(random_bits() % 17);
        source.blockers[i] = random_bits() % 2 ? key_near_origin() : 0;
    }
    for (size_t i = 0; i < RUNCEDAU_PAIRS; i++)
        source.pairs[i] = random_bits() % 3 ? random_bits() % 3 : key_near_origin();
}

/* Random bytes, scattered keys, or a map with a few bytes altered; its numbers mostly in bounds. */
static asked garbage(int round) {
    const double sizes[] = {256.0, 1.0, 1.0 / 1024, 65536.0, 3.7};
    asked a = right(round % 2 == 0 ? &aisle : &full_hall);
    if (round % 3 == 0)
        random_bytes(&source, sizeof source);
    else if (round % 3 == 1)
        scatter();
    else
        for (int i = 0; i < 8; i++)
            random_bytes((uint8_t *)&source + random_bits() % sizeof source, 1);
    a.map.size = sizes[random_bits() % 5];
    a.map.radius = a.map.size * (double)(random_bits() % 64);
    if (random_bits() % 8 == 0)
        random_bytes(&a.map, sizeof a.map);
    if (round % 4 != 0)
        a.map.cells = random_bits() % 1025;
    if (round % 5 != 0)
        a.map.points = random_bits() % 65;
    return a;
}

static void random_batch(void) {
    const size_t count = random_bits() % 12;
    begin_batch();
    for (int64_t x = 0; x < (int64_t)count; x++)
        add(x, random_below(12) - 2, x % 3 != 0);
}

static void try_garbage(void) {
    for (int round = 0; round < ROUNDS; round++) {
        asked a = garbage(round);
        random_batch();
        a.shape = (int)random_below(5);
        a.radius = (double)random_below(20000);
        a.extent = (double)random_below(3000);
        a.p.x = (double)random_below(3000);
        a.q.y = (double)random_below(3000);
        a.cell.y = random_below(12) - 2;
        for (int c = 0; c < CALLS; c++)
            expect(&calls[c], &a, ANY);
    }
}

/* A struct from before an accepted batch: calls over lent tables cannot notice it. (A copy of a
 * floor from before is a floor of its own, with its own tables.) */
static void try_stale(void) {
    runcedau_floor now = aisle;
    begin_batch();
    for (int64_t i = 0; i < 8; i++)
        add(4, i, 0);
    accept(runcedau_floor_apply(&now, entries, entry_count, NULL));
    const runcedau_map before_freeing = aisle.map, before_filling = empty_hall.map;
    asked a = right(&now);
    a.map = before_freeing;
    for (int c = 0; c < CALLS; c++)
        expect(&calls[c], &a, ANY);
    a.map = before_filling;
    for (int c = 0; c < CALLS; c++)
        expect(&calls[c], &a, ANY);
    try_right_uses();
}

/* ---- of no map */

static void try_near_cells(void) {
    const runcedau_segment s = {{0.0, 0.0}, {1000.0, 700.0}};
    for (int at_end = 0; at_end < 2; at_end++)
        for (size_t room = 0; room < 20; room++) {
            uint64_t *cells = guarded_at(memory[0], 10 * sizeof *cells, at_end);
            uint8_t *near = guarded_at(memory[1], room, at_end);
            random_bytes(cells, 10 * sizeof *cells);
            memset(near, 0xa5, room);
            const bool done = runcedau_near_cells(s, 256.0, 128.0, cells, 10, near, room);
            check(done == (room >= 10), "near_cells", "another answer");
            for (size_t i = 0; i < room; i++)
                check(i < 10 && done ? near[i] < 2 : near[i] == 0xa5, "near_cells", "a byte");
        }
}

static void try_numbers(void) {
    const double odd[] = {0.0, -0.0, 1e-320, 2147483648.0, 1e19, -1e19, INFINITY, -INFINITY, NAN};
    for (size_t i = 0; i < sizeof odd / sizeof *odd; i++)
        for (size_t j = 0; j < sizeof odd / sizeof *odd; j++) {
            const runcedau_point p = {odd[i], odd[j]}, q = {odd[j], 1.0};
            const runcedau_segment s = {p, q};
            const runcedau_cell cell = runcedau_cell_of(odd[j], p);
            const runcedau_point centre = runcedau_centre(odd[i], cell);
            (void)runcedau_near(s, cell, odd[i], odd[j]);
            (void)runcedau_distance(s, runcedau_bottom_left(odd[j], cell));
            check(runcedau_vertical(s, odd[j]).count <= 2, "vertical", "a count");
            check(runcedau_horizontal(s, centre.x).count <= 2, "horizontal", "a count");
            check(runcedau_column_of(odd[i]) <= UINT32_MAX, "column_of", "too far");
            check(runcedau_column_up(odd[i]) <= UINT32_MAX, "column_up", "too far");
        }
    check(runcedau_floor_to_i64(NAN) == 0 && runcedau_shift(1.0, 1e300) == INT64_MAX, "whole", "");
}

static void try_keys(void) {
    const int64_t least = -2147483648, most = 2147483647;
    const runcedau_cell far = {INT64_MIN, INT64_MAX}, middle = {0, 0};
    const runcedau_cell there = runcedau_cell_of_key(runcedau_key_of_cell(far));
    check(there.x == least && there.y == most, "key_of_cell", "not brought to the nearer end");
    check(runcedau_key_of_cell(middle) == 0x8000000080000000u, "key_of_cell", "another key");
    for (int round = 0; round < ROUNDS; round++) {
        const uint64_t key = random_bits();
        check(runcedau_key_of_cell(runcedau_cell_of_key(key)) == key, "key_of_cell", "not its key");
    }
}

int main(void) {
    signal(SIGSEGV, stop);
    signal(SIGBUS, stop);
    signal(SIGALRM, stop);
    alarm(300);
    for (int i = 0; i < SLICES; i++)
        memory[i] = guarded_of(CAPACITY);
    make_halls();
    check(full_hall.map.cells == 1024 && full_hall.map.points == 64, "full hall", "not full");
    try_right_uses();
    try_short_lists();
    try_wrong_maps();
    try_zeros();
    try_wrong_shapes();
    try_wrong_questions();
    try_far_cells();
    try_wrong_batches();
    try_wrong_lengths();
    try_full_floors();
    try_wrong_files();
    try_garbage();
    try_stale();
    try_near_cells();
    try_numbers();
    try_keys();
    if (failures == 0)
        printf("wrong use: %d calls, %lu checks, all as they should be\n", (int)CALLS, tried);
    return failures != 0;
}
