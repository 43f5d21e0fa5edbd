/* What the functions of runcedau_floor.h hand over to the library. It is linked with the functions
 * here in the library's place: they note what they are handed, and answer `answered` and
 * `refusal`. */
#include <stdio.h>
#include <string.h>

#include <runcedau_floor.h>

typedef struct {
    const void *at;
    size_t count;
} slice;

static struct {
    const char *call;
    runcedau_map map;
    slice slices[9];
    size_t count;
    double numbers[5];
    runcedau_cell cell;
    uint8_t shape;
} heard;

/* The map is no map of zeros, even in a refused answer: who keeps it there is found out. */
static const runcedau_map answered = {3.0, 4.0, 5, 6};
static const runcedau_map handed = {256.0, 128.0, 2, 1};
static uint8_t refusal;
static int failures;

static void hear(const char *call, runcedau_map map) {
    memset(&heard, 0, sizeof heard);
    heard.call = call;
    heard.map = map;
}

static void hear_slice(const void *at, size_t count) {
    const slice one = {at, count};
    heard.slices[heard.count++] = one;
}

static runcedau_count counted(void) {
    const runcedau_count count = {refusal, 7};
    return count;
}

/* ---- in the library's place */

#define LENT(type, name) type *name, size_t name##_len
#define TABLES                                                                                     \
    LENT(uint64_t, cells), LENT(uint64_t, points), LENT(uint8_t, statuses),                        \
        LENT(uint64_t, blockers), LENT(uint64_t, pairs)
#define READ_TABLES                                                                                \
    LENT(const uint64_t, cells), LENT(const uint64_t, points), LENT(const uint8_t, statuses),      \
        LENT(const uint64_t, blockers), LENT(const uint64_t, pairs)
#define HEAR(name) hear_slice(name, name##_len)
#define HEAR_TABLES HEAR(cells), HEAR(points), HEAR(statuses), HEAR(blockers), HEAR(pairs)

runcedau_outcome runcedau_open(double size, double radius, TABLES) {
    const runcedau_outcome outcome = {refusal, answered};
    hear("open", handed);
    heard.numbers[0] = size;
    heard.numbers[1] = radius;
    HEAR_TABLES;
    return outcome;
}

runcedau_opened runcedau_lent_read(LENT(const uint8_t, bytes), TABLES) {
    const runcedau_opened opened = {refusal, 8, answered};
    hear("read", handed);
    HEAR(bytes), HEAR_TABLES;
    return opened;
}

runcedau_changed runcedau_change_cells(runcedau_map map, TABLES, LENT(const int64_t, batch),
                                       LENT(uint64_t, confirmed), LENT(uint8_t, full),
                                       LENT(uint64_t, corners), LENT(uint8_t, altered)) {
    const runcedau_changed changed = {refusal, true, 21, 22, answered};
    hear("change_cells", map);
    HEAR_TABLES, HEAR(confirmed), HEAR(full), HEAR(corners), HEAR(altered);
    /* the batch is looked at apart from these: it has no fixed length */
    heard.numbers[0] = (double)batch_len;
    heard.numbers[1] = batch_len > 0 ? (double)batch[batch_len - 1] : 0.0;
    return changed;
}

runcedau_outcome runcedau_change_radius(runcedau_map map, LENT(const uint64_t, cells),
                                        LENT(uint64_t, points), LENT(uint8_t, statuses),
                                        LENT(uint64_t, blockers), LENT(uint64_t, pairs),
                                        double radius) {
    const runcedau_outcome outcome = {refusal, answered};
    hear("change_radius", map);
    heard.numbers[0] = radius;
    HEAR_TABLES;
    return outcome;
}

runcedau_told runcedau_is_occupied(runcedau_map map, LENT(const uint64_t, cells),
                                   runcedau_cell cell) {
    const runcedau_told told = {refusal, true};
    hear("is_occupied", map);
    heard.cell = cell;
    HEAR(cells);
    return told;
}

runcedau_found runcedau_ask(runcedau_map map, LENT(const uint64_t, cells), uint8_t shape,
                            runcedau_point p, runcedau_point q, double extent) {
    const runcedau_found found = {refusal, true, {31, 32}};
    const double numbers[] = {p.x, p.y, q.x, q.y, extent};
    hear("ask", map);
    heard.shape = shape;
    memcpy(heard.numbers, numbers, sizeof numbers);
    HEAR(cells);
    return found;
}

runcedau_count runcedau_occupied_cells(runcedau_map map, LENT(const uint64_t, cells),
                                       LENT(uint64_t, out)) {
    hear("occupied_cells", map);
    HEAR(cells), HEAR(out);
    return counted();
}

runcedau_count runcedau_corner_cells(runcedau_map map, LENT(const uint64_t, cells),
                                     LENT(uint64_t, out), LENT(uint8_t, statuses)) {
    hear("corner_cells", map);
    HEAR(cells), HEAR(out), HEAR(statuses);
    return counted();
}

runcedau_count runcedau_all_points(runcedau_map map, LENT(const uint64_t, points),
                                   LENT(const uint8_t, statuses),
                                   LENT(const uint64_t, blockers), LENT(uint64_t, out),
                                   LENT(uint8_t, bits), LENT(uint64_t, blocks)) {
    hear("all_points", map);
    HEAR(points), HEAR(statuses), HEAR(blockers), HEAR(out), HEAR(bits), HEAR(blocks);
    return counted();
}

runcedau_count runcedau_free_points(runcedau_map map, LENT(const uint64_t, points),
                                    LENT(const uint64_t, blockers), LENT(uint64_t, out)) {
    hear("free_points", map);
    HEAR(points), HEAR(blockers), HEAR(out);
    return counted();
}

runcedau_count runcedau_all_pairs(runcedau_map map, LENT(const uint64_t, points),
                                  LENT(const uint64_t, pairs), LENT(uint64_t, lesser),
                                  LENT(uint64_t, greater), LENT(uint64_t, blocks)) {
    hear("all_pairs", map);
    HEAR(points), HEAR(pairs), HEAR(lesser), HEAR(greater), HEAR(blocks);
    return counted();
}

runcedau_count runcedau_open_pairs(runcedau_map map, LENT(const uint64_t, points),
                                   LENT(const uint64_t, blockers),
                                   LENT(const uint64_t, pairs), LENT(uint64_t, lesser),
                                   LENT(uint64_t, greater)) {
    hear("open_pairs", map);
    HEAR(points), HEAR(blockers), HEAR(pairs), HEAR(lesser), HEAR(greater);
    return counted();
}

runcedau_count runcedau_visibility(runcedau_map map, READ_TABLES, runcedau_cell cell,
                                   LENT(uint64_t, out)) {
    hear("visibility", map);
    heard.cell = cell;
    HEAR_TABLES, HEAR(out);
    return counted();
}

runcedau_count runcedau_neighbours(runcedau_map map, LENT(const uint64_t, cells),
                                   runcedau_cell cell, LENT(uint64_t, out)) {
    hear("neighbours", map);
    heard.cell = cell;
    HEAR(cells), HEAR(out);
    return counted();
}

runcedau_count runcedau_lent_list(runcedau_map map, READ_TABLES, LENT(uint8_t, out)) {
    hear("list", map);
    HEAR_TABLES, HEAR(out);
    return counted();
}

/* ---- what is expected */

static runcedau_floor hall, before;
static runcedau_changes changes, changes_before;
static uint64_t list1[8], list2[8], list3[8];
static uint8_t bytes[8];
static const runcedau_cell cell = {-3, 9};

#define ALL_FIVE                                                                                   \
    {hall.cells, 1024}, {hall.points, 64}, {hall.statuses, 64}, {hall.blockers, 64}, {             \
        hall.pairs, 4096                                                                           \
    }

static void check(const char *what, bool fine) {
    if (!fine) {
        printf("handed over: %s: wrong\n", what);
        failures++;
    }
}

/* The call that was made, the map and the slices, in this order. */
static void expect(const char *call, const slice *slices, size_t count) {
    check(call, heard.call && strcmp(heard.call, call) == 0 && heard.count == count &&
                    memcmp(&heard.map, &handed, sizeof handed) == 0 &&
                    memcmp(heard.slices, slices, count * sizeof *slices) == 0);
}
#define EXPECT(call, ...)                                                                          \
    do {                                                                                           \
        const slice slices[] = {__VA_ARGS__};                                                      \
        expect(call, slices, sizeof slices / sizeof *slices);                                      \
    } while (0)

static void expect_count(const char *call, runcedau_count count) {
    check(call, count.refusal == refusal && count.count == 7);
}

/* The floor has the answered map where the call was accepted, and is else as it was. */
static void expect_kept(const char *call, uint8_t returned) {
    if (refusal == 0)
        before.map = answered;
    check(call, returned == refusal && memcmp(&hall, &before, sizeof hall) == 0);
    hall.map = before.map = handed;
}

static void try_altering(void) {
    expect_kept("begin", runcedau_floor_begin(&hall, 1.5, 2.5));
    EXPECT("open", ALL_FIVE);
    check("begin's numbers", heard.numbers[0] == 1.5 && heard.numbers[1] == 2.5);
    runcedau_reading reading = runcedau_floor_read(&hall, bytes, 5);
    expect_kept("read", reading.refusal);
    EXPECT("read", {bytes, 5}, ALL_FIVE);
    check("read's field", reading.field == 8);
    check("no file", runcedau_floor_read(&hall, NULL, 5).refusal == refusal);
    check("no file", heard.slices[0].at && heard.slices[0].count == 0);
    hall.map = handed;
    expect_kept("change_radius", runcedau_floor_change_radius(&hall, 2.5));
    EXPECT("change_radius", ALL_FIVE);
    check("change_radius's number", heard.numbers[0] == 2.5);
}

static void try_apply(const runcedau_entry *entries, size_t count, size_t numbers, double last) {
    changes_before = changes;
    expect_kept("apply", runcedau_floor_apply(&hall, entries, count, &changes));
    EXPECT("change_cells", ALL_FIVE, {changes.confirmed, 256}, {changes.occupied, 256},
           {changes.corners, 2304}, {changes.statuses, 2304});
    check("the batch", heard.numbers[0] == (double)numbers && heard.numbers[1] == last);
    if (refusal == 0) {
        changes_before.confirmed_count = 21;
        changes_before.corner_count = 22;
    }
    check("the changes", memcmp(&changes, &changes_before, sizeof changes) == 0);
    expect_kept("apply without changes", runcedau_floor_apply(&hall, entries, count, NULL));
    check("the batch without changes", heard.numbers[0] == (double)numbers);
    const slice *lists = heard.slices + 5;
    check("the lists without changes", lists[0].count == 256 && lists[1].count == 256 &&
                                           lists[2].count == 2304 && lists[3].count == 2304);
    memset(&changes, 0, sizeof changes);
}

/* The number that is handed over last is `occupied` of the last entry, which is n here. */
static void try_batches(void) {
    static runcedau_entry entries[257];
    for (int n = 0; n < 257; n++) {
        const runcedau_entry entry = {-1, -2, n};
        entries[n] = entry;
    }
    try_apply(entries, 0, 0, 0.0);
    try_apply(entries, 1, 3, 0.0);
    try_apply(entries, 3, 9, 2.0);
    try_apply(entries, 256, 768, 255.0);
    const size_t many[] = {257, 258, SIZE_MAX / 3, SIZE_MAX / 3 + 1, SIZE_MAX / 3 + 2, SIZE_MAX};
    for (size_t i = 0; i < sizeof many / sizeof *many; i++)
        try_apply(entries, many[i], 771, 256.0);
    try_apply(NULL, 0, 0, 0.0);
    try_apply(NULL, 2, 1, 0.0); /* no whole entry, so that it is refused */
}

static void try_questions(void) {
    const runcedau_point p = {1.0, 2.0}, q = {3.0, 4.0};
    const double numbers[] = {1.0, 2.0, 3.0, 4.0, 5.0};
    runcedau_told told = runcedau_floor_is_occupied(&hall, cell);
    check("is_occupied's answer", told.refusal == refusal && told.yes);
    EXPECT("is_occupied", {hall.cells, 1024});
    check("is_occupied's cell", memcmp(&heard.cell, &cell, sizeof cell) == 0);
    check("the shapes' numbers", RUNCEDAU_SHAPE_POINT == 0 && RUNCEDAU_SHAPE_SQUARE == 1 &&
                                     RUNCEDAU_SHAPE_CIRCLE == 2 && RUNCEDAU_SHAPE_SWEEP == 3);
    for (int shape = -1000; shape < 1000; shape++) {
        runcedau_found found = runcedau_floor_ask(&hall, (runcedau_shape)shape, p, q, 5.0);
        check("ask's answer", found.refusal == refusal && found.some && found.cell.x == 31 &&
                                  found.cell.y == 32);
        EXPECT("ask", {hall.cells, 1024});
        check("ask's numbers", memcmp(heard.numbers, numbers, sizeof numbers) == 0);
        check("ask's shape", shape >= 0 && shape < 4 ? heard.shape == shape : heard.shape > 3);
    }
}

static void try_lists_of_cells(size_t room) {
    expect_count("occupied_cells", runcedau_floor_occupied_cells(&hall, list1, room));
    EXPECT("occupied_cells", {hall.cells, 1024}, {list1, room});
    expect_count("corner_cells", runcedau_floor_corner_cells(&hall, list1, bytes, room));
    EXPECT("corner_cells", {hall.cells, 1024}, {list1, room}, {bytes, room});
    expect_count("visibility", runcedau_floor_visibility(&hall, cell, list1, room));
    EXPECT("visibility", ALL_FIVE, {list1, room});
    check("visibility's cell", memcmp(&heard.cell, &cell, sizeof cell) == 0);
    expect_count("neighbours", runcedau_floor_neighbours(&hall, cell, list1, room));
    EXPECT("neighbours", {hall.cells, 1024}, {list1, room});
    check("neighbours' cell", memcmp(&heard.cell, &cell, sizeof cell) == 0);
    expect_count("list", runcedau_floor_list(&hall, bytes, room));
    EXPECT("list", ALL_FIVE, {bytes, room});
}

static void try_lists_of_points(size_t room) {
    expect_count("all_points", runcedau_floor_all_points(&hall, list1, bytes, list2, room));
    EXPECT("all_points", {hall.points, 64}, {hall.statuses, 64}, {hall.blockers, 64},
           {list1, room}, {bytes, room}, {list2, room});
    expect_count("free_points", runcedau_floor_free_points(&hall, list1, room));
    EXPECT("free_points", {hall.points, 64}, {hall.blockers, 64}, {list1, room});
    expect_count("all_pairs", runcedau_floor_all_pairs(&hall, list1, list2, list3, room));
    EXPECT("all_pairs", {hall.points, 64}, {hall.pairs, 4096}, {list1, room}, {list2, room},
           {list3, room});
    expect_count("open_pairs", runcedau_floor_open_pairs(&hall, list1, list2, room));
    EXPECT("open_pairs", {hall.points, 64}, {hall.blockers, 64}, {hall.pairs, 4096},
           {list1, room}, {list2, room});
}

/* With a null list the library is not called, and the answer is 9. */
static void expect_short(runcedau_count count) {
    check("a null list", count.refusal == 9 && count.count == 0 && !heard.call);
}

static void try_null_lists(void) {
    hear(NULL, handed);
    expect_short(runcedau_floor_occupied_cells(&hall, NULL, 9));
    expect_short(runcedau_floor_corner_cells(&hall, NULL, bytes, 9));
    expect_short(runcedau_floor_corner_cells(&hall, list1, NULL, 9));
    expect_short(runcedau_floor_all_points(&hall, NULL, bytes, list2, 9));
    expect_short(runcedau_floor_all_points(&hall, list1, NULL, list2, 9));
    expect_short(runcedau_floor_all_points(&hall, list1, bytes, NULL, 9));
    expect_short(runcedau_floor_free_points(&hall, NULL, 9));
    expect_short(runcedau_floor_all_pairs(&hall, NULL, list2, list3, 9));
    expect_short(runcedau_floor_all_pairs(&hall, list1, NULL, list3, 9));
    expect_short(runcedau_floor_all_pairs(&hall, list1, list2, NULL, 9));
    expect_short(runcedau_floor_open_pairs(&hall, NULL, list2, 9));
    expect_short(runcedau_floor_open_pairs(&hall, list1, NULL, 9));
    expect_short(runcedau_floor_visibility(&hall, cell, NULL, 9));
    expect_short(runcedau_floor_neighbours(&hall, cell, NULL, 9));
    expect_short(runcedau_floor_list(&hall, NULL, 9));
}

int main(void) {
    hall.map = before.map = handed;
    const uint8_t refusals[] = {0, 1, 9, 10, 255};
    for (size_t i = 0; i < sizeof refusals; i++) {
        refusal = refusals[i];
        try_altering();
        try_batches();
        try_questions();
        for (size_t room = 0; room < 3; room++) {
            try_lists_of_cells(room);
            try_lists_of_points(room);
        }
        check("questions and lists leave the floor", memcmp(&hall, &before, sizeof hall) == 0);
        try_null_lists();
    }
    if (failures == 0)
        printf("handed over: as it should be\n");
    return failures != 0;
}
