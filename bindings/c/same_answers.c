/* The functions over a floor do to it, and answer, what the library's calls do and answer that are
 * lent tables with the same content. */
#include <string.h>

#include "calls.h"
#include "halls.h"
#include "lending.h"

enum { SIDES = 2, LISTS = 4 };

/* Of each side: 0 over a floor, 1 over lent tables, which here are those of another floor. */
static runcedau_floor halls[SIDES];
static uint64_t lists[SIDES][LISTS][RUNCEDAU_LISTING / 8];
static runcedau_changes changes;
static int failures;

static bool is_output(kind of) { return of >= KEYS_64; }

static answer run(int side, const call *c, const asked *a) {
    slice s[SLICES];
    int list = 0;
    for (int i = 0; c->slices[i] != NO_SLICE; i++) {
        const kind of = c->slices[i];
        s[i] = lend(of, &halls[side], of == CHANGES ? (void *)&changes : lists[side][list]);
        list += is_output(of);
    }
    return c->run(s, a);
}

static void check(const char *name, const char *what, bool fine) {
    if (!fine) {
        printf("same answers: %s: %s\n", name, what);
        failures++;
    }
}

/* The lists of a batch's changes, each to a list of the first side. */
static void unpack_changes(void) {
    memcpy(lists[0][0], changes.confirmed, sizeof changes.confirmed);
    memcpy(lists[0][1], changes.occupied, sizeof changes.occupied);
    memcpy(lists[0][2], changes.corners, sizeof changes.corners);
    memcpy(lists[0][3], changes.statuses, sizeof changes.statuses);
}

static const call *named(const char *name) {
    for (int i = 0; i < CALLS; i++)
        if (strcmp(calls[i].name, name) == 0)
            return &calls[i];
    printf("same answers: there is no %s\n", name);
    exit(1);
}

static void compare(const char *name, const char *lent, const runcedau_floor *floor, asked a) {
    halls[0] = halls[1] = *floor;
    a.map = floor->map;
    memset(lists, 0xa5, sizeof lists);
    memset(&changes, 0xa5, sizeof changes);
    const answer here = run(0, named(name), &a), there = run(1, named(lent), &a);
    check(name, "the refusals differ", here.refusal == there.refusal);
    check(name, "the counts differ", here.count == there.count);
    check(name, "one found nothing", named(name)->alters || here.empty == there.empty);
    if (strcmp(name, "apply") == 0)
        unpack_changes();
    halls[1].map = halls[0].map;
    check(name, "the tables differ", memcmp(&halls[0], &halls[1], sizeof *halls) == 0);
    check(name, "the lists differ", memcmp(lists[0], lists[1], sizeof *lists) == 0);
}

static const char *const names[][2] = {
    {"begin", "lent_open"},
    {"read", "lent_read"},
    {"apply", "lent_change_cells"},
    {"change_radius", "lent_change_radius"},
    {"is_occupied", "lent_is_occupied"},
    {"ask", "lent_ask"},
    {"occupied_cells", "lent_occupied_cells"},
    {"corner_cells", "lent_corner_cells"},
    {"all_points", "lent_all_points"},
    {"free_points", "lent_free_points"},
    {"all_pairs", "lent_all_pairs"},
    {"open_pairs", "lent_open_pairs"},
    {"visibility", "lent_visibility"},
    {"neighbours", "lent_neighbours"},
    {"list", "lent_list"},
};

int main(int count, char **arguments) {
    if (!read_file(count, arguments))
        return 2;
    make_halls();
    const runcedau_floor *floors[] = {&empty_hall, &aisle, &full_hall};
    for (int round = 0; round < 24; round++) {
        make_batch(1 + round / 3 % 2 * 30, round < 12);
        const asked a = {{0.0, 0.0, 0, 0}, 40.0 * round, 90.0, round % 5, {-90.0, 0.0},
                         {900.0, 700.0 - 60.0 * round}, {2, round - 6}};
        for (size_t i = 0; i < sizeof names / sizeof *names; i++)
            compare(names[i][0], names[i][1], floors[round % 3], a);
    }
    if (failures == 0)
        printf("same answers: %zu pairs of calls\n", sizeof names / sizeof *names);
    return failures != 0;
}
