/* Two racks with an aisle between them; the aisle is closed, and what is in sight of its mouth is told before and after. Among the calls are wrong ones,
 * which are refused. */
#include <inttypes.h>
#include <stdio.h>
#include <string.h>

#include "../runcedau.h"

/* A map, the one struct with its tables, and what a batch is answered with. */
typedef struct {
    runcedau_map map;
    uint64_t cells[RUNCEDAU_CELLS], points[RUNCEDAU_POINTS], blockers[RUNCEDAU_POINTS], pairs[RUNCEDAU_PAIRS];
    uint64_t confirmed[RUNCEDAU_CONFIRMED], corners[RUNCEDAU_CORNERS];
    uint8_t statuses[RUNCEDAU_POINTS], full[RUNCEDAU_CONFIRMED], altered[RUNCEDAU_CORNERS];
} hall;

static hall here, before;

/* The struct is written where the call was accepted, and nowhere else. */
static runcedau_changed change(const int64_t *batch, size_t numbers) {
    runcedau_changed changed = runcedau_change_cells(here.map, here.cells, RUNCEDAU_CELLS, here.points, RUNCEDAU_POINTS, here.statuses,
        RUNCEDAU_POINTS, here.blockers, RUNCEDAU_POINTS, here.pairs, RUNCEDAU_PAIRS, batch, numbers, here.confirmed, RUNCEDAU_CONFIRMED,
        here.full, RUNCEDAU_CONFIRMED, here.corners, RUNCEDAU_CORNERS, here.altered, RUNCEDAU_CORNERS);
    if (changed.refusal == 0)
        here.map = changed.map;
    return changed;
}

static void tell_change(const char *what, const int64_t *batch, size_t numbers) {
    before = here;
    runcedau_changed changed = change(batch, numbers);
    printf("%s: refusal %d, %zu confirmed, %zu corners altered; map and tables %s, %zu cells, %zu points\n", what, changed.refusal,
        changed.confirmed, changed.corners, memcmp(&before, &here, sizeof here) == 0 ? "as before" : "altered", here.map.cells, here.map.points);
}

static void tell_sight(int64_t x, int64_t y) {
    uint64_t out[RUNCEDAU_POINTS];
    runcedau_cell from = {x, y};
    runcedau_count seen = runcedau_visibility(here.map, here.cells, RUNCEDAU_CELLS, here.points, RUNCEDAU_POINTS, here.statuses,
        RUNCEDAU_POINTS, here.blockers, RUNCEDAU_POINTS, here.pairs, RUNCEDAU_PAIRS, from, out, RUNCEDAU_POINTS);
    printf("from %" PRId64 ",%" PRId64 ": refusal %d,", x, y, seen.refusal);
    for (size_t i = 0; i < seen.count; i++)
        printf(" %" PRId64 ",%" PRId64, (int64_t)(out[i] >> 32) - 2147483648, (int64_t)(out[i] & 0xffffffff) - 2147483648);
    printf("\n");
}

static void tell_found(const char *what, uint8_t shape, runcedau_point p, runcedau_point q, double extent) {
    runcedau_found found = runcedau_ask(here.map, here.cells, RUNCEDAU_CELLS, shape, p, q, extent);
    printf("%s: refusal %d", what, found.refusal);
    if (found.refusal == 0 && found.some)
        printf(", taken by %" PRId64 ",%" PRId64, found.cell.x, found.cell.y);
    else if (found.refusal == 0)
        printf(", free");
    printf("\n");
}

int main(void) {
    runcedau_outcome opened = runcedau_open(256.0, 128.0, here.cells, RUNCEDAU_CELLS, here.points, RUNCEDAU_POINTS, here.statuses,
        RUNCEDAU_POINTS, here.blockers, RUNCEDAU_POINTS, here.pairs, RUNCEDAU_PAIRS);
    printf("opened: refusal %d\n", opened.refusal);
    if (opened.refusal != 0)
        return 1;
    here.map = opened.map;
    int64_t racks[16 * 3];
    for (int i = 0; i < 16; i++) {
        racks[3 * i] = i / 8 * 4;
        racks[3 * i + 1] = i % 8;
        racks[3 * i + 2] = 1;
    }
    tell_change("racks", racks, 16 * 3);
    tell_sight(2, -1);
    const int64_t gate[9] = {1, 3, 1, 2, 3, 1, 3, 3, 1};
    tell_change("gate, as two numbers", gate, 2);
    tell_change("gate", gate, 9);
    tell_sight(2, -1);
    const int64_t twice[6] = {9, 9, 1, 9, 9, 0};
    tell_change("a cell named twice", twice, 6);
    runcedau_point mouth = runcedau_centre(256.0, (runcedau_cell){2, -1}), end = runcedau_centre(256.0, (runcedau_cell){2, 8});
    tell_found("a sweep through the aisle", RUNCEDAU_SHAPE_SWEEP, mouth, end, 256.0);
    tell_found("the same as shape 9", 9, mouth, end, 256.0);
    runcedau_point middle = runcedau_centre(256.0, (runcedau_cell){2, 3});
    tell_found("a circle about the gate", RUNCEDAU_SHAPE_CIRCLE, middle, middle, 100.0);
    return 0;
}
