/* Two racks with an aisle between them. A gate closes the aisle, and what is in sight of its mouth
 * is told before and after; then the gate is taken away again. Wrong calls among these are refused.
 * The same with the tables in memory of the program's own is aisle.c.
 *
 *     gcc -I bindings bindings/c/aisle_floor.c target/staticlib/libruncedau.a */
#include <inttypes.h>
#include <stdio.h>
#include <string.h>

#include <runcedau_floor.h>

static runcedau_floor here, before;

static void tell_change(const char *what, const runcedau_entry *entries, size_t count) {
    static runcedau_changes changes;
    before = here;
    uint8_t refusal = runcedau_floor_apply(&here, entries, count, &changes);
    if (refusal == 0)
        printf("%s: %zu confirmed, %zu corners altered; %zu cells, %zu points\n", what,
               changes.confirmed_count, changes.corner_count, here.map.cells, here.map.points);
    else
        printf("%s: refused with %d (%s); the floor is %s\n", what, refusal, runcedau_why(refusal),
               memcmp(&before, &here, sizeof here) == 0 ? "as before" : "altered");
}

static void tell_sight(int64_t x, int64_t y) {
    uint64_t keys[RUNCEDAU_POINTS];
    const runcedau_cell from = {x, y};
    runcedau_count seen = runcedau_floor_visibility(&here, from, keys, RUNCEDAU_POINTS);
    printf("from %" PRId64 ",%" PRId64 ": refusal %d,", x, y, seen.refusal);
    for (size_t i = 0; i < seen.count; i++) {
        runcedau_cell cell = runcedau_cell_of_key(keys[i]);
        printf(" %" PRId64 ",%" PRId64, cell.x, cell.y);
    }
    printf("\n");
}

static void tell_found(const char *what, runcedau_found found) {
    if (found.refusal != 0)
        printf("%s: refused with %d (%s)\n", what, found.refusal, runcedau_why(found.refusal));
    else if (found.some)
        printf("%s: taken by %" PRId64 ",%" PRId64 "\n", what, found.cell.x, found.cell.y);
    else
        printf("%s: free\n", what);
}

int main(void) {
    uint8_t refusal = runcedau_floor_begin(&here, 256.0, 128.0);
    if (refusal != 0) {
        printf("%s\n", runcedau_why(refusal));
        return 1;
    }
    runcedau_entry racks[16];
    for (int i = 0; i < 16; i++)
        racks[i] = (runcedau_entry){i / 8 * 4, i % 8, 1};
    tell_change("racks", racks, 16);
    tell_sight(2, -1);
    const runcedau_floor open_aisle = here;
    const runcedau_entry gate[] = {{1, 3, 1}, {2, 3, 1}, {3, 3, 1}};
    tell_change("gate", gate, 3);
    tell_sight(2, -1);
    const runcedau_entry twice[] = {{9, 9, 1}, {9, 9, 0}};
    tell_change("a cell named twice", twice, 2);
    const runcedau_cell cells[] = {{2, -1}, {2, 8}, {2, 3}};
    runcedau_point mouth = runcedau_centre(256.0, cells[0]), end = runcedau_centre(256.0, cells[1]);
    runcedau_point middle = runcedau_centre(256.0, cells[2]);
    tell_found("a sweep through the aisle",
               runcedau_floor_ask(&here, RUNCEDAU_SHAPE_SWEEP, mouth, end, 256.0));
    tell_found("a circle about the gate",
               runcedau_floor_ask(&here, RUNCEDAU_SHAPE_CIRCLE, middle, middle, 100.0));
    tell_found("shape 9", runcedau_floor_ask(&here, (runcedau_shape)9, middle, middle, 100.0));
    here = open_aisle;
    printf("the gate taken away: %zu cells, %zu points\n", here.map.cells, here.map.points);
    tell_sight(2, -1);
    return 0;
}
