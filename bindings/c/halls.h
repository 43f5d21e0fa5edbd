/* Floors for the tests: an empty one, two racks with an aisle, and one with all that a floor may
 * have, 1,024 cells in 16 blocks and 64 points. */
#include <runcedau_floor.h>
#include <stdio.h>
#include <stdlib.h>

static runcedau_floor empty_hall, aisle, full_hall;

static void accept(uint8_t refusal) {
    if (refusal != 0) {
        printf("a floor for the tests could not be made: %s\n", runcedau_why(refusal));
        exit(1);
    }
}

static void make_halls(void) {
    runcedau_entry entries[256];
    accept(runcedau_floor_begin(&empty_hall, 256.0, 200.0));
    aisle = empty_hall;
    for (int i = 0; i < 16; i++)
        entries[i] = (runcedau_entry){i / 8 * 4, i % 8, 1};
    accept(runcedau_floor_apply(&aisle, entries, 16, NULL));
    accept(runcedau_floor_begin(&full_hall, 256.0, 128.0));
    for (int left = 0; left < 80; left += 20) {
        for (int i = 0; i < 256; i++)
            entries[i] = (runcedau_entry){left + i / 32, i % 32 / 8 * 20 + i % 8, 1};
        accept(runcedau_floor_apply(&full_hall, entries, 256, NULL));
    }
}
