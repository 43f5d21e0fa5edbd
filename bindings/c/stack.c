/* How much stack each call needs: it is run on a stack of its own, 1 MB of a pattern, over several
 * floors, and then it is seen how deep the pattern was overwritten. On standard input are the
 * figures to be kept, as lines `NAME KB`; without any, what was measured is printed, in bytes. */
#define _DEFAULT_SOURCE
#include <string.h>
#include <ucontext.h>

#include "calls.h"
#include "halls.h"
#include "lending.h"

/* LINKER: what the dynamic linker may need besides, which has found all functions here already. */
enum { STACK = 1 << 20, PATTERN = 0x5c, LINKER = 4096 };

static uint8_t stack[STACK];
static ucontext_t here, there;
static const call *running;
static asked question;
static slice slices[SLICES];

static void on_the_stack(void) {
    const answer given = running->run(slices, &question);
    (void)given;
}

/* The bytes of the stack that were overwritten, the frame of on_the_stack among them. */
static size_t measure(const call *c) {
    running = c;
    memset(stack, PATTERN, STACK);
    getcontext(&there);
    there.uc_stack.ss_sp = stack;
    there.uc_stack.ss_size = STACK;
    there.uc_link = &here;
    makecontext(&there, on_the_stack, 0);
    swapcontext(&here, &there);
    size_t untouched = 0;
    while (untouched < STACK && stack[untouched] == PATTERN)
        untouched++;
    return STACK - untouched;
}

/* The functions that refuse nothing, as one call, named after the first of them. */
static answer of_no_map(const slice *s, const asked *a) {
    const runcedau_segment line = {a->p, a->q};
    const runcedau_cell cell = runcedau_cell_of_key(runcedau_key_of_cell(a->cell));
    const runcedau_point centre = runcedau_centre(a->map.size, cell);
    double sum = runcedau_distance(line, centre) + runcedau_bottom_left(a->map.size, cell).x;
    sum += runcedau_vertical(line, centre.x).first + runcedau_horizontal(line, centre.y).first;
    sum += runcedau_root(sum) + runcedau_root_threshold(sum) + runcedau_abs(sum);
    sum += runcedau_min(sum, centre.x) + runcedau_max(sum, centre.y);
    int64_t whole = runcedau_shift(a->map.size, a->radius) + runcedau_floor_to_i64(sum);
    whole += runcedau_ceil_to_i64(sum) + runcedau_cut_to_i64(sum);
    whole += runcedau_cell_of(a->map.size, centre).x;
    const uint64_t columns = runcedau_column_of(sum) + runcedau_column_up(sum);
    const bool near = runcedau_near(line, cell, a->map.size, a->radius) ||
                      runcedau_near_cells(line, a->map.size, a->radius, s[0].at, s[0].count,
                                          s[1].at, s[1].count);
    return (answer){0, (size_t)columns, near && whole == 0};
}

static const call of_no_map_call = {
    "cell_of_key", of_no_map, NO_MAP, false, {CELLS, BYTES_1024}};

/* ---- what the calls are handed */

static runcedau_floor hall;
static uint64_t outputs[SLICES][RUNCEDAU_LISTING / 8];

/* The most over the floor and over all shapes. */
static size_t measure_on(const call *c, const runcedau_floor *floor) {
    size_t most = 0;
    for (int shape = 0; shape < 4; shape++) {
        hall = *floor;
        for (int i = 0; c->slices[i] != NO_SLICE; i++)
            slices[i] = lend(c->slices[i], &hall, outputs[i]);
        question = (asked){hall.map, 200.0, 900.0, shape, {-700.0, 0.0}, {9000.0, 8000.0}, {9, -1}};
        const size_t used = measure(c);
        most = used > most ? used : most;
    }
    return most;
}

static size_t worst(const call *c) {
    const runcedau_floor *floors[] = {&empty_hall, &aisle, &full_hall};
    size_t most = 0;
    for (int variant = 0; variant < 18; variant++) {
        make_batch(1 + variant / 3 % 3, variant / 9);
        const size_t used = measure_on(c, floors[variant % 3]);
        most = used > most ? used : most;
    }
    return most;
}

static const call *call_at(int i) { return i < CALLS ? &calls[i] : &of_no_map_call; }

static bool keep(const char *name, size_t kilobytes) {
    for (int i = 0; i <= CALLS; i++)
        if (strcmp(call_at(i)->name, name) == 0) {
            const size_t used = worst(call_at(i)) + LINKER;
            if (used > 1024 * kilobytes)
                printf("stack: %s needs %zu bytes, more than %zu KB\n", name, used, kilobytes);
            return used <= 1024 * kilobytes;
        }
    printf("stack: there is no %s\n", name);
    return false;
}

/* How many of the calls take a floor. list_file and the functions of no map have figures too. */
static int over_floors(void) {
    int count = 0;
    for (int i = 0; i < CALLS; i++)
        count += calls[i].slices[0] == FLOOR && strcmp(calls[i].name, "apply_untold") != 0;
    return count;
}

int main(int count, char **names) {
    if (!read_file(count, names))
        return 2;
    make_halls();
    char name[40];
    size_t kilobytes;
    int kept = 0, broken = 0;
    while (scanf("%39s %zu", name, &kilobytes) == 2)
        keep(name, kilobytes) ? kept++ : broken++;
    for (int i = 0; kept + broken == 0 && i <= CALLS; i++)
        printf("%s %zu\n", call_at(i)->name, worst(call_at(i)));
    if (kept > 0)
        printf("stack: %d figures are kept, of %d\n", kept, over_floors() + 2);
    return broken != 0 || (kept > 0 && kept != over_floors() + 2);
}
