/* The listing of a map file: reads the file into a floor and lists the floor, as the program
 * `listing` does (RULES 6).
 *
 *     gcc -I bindings bindings/c/list_map.c target/staticlib/libruncedau.a -o list_map
 *     ./list_map examples/aisle.map */
#include <inttypes.h>
#include <stdio.h>

#include <runcedau_floor.h>

static uint8_t bytes[1 << 20], text[RUNCEDAU_LISTING];
static runcedau_floor hall;

int main(int count, char **names) {
    FILE *file = count == 2 ? fopen(names[1], "rb") : NULL;
    if (!file) {
        fprintf(stderr, "usage: list_map FILE, a map file that can be read\n");
        return 2;
    }
    size_t length = fread(bytes, 1, sizeof bytes, file);
    if (ferror(file) || length == sizeof bytes) {
        fprintf(stderr, "list_map: %s cannot be read, or has 1 MB or more\n", names[1]);
        return 1;
    }
    fclose(file);
    runcedau_reading reading = runcedau_floor_read(&hall, bytes, length);
    if (reading.refusal != 0) {
        printf("refused %d at %" PRIu64 "\n", reading.refusal, reading.field);
        return 0;
    }
    runcedau_count listed = runcedau_floor_list(&hall, text, sizeof text);
    if (listed.refusal != 0) {
        fprintf(stderr, "list_map: %s\n", runcedau_why(listed.refusal));
        return 1;
    }
    fwrite(text, 1, listed.count, stdout);
    return 0;
}
