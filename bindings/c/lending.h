/* What a call is lent: tables of a floor, a batch, a map file, lists. After calls.h. */
static runcedau_entry entries[RUNCEDAU_ENTRIES];
static uint8_t file[10000];
static size_t file_length;

/* `output` is used where the slice is one. */
static slice lend(kind of, runcedau_floor *floor, void *output) {
    switch ((int)of) {
    case CELLS:
        return (slice){floor->cells, RUNCEDAU_CELLS};
    case POINTS:
        return (slice){floor->points, RUNCEDAU_POINTS};
    case STATUSES:
        return (slice){floor->statuses, RUNCEDAU_POINTS};
    case BLOCKERS:
        return (slice){floor->blockers, RUNCEDAU_POINTS};
    case PAIRS:
        return (slice){floor->pairs, RUNCEDAU_PAIRS};
    case FLOOR:
        return (slice){floor, 1};
    case ENTRIES:
        return (slice){entries, RUNCEDAU_ENTRIES};
    case BATCH:
        return (slice){entries, 3 * RUNCEDAU_ENTRIES};
    case FILE_BYTES:
        return (slice){file, file_length};
    default:
        return (slice){output, kinds[of].need};
    }
}

/* 256 cells at the racks and beyond. */
static void make_batch(int step, int64_t occupied) {
    for (int i = 0; i < RUNCEDAU_ENTRIES; i++)
        entries[i] = (runcedau_entry){step * (i / 16), step * (i % 16), occupied};
}

/* The map file that the program is started with. */
static bool read_file(int count, char **names) {
    FILE *map = count == 2 ? fopen(names[1], "rb") : NULL;
    if (!map) {
        printf("usage: %s FILE, a map file\n", names[0]);
        return false;
    }
    file_length = fread(file, 1, sizeof file, map);
    fclose(map);
    return true;
}
