/* Memory between two pages that may not be touched: a byte too far ends the program. */
#include <stdbool.h>
#include <stddef.h>
#include <stdint.h>
#include <stdio.h>
#include <stdlib.h>
#include <sys/mman.h>
#include <unistd.h>

typedef struct {
    uint8_t *front, *end;
} guarded;

static guarded guarded_of(size_t size) {
    const size_t page = (size_t)sysconf(_SC_PAGESIZE);
    const size_t inner = (size / page + 1) * page;
    uint8_t *base = mmap(NULL, inner + 2 * page, PROT_NONE, MAP_PRIVATE | MAP_ANONYMOUS, -1, 0);
    if (base == MAP_FAILED || mprotect(base + page, inner, PROT_READ | PROT_WRITE) != 0) {
        perror("guarded");
        exit(1);
    }
    const guarded memory = {base + page, base + page + inner};
    return memory;
}

/* So many bytes, right after the first page or right before the second. */
static void *guarded_at(guarded memory, size_t size, bool at_end) {
    return at_end ? memory.end - size : memory.front;
}
