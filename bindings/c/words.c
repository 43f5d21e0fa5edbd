/* What runcedau_why says: a line for each number, and one, `other`, for all without meaning. */
#include <stdio.h>
#include <string.h>

#include <runcedau.h>

int main(void) {
    const char *other = runcedau_why(255);
    for (int number = 0; number < 256; number++) {
        const char *words = runcedau_why((uint8_t)number);
        if (strcmp(words, other) != 0)
            printf("%d\t%s\n", number, words);
    }
    printf("other\t%s\n", other);
    return 0;
}
