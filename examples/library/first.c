/* A first example: prints the trace line of each step of a small program, and how it ends. docs/LIBRARY.md has the command
   that compiles it. */
#include "pmach.h"
#include <stdio.h>

int main(void) {
    const uint8_t code[] = {2, 3, 130, 214}; /* SLDC 2, SLDC 3, ADI, XIT */
    struct pmach h = {0};
    uint8_t text[200];
    size_t len;
    uint32_t status = pmach_new(&h, code, sizeof code);
    while (status == PMACH_DONE && pmach_line(&h, text, sizeof text, &len) == PMACH_DONE) {
        printf("%.*s\n", (int)len, (const char *)text);
        status = pmach_step(&h);
    }
    if (pmach_sentence(status, text, sizeof text, &len) == PMACH_DONE) {
        printf("%lu: %.*s\n", (unsigned long)status, (int)len, (const char *)text);
    }
    pmach_free(&h);
    return status != PMACH_ENDED;
}
