/* The stack that each function used; painted.h says how it is measured. */
#include "painted.h"
#include <stdio.h>
#include <string.h>

enum { MOST = 64 };
static struct {
    const char *name;
    unsigned bytes;
} most[MOST];

uint32_t painted(const char *name, volatile uint32_t *top, uint32_t result) {
    volatile uint32_t *p = top - PAINTED_WORDS;
    int k = 0;
    while (p != top && *p == PAINT) p++;
    while (k < MOST - 1 && most[k].name && strcmp(most[k].name, name) != 0) k++;
    most[k].name = name;
    unsigned bytes = 4 * (unsigned)(top - p);
    if (most[k].bytes < bytes) most[k].bytes = bytes;
    return result;
}

void print_stacks(void) {
    for (int k = 0; k < MOST && most[k].name; k++) printf("%s %u\n", most[k].name, most[k].bytes);
}
