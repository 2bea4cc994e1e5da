/* The driver's input and output through a C library: files in the current folder, on bare metal by semihosting. */
#include "driver.h"
#ifdef PAINTED_DRIVER
#include "painted.h"
#endif
#include <stdio.h>
#include <stdlib.h>

static FILE *cases, *lines;

size_t take(void *to, size_t len) { return fread(to, 1, len, cases); }

void put(const void *from, size_t len) {
    if (fwrite(from, 1, len, lines) != len) leave(3);
}

void leave(int status) {
    if (fclose(lines) != 0) status = 3;
    exit(status);
}

int main(void) {
    cases = fopen("cases", "rb");
    lines = fopen("lines", "wb");
    if (!cases || !lines) return 3;
    run();
#ifdef PAINTED_DRIVER
    print_stacks();
#endif
    leave(0);
}
