/* memcpy, memmove and memset for WebAssembly, which has no C library. */
#include <stddef.h>

void *memcpy(void *to, const void *from, size_t len) {
    unsigned char *a = to;
    const unsigned char *b = from;
    while (len-- > 0) *a++ = *b++;
    return to;
}

void *memmove(void *to, const void *from, size_t len) {
    unsigned char *a = to;
    const unsigned char *b = from;
    if (a < b) return memcpy(to, from, len);
    while (len-- > 0) a[len] = b[len];
    return to;
}

void *memset(void *to, int value, size_t len) {
    unsigned char *a = to;
    while (len-- > 0) *a++ = (unsigned char)value;
    return to;
}
