/* The three functions of the C library that the archive calls: wasm32 has no C library of its own. Compile with
 * -fno-builtin, or clang turns each loop into a call of the function that it is in.
 */
typedef __SIZE_TYPE__ size;

void *memcpy(void *to, const void *from, size n)
{
    unsigned char *t = to;
    const unsigned char *f = from;
    for (size i = 0; i < n; i++)
        t[i] = f[i];
    return to;
}

void *memmove(void *to, const void *from, size n)
{
    unsigned char *t = to;
    const unsigned char *f = from;
    if (t < f)
        return memcpy(to, from, n);
    for (size i = n; i > 0; i--)
        t[i - 1] = f[i - 1];
    return to;
}

void *memset(void *to, int byte, size n)
{
    unsigned char *t = to;
    for (size i = 0; i < n; i++)
        t[i] = (unsigned char)byte;
    return to;
}
