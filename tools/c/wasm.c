/* What locator.wasm holds beside the proved code: the memory functions that LLVM may call, and a room that a page
   lends from (locator_lent gives its place; it has LENT bytes). The calls follow C's convention for wasm32: a
   result of more than one number comes through a pointer that is the first word. */
typedef __SIZE_TYPE__ size_t;

enum { LENT = 1 << 18 };

void *memcpy(void *to, const void *from, size_t n)
{
    unsigned char *a = to;
    const unsigned char *b = from;
    for (size_t i = 0; i < n; i++)
        a[i] = b[i];
    return to;
}

void *memmove(void *to, const void *from, size_t n)
{
    unsigned char *a = to;
    const unsigned char *b = from;
    if (a < b)
        return memcpy(to, from, n);
    while (n-- > 0)
        a[n] = b[n];
    return to;
}

void *memset(void *to, int c, size_t n)
{
    unsigned char *a = to;
    for (size_t i = 0; i < n; i++)
        a[i] = (unsigned char)c;
    return to;
}

static unsigned char room[LENT] __attribute__((aligned(16)));

void *locator_lent(void)
{
    return room;
}
