/* Bytes lent to the product, for the drivers of tests/c, behind lent.h: at every alignment, between margins, so that a write outside them is seen; behind them
   stands what they were. */

enum { MARGIN = 64, MARKED = 0xA5 };

/* n bytes between margins, in memory of their own; behind them what they were */
typedef struct { uint8_t *all, *at, *was; size_t n; } block;

/* n bytes that are all marked, `shift` bytes off the start of the memory */
static inline block lend_marked(size_t n, size_t shift)
{
    uint8_t *all = malloc(shift + 2 * n + 2 * MARGIN);
    expect(all != NULL, "no memory");
    memset(all, MARKED, shift + 2 * n + 2 * MARGIN);
    return (block){all, all + shift + MARGIN, all + shift + n + 2 * MARGIN, n};
}

/* n bytes from the input, `shift` bytes off the start of the memory */
static inline block lend_block(size_t n, size_t shift)
{
    block b = lend_marked(n, shift);
    for (size_t i = 0; i < n; i++) {
        int byte = getchar();
        expect(byte != EOF, "the cases end early");
        b.at[i] = b.was[i] = (uint8_t)byte;
    }
    return b;
}

/* the bytes in hex, where there are any, and the end of the line */
static inline void print_block(block b)
{
    printf(" |%s", b.n == 0 ? "" : " ");
    for (size_t i = 0; i < b.n; i++)
        printf("%02x", b.at[i]);
    putchar('\n');
}

/* the margins are as they were; the memory is given back */
static inline void end_block(block b)
{
    for (size_t i = 0; i < MARGIN; i++)
        expect(b.at[b.n + i] == MARKED && *(b.at - 1 - i) == MARKED, "a write outside lent memory");
    free(b.all);
}
