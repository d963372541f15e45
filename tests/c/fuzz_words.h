/* The part of tests/c/fuzz.c for the block corrector and encoder: words that are any bytes, or codewords with errors
   planted. A word stands against a page that cannot be touched, before it or behind it. Codewords come from
   locator_encode, and block_rules.h judges them and what the corrector makes of them. */
#include "block_rules.h"

enum { MARKED = 0xA5 };

/* n bytes that are lent, and what they were */
typedef struct { uint8_t *at, *low, was[MOST]; size_t n; } block;

static block lent_word;

/* n bytes, against the page behind them or before them */
static void lend_bytes(block *b, const uint8_t *from, size_t n, int front)
{
    if (b->low == NULL) {
        char *room = mmap(NULL, 3 * PAGE, PROT_NONE, MAP_PRIVATE | MAP_ANONYMOUS, -1, 0);
        expect(room != MAP_FAILED && mprotect(room + PAGE, PAGE, PROT_READ | PROT_WRITE) == 0, "no memory");
        b->low = (uint8_t *)room + PAGE;
    }
    b->n = n;
    b->at = front ? b->low : b->low + (PAGE - n);
    for (size_t i = 0; i < GUARD; i++)
        b->at[front ? (ptrdiff_t)(n + i) : -(ptrdiff_t)(i + 1)] = MARKED;
    if (n > 0) {
        memcpy(b->at, from, n);
        memcpy(b->was, from, n);
    }
}

/* the guards of lent bytes are as they were */
static void guarded(const block *b, int front)
{
    for (size_t i = 0; i < GUARD; i++)
        expect(b->at[front ? (ptrdiff_t)(b->n + i) : -(ptrdiff_t)(i + 1)] == MARKED, "a write outside lent bytes");
}

/* the corrector on the lent word; the guards are as they were, and a refusal has written nothing */
static locator_corrected corrected(uint16_t strength, int front)
{
    const block *b = &lent_word;
    locator_corrected c = locator_correct(strength, b->n == 0 && front ? NULL : b->at, b->n);
    guarded(b, front);
    if (c.outcome != 0)
        expect(c.flips == 0 && memcmp(b->at, b->was, b->n) == 0, "a refusal of the corrector with a value or a write");
    return c;
}

/* is a codeword of strength 2 within two bits? One place is tried, the value at a gives the other */
static int near_by_trial(const uint8_t *word)
{
    const uint16_t *powers = powers_of_a();
    unsigned one = word_at(word, 1), cube = word_at(word, 3);
    for (unsigned i = 0; i < BLOCK_BITS; i++) {
        unsigned x = one ^ powers[i], y = powers[3 * i % BLOCK_BITS];
        if (cube == (y ^ times(11, x, times(11, x, x))))
            return 1;
    }
    return one == 0 && cube == 0;
}

/* an accepted word: a codeword with the data that it had */
static void check_encoded(locator_encoded e, unsigned t, const uint8_t *word, const uint8_t *was)
{
    expect(e.outcome == 0 && e.checks == 11 * t, "another number of check bits");
    expect(is_codeword(word, t), "an encoded word that is no codeword");
    for (unsigned j = e.checks; j < BLOCK_BITS; j++)
        expect(bit_of(word, j) == bit_of(was, j), "data that the encoder changed");
}

/* bytes of a word: any, or a codeword with bits flipped. Returns how many are wrong, of any bytes more than all */
static unsigned write_word(uint8_t *to, size_t n, unsigned t, uint8_t *codeword)
{
    unsigned any = byte(), errors = byte() % (t + 5), spread = byte();
    for (size_t i = 0; i < n; i++)
        to[i] = (uint8_t)(any % 4 == 0 ? byte() : (spread = spread * 25173 + 13849) >> 7);
    if (n != BLOCK_BYTES || any % 4 == 0 || any % 4 == 1)
        return BLOCK_BITS;
    to[BLOCK_BYTES - 1] &= 127;
    memcpy(codeword, to, n);
    check_encoded(locator_encode((uint16_t)t, codeword, n), t, codeword, to);
    memcpy(to, codeword, n);
    for (unsigned k = 0; k < errors; k++)
        flip_bit(to, any % 8 < 4 ? (any + k) % BLOCK_BITS : word() % BLOCK_BITS);
    return apart(to, codeword);
}

/* a word of the right shape: what is accepted is a codeword at the distance told; errors planted within t are mended;
   a codeword is not changed once more */
static void check_corrected(locator_corrected c, unsigned t, int front, unsigned errors, const uint8_t *codeword)
{
    uint8_t word[BLOCK_BYTES], was[BLOCK_BYTES];
    memcpy(word, lent_word.at, sizeof word);
    memcpy(was, lent_word.was, sizeof was);
    expect(c.outcome == 0 || c.outcome == 24, "another outcome of the corrector");
    if (errors <= t)
        expect(c.outcome == 0 && c.flips == errors && apart(word, codeword) == 0, "planted errors that stay");
    if (t == 1)
        expect(c.outcome == 0, "a word turned away at strength 1");
    if (t == 2)
        expect((c.outcome == 0) == near_by_trial(was), "trial of places decides otherwise");
    if (c.outcome != 0)
        return;
    expect(is_codeword(word, t) && c.flips <= t && apart(word, was) == c.flips, "a correction that is none");
    lend_bytes(&lent_word, word, sizeof word, !front);
    locator_corrected again = corrected((uint16_t)t, !front);
    expect(again.outcome == 0 && again.flips == 0 && apart(lent_word.at, word) == 0, "a codeword that is changed");
}

/* a word that is lent and a strength: whether both are of the right shape, and how many bits are wrong of a word that
   was made for strength t */
typedef struct { uint16_t strength; unsigned t, errors; int front, shaped, right; } question;

static question ask(uint8_t *codeword)
{
    static uint8_t bytes[MOST];
    unsigned kind = byte(), t = byte() % STRONGEST + 1;
    uint16_t strength = (uint16_t)(kind % 16 == 0 ? word() : kind % 16 == 1 ? byte() % 12 : t);
    size_t n = length(BLOCK_BYTES, BLOCK_BYTES);
    int front = byte() % 2, right = strength >= 1 && strength <= STRONGEST;
    unsigned errors = write_word(bytes, n, right ? strength : t, codeword);
    if (n == BLOCK_BYTES && kind % 16 != 2)
        bytes[BLOCK_BYTES - 1] &= 127;
    lend_bytes(&lent_word, bytes, n, front);
    int shaped = n == BLOCK_BYTES && bytes[BLOCK_BYTES - 1] <= 127;
    return (question){strength, right ? strength : t, errors, front, shaped, right};
}

/* one word, of any length, at any strength */
static void correct_word(void)
{
    static uint8_t codeword[BLOCK_BYTES];
    question q = ask(codeword);
    locator_corrected c = corrected(q.strength, q.front);
    note(CORRECT, c.outcome, c.flips + q.strength % 10 * 10);
    if (!q.shaped)
        expect(c.outcome == 22, "a word of another shape let in");
    else if (!q.right)
        expect(c.outcome == 23, "another strength let in");
    else
        check_corrected(c, q.t, q.front, q.errors, codeword);
}

/* the same word, encoded */
static void encode_word(void)
{
    static uint8_t codeword[BLOCK_BYTES];
    question q = ask(codeword);
    const block *b = &lent_word;
    locator_encoded e = locator_encode(q.strength, b->n == 0 && q.front ? NULL : b->at, b->n);
    guarded(b, q.front);
    note(ENCODE, e.outcome, q.strength % 10);
    if (e.outcome != 0)
        expect(e.checks == 0 && memcmp(b->at, b->was, b->n) == 0, "a refusal of the encoder with a value or a write");
    if (!q.shaped)
        expect(e.outcome == 22, "a word of another shape encoded");
    else if (!q.right)
        expect(e.outcome == 23, "encoded at another strength");
    else
        check_encoded(e, q.t, b->at, b->was);
}
