/* writer: drives locator_write on the cases of tests/second/writer.py from standard input, and prints their lines. The roots are lent to be read only, the
   room at every alignment, between margins; a refusal must leave it as it was, and nothing behind a record may be written. What is accepted is written once
   more into a longer room, longer by each number of bytes up to 63 in turn, and must be refused under 7 in a room that is one byte shorter. Each record is
   read back through the library: salvage keeps it, with bytes behind it too, and the whole call on its coefficients gives the same roots, each once. */
#define DRIVER "writer"
#include "lent.h"
#include "lent_bytes.h"
#include "locator.h"

enum { EXCESSES = 64, HEAD = 5 };

/* what is asked for */
typedef struct { uint16_t m, cutoff; list roots; } asked;

/* the bytes from k on are as they were */
static void kept_from(block b, size_t k)
{
    expect(memcmp(b.at + k, b.was + k, b.n - k) == 0, "a byte was written that should not be");
}

/* the call; empty lists are lent as null pointers too */
static locator_written written(asked a, block b, size_t shift)
{
    locator_written w = locator_write(a.m, a.cutoff, a.roots.n == 0 && shift % 2 == 0 ? NULL : a.roots.at, a.roots.n, b.n == 0 && shift % 2 == 0 ? NULL : b.at, b.n);
    expect(w.outcome == 0 || w.length == 0, "a refusal with a value");
    expect(w.length <= b.n, "a record longer than its room");
    kept_from(b, w.length);
    return w;
}

/* the same record in a longer room; refused in one that is a byte shorter */
static void again(asked a, const uint8_t *record, size_t length, size_t count)
{
    block longer = lend_marked(length + count % EXCESSES, count % 8), shorter = lend_marked(length - 1, count % 7);
    locator_written w = written(a, longer, count % 8);
    expect(w.outcome == 0 && w.length == length && memcmp(longer.at, record, length) == 0, "another record in a longer room");
    expect(written(a, shorter, count % 7).outcome == 7, "a room one byte short is not refused under 7");
    end_block(longer);
    end_block(shorter);
}

/* the library's reader accepts the record, whatever is behind it */
static void salvaged(const uint8_t *record, size_t length)
{
    uint8_t file[LOCATOR_RECORD + 3], kept[LOCATOR_RECORD + 3];
    memcpy(file, record, length);
    memset(file + length, 0x4C, 3);
    for (size_t behind = 0; behind <= 3; behind++) {
        locator_salvaged s = locator_salvage(file, length + behind, kept, sizeof kept);
        expect(s.outcome == 0 && s.length == length && memcmp(kept, record, length) == 0, "a record that the reader does not accept");
    }
}

/* the whole call on the record's coefficients gives the same roots, each once */
static void solved(asked a, const uint8_t *record)
{
    uint16_t f[LOCATOR_COEFFICIENTS], roots[LOCATOR_ROOTS], mults[LOCATOR_ROOTS];
    size_t n = record[4];
    expect(record[0] == 0x4C && record[1] == 0x52 && record[2] == a.m && record[3] == a.cutoff && n == a.roots.n + 1, "another head");
    for (size_t i = 0; i < n; i++)
        f[i] = (uint16_t)(record[HEAD + 2 * i] | record[HEAD + 1 + 2 * i] << 8);
    locator_found found = locator_solve(record[2], f, n, record[3], roots, LOCATOR_ROOTS, mults, LOCATOR_ROOTS);
    expect(found.outcome == 0 && found.count == a.roots.n, "another number of roots");
    for (size_t i = 0; i < found.count; i++)
        expect(roots[i] == a.roots.at[i] && mults[i] == 1, "another root, or one that is not simple");
}

/* one case */
static void run(uint16_t m, size_t count)
{
    uint16_t cutoff = number();
    size_t n = number(), room = number();
    asked a = {m, cutoff, lend(n)};
    block b = lend_block(room, count % 8);
    locator_written w = written(a, b, count % 8);
    printf("%u %u %zu %zu | %u", m, cutoff, n, room, w.outcome);
    if (w.outcome == 0)
        printf(" %u", w.length);
    print_block(b);
    if (w.outcome == 0) {
        again(a, b.at, w.length, count);
        salvaged(b.at, w.length);
        solved(a, b.at);
    }
    end_read(a.roots);
    end_block(b);
}

int main(void)
{
    size_t count = 0;
    for (int m = word(); m != EOF; m = word())
        run((uint16_t)m, count++);
    return fflush(stdout);
}
