/* kept: drives locator_salvage on the files of tests/second/records.py from standard input, each behind its length in four bytes, low byte first, and
   writes what was kept of each in the same form. The program reads 65,536 bytes at most, and so much of a file is lent here. The file is lent to be read
   only, the room between margins and now and then longer than the file; nothing behind what was kept may be written. A room that is one byte shorter must
   be refused under 7 and left as it was, and what was kept must come back whole. */
#define DRIVER "kept"
#include "lent.h"
#include "locator.h"

enum { LIMIT = 65536, MARGIN = 64, MARKED = 0xA5, MOST = 1 << 20 };

static uint8_t file[MOST], was[LIMIT], room[LIMIT + 3 * MARGIN], again[LIMIT + 1];

/* all n bytes are as they were marked */
static int marked(const uint8_t *at, size_t n)
{
    for (size_t i = 0; i < n; i++)
        if (at[i] != MARKED)
            return 0;
    return 1;
}

/* a length in four bytes, or the end of the input */
static long length(void)
{
    int low = word(), high = word();
    return low == EOF || high == EOF ? -1 : low | (long)high << 16;
}

/* salvages n bytes into so much room; what was kept stands behind the first margin */
static locator_salvaged salvaged(size_t n, size_t space)
{
    size_t all = space + 2 * MARGIN;
    memset(room, MARKED, all);
    memcpy(was, file, n);
    locator_salvaged s = locator_salvage(n == 0 ? NULL : file, n, space == 0 ? NULL : room + MARGIN, space);
    expect(memcmp(was, file, n) == 0, "the file changed");
    expect(marked(room, MARGIN) && marked(room + MARGIN + s.length, all - MARGIN - s.length), "a write outside what was kept");
    return s;
}

/* one file */
static void run(size_t n, size_t more)
{
    if (n > 0) {
        locator_salvaged s = salvaged(n, n - 1);
        expect(s.outcome == 7 && s.length == 0, "a short room is not refused");
    }
    locator_salvaged s = salvaged(n, n + more);
    expect(s.outcome == 0 && s.length <= n, "refused, or more than the file");
    locator_salvaged t = locator_salvage(room + MARGIN, s.length, again, s.length);
    expect(t.outcome == 0 && t.length == s.length && memcmp(again, room + MARGIN, s.length) == 0, "what was kept does not come back");
    for (int i = 0; i < 4; i++)
        putchar((int)(s.length >> 8 * i & 255));
    fwrite(room + MARGIN, 1, s.length, stdout);
}

int main(void)
{
    size_t count = 0;
    for (long n = length(); n >= 0; n = length()) {
        expect(n <= MOST && fread(file, 1, (size_t)n, stdin) == (size_t)n, "a file is cut short or too long");
        run(n < LIMIT ? (size_t)n : LIMIT, count++ % MARGIN);
    }
    return fflush(stdout);
}
