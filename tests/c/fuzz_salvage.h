/* Salvage's part of tests/c/fuzz.c: files that are records, damaged or not, and any bytes, in a room of any length. What is kept is compared with a plain
   walk over the file; what was kept is salvaged once more. File and room stand against pages that cannot be touched. */

enum { FILE_BYTES = MOST };

static block lent_file, lent_room;

/* is the record at the front of n bytes complete and accepted? Then its length, else 0 */
static size_t accepted(const uint8_t *at, size_t n)
{
    uint16_t f[255];
    if (n < 5 || at[0] != 0x4C || at[1] != 0x52 || n < 5 + 2u * at[4])
        return 0;
    for (size_t i = 0; i < at[4]; i++)
        f[i] = (uint16_t)(at[5 + 2 * i] | at[6 + 2 * i] << 8);
    return refusal(at[2], f, at[4], at[3]) == 0 ? 5 + 2u * at[4] : 0;
}

/* the records of a file that are kept, and how many bytes they are */
static size_t kept_of(const uint8_t *file, size_t n, uint8_t *kept)
{
    size_t length = 0, whole;
    for (size_t at = 0; at < n; at += whole > 0 ? whole : 1) {
        whole = accepted(file + at, n - at);
        memcpy(kept + length, file + at, whole);
        length += whole;
    }
    return length;
}

/* records, most of them well formed, with bytes between them and a byte changed here and there. Returns how many bytes */
static size_t write_file(uint8_t *file)
{
    static uint16_t f[MOST];
    size_t n = 0, most = 1 + word() % FILE_BYTES;
    while (n < most) {
        unsigned kind = byte(), m = degree() & 255;
        size_t count = kind % 4 == 0 ? 0 : polynomial(m, f, DEGREE + 8);
        if (kind % 4 == 0 || n + 5 + 2 * count > most) {
            file[n++] = (uint8_t)byte();
            continue;
        }
        uint8_t head[5] = {0x4C, 0x52, (uint8_t)m, (uint8_t)(kind % 16 == 1 ? byte() : kind % 5), (uint8_t)count};
        memcpy(file + n, head, sizeof head);
        for (size_t i = 0; i < count; i++) {
            file[n + 5 + 2 * i] = (uint8_t)f[i];
            file[n + 6 + 2 * i] = (uint8_t)(f[i] >> 8);
        }
        if (kind % 16 == 2)
            file[n + byte() % (5 + 2 * count)] = (uint8_t)byte();
        n += 5 + 2 * count;
    }
    return n;
}

/* one file in one room */
static void salvage(void)
{
    static uint8_t file[FILE_BYTES], kept[FILE_BYTES], old[FILE_BYTES];
    size_t n = write_file(file), length = kept_of(file, n, kept), room = byte() % 4 == 3 ? word() % (FILE_BYTES + 1) : n + byte() % (FILE_BYTES + 1 - n);
    int front = byte() % 2;
    memset(old, (int)byte(), sizeof old);
    lend_bytes(&lent_file, file, n, front);
    lend_bytes(&lent_room, old, room, !front);
    locator_salvaged s = locator_salvage(lent_file.at, n, room == 0 ? NULL : lent_room.at, room);
    note(SALVAGE, s.outcome, (unsigned)(s.length / 8));
    guarded(&lent_file, front);
    guarded(&lent_room, !front);
    expect(s.outcome == (room < n ? 7 : 0) && s.length == (room < n ? 0 : length), "another outcome of salvage");
    expect(memcmp(lent_file.at, file, n) == 0, "salvage writes its file");
    expect(memcmp(lent_room.at, kept, s.length) == 0 && memcmp(lent_room.at + s.length, old + s.length, room - s.length) == 0, "another copy");
    if (s.outcome != 0)
        return;
    lend_bytes(&lent_file, kept, length, !front);
    lend_bytes(&lent_room, old, length, front);
    locator_salvaged again = locator_salvage(lent_file.at, length, lent_room.at, length);
    expect(again.outcome == 0 && again.length == length && memcmp(lent_room.at, kept, length) == 0, "salvaging what was kept changes it");
}
