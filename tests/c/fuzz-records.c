/* A libFuzzer target over the program `roots`: files of job records, mostly well formed, and any bytes. The program's own object is linked, its main under
   the name roots_main; standard input and output are files in memory, and so is standard error while it runs. What it prints is compared, byte for byte, with a
   reading of the same file after docs/RULES.md by tests/c/reference.h; it says something on standard error exactly where the file is longer than it reads. tests/fuzz --records builds and runs it; reading that does not end meets libFuzzer's time limit. */
#define _GNU_SOURCE

enum { OTHER, FOUR, EIGHT, ELEVEN, ENDED, CUT, CALLS };

static const char *const name[CALLS] = {"other fields", "field 4", "field 8", "field 11", "reading ends", "reading ends at 65,536 bytes of more"};
#include "fuzz.h"

enum { LIMIT = 65536, RAW = 600, COUNT = 256, TEXT = 4 * LIMIT };

int roots_main(void);

/* ---- the file */

static uint8_t file[2 * LIMIT];
static size_t size;

static void put(unsigned b)
{
    expect(size < sizeof file, "a file too long for this test");
    file[size++] = (uint8_t)b;
}

static void put_record(unsigned mark, unsigned m, unsigned cutoff, const uint16_t *f, size_t n)
{
    put(mark & 255);
    put(mark >> 8);
    put(m);
    put(cutoff);
    put((unsigned)n);
    for (size_t i = 0; i < n; i++) {
        put(f[i] & 255);
        put(f[i] >> 8);
    }
}

/* a record that is mostly well formed and complete */
static void record(void)
{
    static uint16_t f[COUNT];
    unsigned kind = byte(), m = degree() & 255, c = byte(), cutoff = c % 16 == 15 ? byte() : c % 5, mark = kind % 32 == 31 ? word() : 0x524C;
    put_record(mark, m, cutoff, f, polynomial(m, f, COUNT));
    if (kind % 16 == 14)
        size -= byte() % 6;
}

/* records that are refused, so long that what comes next stands around the limit */
static void fill(void)
{
    static const uint16_t zeros[COUNT];
    while (size < LIMIT - 2 * 515)
        put_record(0x524C, 0, 0, zeros, 255);
    put_record(0x524C, 0, 0, zeros, byte());
}

static void write_file(void)
{
    unsigned kind = byte();
    size = 0;
    if (kind / 8 % 16 == 15)
        fill();
    if (kind % 8 == 0)
        for (size_t n = word() % RAW; n > 0; n--)
            put(byte());
    else
        for (unsigned n = byte() % 16; n > 0; n--)
            record();
    if (kind % 8 == 1)
        for (unsigned n = byte() % 8; n > 0; n--)
            put(byte());
}

/* ---- what must be printed */

static char wanted[TEXT + 1];
static size_t length;

static void print(const char *form, unsigned number)
{
    length += (size_t)sprintf(wanted + length, form, number);
    expect(length < TEXT - 64, "a text too long for this test");
}

/* the line of a complete record */
static void line(unsigned k, unsigned m, unsigned cutoff, const uint16_t *f, size_t n)
{
    static uint16_t roots[DEGREE];
    int in = m == 4 ? FOUR : m == 8 ? EIGHT : m == 11 ? ELEVEN : OTHER;
    unsigned out = refusal(m, f, n, cutoff);
    print("%u ", k);
    print("%u", out);
    if (out == 0) {
        unsigned count = all_roots(m, f, n, roots), steps = count_steps(m, cutoff == 0 ? 3 : cutoff, roots, count);
        print(" %u", count);
        print(" %u", steps);
        for (unsigned i = 0; i < count; i++)
            print(" %u", roots[i]);
        note(in, 0, count + steps / 8 * (DEGREE + 1));
    } else
        note(in, out, (unsigned)n);
    print("\n", 0);
}

/* the lines of the file's first bytes; how reading ends, 0 where no byte remains */
static unsigned read_file(size_t end)
{
    static uint16_t f[COUNT];
    size_t at = 0;
    unsigned k = 1;
    for (length = 0; at < end; k++) {
        const uint8_t *from = file + at;
        size_t rest = end - at;
        unsigned out = rest == 1 ? 12 : from[0] != 0x4C || from[1] != 0x52 ? 11 : rest < 5 || rest < 5u + 2u * from[4] ? 12 : 0;
        if (out != 0) {
            print("%u ", k);
            print("%u\n", out);
            return out;
        }
        for (size_t i = 0; i < from[4]; i++)
            f[i] = (uint16_t)(from[5 + 2 * i] | from[6 + 2 * i] << 8);
        line(k, from[2], from[3], f, from[4]);
        at += 5u + 2u * from[4];
    }
    return 0;
}

/* ---- what is printed */

static char got[TEXT + 1];

static int real_error, told;

/* an empty file in memory */
static int opened(void)
{
    int made = memfd_create("fuzz", 0);
    expect(made >= 0, "no file in memory");
    return made;
}

/* the descriptor stands for an empty file in memory */
static void open_as(int descriptor)
{
    expect(dup2(opened(), descriptor) == descriptor, "no file in memory");
}

/* the words of the fuzzer are not the program's: it has none but its name */
size_t rattle_arg_count(void)
{
    return 1;
}

ptrdiff_t rattle_arg(size_t place, uint8_t *room, size_t bytes)
{
    (void)place, (void)room, (void)bytes;
    return -1;
}

/* calls the program; how many bytes it says on standard error, which is a file in memory meanwhile */
static off_t called(void)
{
    expect(ftruncate(told, 0) == 0 && lseek(told, 0, SEEK_SET) == 0 && dup2(told, STDERR_FILENO) == STDERR_FILENO, "no standard error");
    int status = roots_main();
    expect(dup2(real_error, STDERR_FILENO) == STDERR_FILENO, "standard error is lost");
    expect(status == 0, "roots does not end with 0");
    return lseek(told, 0, SEEK_CUR);
}

/* runs the program over the file, whose reading ends so; how many bytes it printed */
static size_t run(unsigned end)
{
    expect(ftruncate(STDIN_FILENO, 0) == 0 && pwrite(STDIN_FILENO, file, size, 0) == (ssize_t)size, "standard input cannot be written");
    expect(ftruncate(STDOUT_FILENO, 0) == 0, "standard output cannot be emptied");
    expect(lseek(STDIN_FILENO, 0, SEEK_SET) == 0 && lseek(STDOUT_FILENO, 0, SEEK_SET) == 0, "no front of a file");
    expect((called() > 0) == (size > LIMIT || end != 0), "standard error tells otherwise than it is where reading stopped, or of input behind 65,536 bytes");
    expect(lseek(STDIN_FILENO, 0, SEEK_CUR) <= LIMIT + 1, "roots reads more than a byte behind 65,536");
    ssize_t n = pread(STDOUT_FILENO, got, TEXT, 0);
    expect(n >= 0 && n < TEXT, "roots prints more than it can");
    got[n] = 0;
    return (size_t)n;
}

static void differ(void)
{
    fprintf(stderr, "fuzz: the file");
    for (size_t i = 0; i < size; i++)
        fprintf(stderr, " %02X", file[i]);
    fprintf(stderr, "\nfuzz: must print\n%sfuzz: prints\n%s", wanted, got);
    expect(0, "roots prints other lines");
}

int LLVMFuzzerInitialize(int *count, char ***words)
{
    (void)count, (void)words;
    real_error = dup(STDERR_FILENO);
    told = opened();
    open_as(STDIN_FILENO);
    open_as(STDOUT_FILENO);
    return start();
}

int LLVMFuzzerTestOneInput(const uint8_t *data, size_t bytes)
{
    wind(data, bytes);
    write_file();
    unsigned end = read_file(size < LIMIT ? size : LIMIT);
    wanted[length] = 0;
    note(size > LIMIT ? CUT : ENDED, end, (unsigned)size);
    if (run(end) != length || memcmp(wanted, got, length) != 0)
        differ();
    return 0;
}
