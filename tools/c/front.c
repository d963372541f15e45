/* locator: the installed programs under one name. Each is the proved one of crates/, linked as it is: its object, with
   its main under a name of its own (roots_main and so on). What stands here is tested and not proved. It runs the
   program that the first argument names, over the arguments behind it, and gives an exit status, which the language of
   the proved code has not. For that the linker leads the programs' calls of read and write, and those that ask for the
   arguments, through the functions here (--wrap): they look at what passes and change nothing of it.

   Exit status: 0 all of the input was taken; 1 some of it was not: a record or a line was refused, bytes were dropped,
   a word could not be corrected, reading stopped early, or there was more input than is read; 2 the arguments are
   wrong; 74 (EX_IOERR) reading or writing failed. What it was, the program says itself. */
#include "locator.h"
#include <stdbool.h>
#include <stdio.h>
#include <string.h>
#include <sys/types.h>
#include <unistd.h>

enum { TAKEN = 0, NOT_ALL = 1, USAGE = 2, FAILED = 74 };
enum { MOST = 65536 }; /* the bytes that roots, salvage, jobs and sheet read */

int roots_main(void);
int salvage_main(void);
int jobs_main(void);
int sheet_main(void);
int blocks_main(void);

ssize_t __real_read(int descriptor, void *to, size_t n);
ssize_t __real_write(int descriptor, const void *from, size_t n);
uint64_t __real_rattle_arg_count(void);
int64_t __real_rattle_arg(uint64_t i, uint8_t *buffer, uint64_t n);

/* ---- what is seen */

static bool failed;             /* standard input could not be read, or standard output not written */
static bool asked;              /* standard input was read */
static unsigned long long took; /* bytes of it */
static unsigned long lines;     /* of standard output */
static unsigned long said;      /* lines of standard error */
static bool refused;            /* some line of standard output has a second word other than 0: of `roots`, a refusal */
static int word;                /* of the line that is written now: 0 its first word, 1 its second, 2 what is behind */
static bool zero = true;        /* the second word so far is 0 */

static unsigned long lines_of(const char *text, size_t n)
{
    unsigned long found = 0;
    for (size_t i = 0; i < n; i++)
        found += text[i] == '\n';
    return found;
}

static void see(const char *text, size_t n)
{
    for (size_t i = 0; i < n; i++) {
        if (text[i] == ' ' || text[i] == '\n') {
            refused |= word == 1 && !zero;
            word = text[i] == '\n' ? 0 : word < 2 ? word + 1 : 2;
            zero = true;
        } else if (word == 1 && text[i] != '0') {
            zero = false;
        }
    }
}

ssize_t __wrap_read(int descriptor, void *to, size_t n)
{
    ssize_t got = __real_read(descriptor, to, n);
    if (descriptor == STDIN_FILENO) {
        asked = true;
        failed |= got < 0;
        took += got < 0 ? 0 : (size_t)got;
    }
    return got;
}

ssize_t __wrap_write(int descriptor, const void *from, size_t n)
{
    ssize_t got = __real_write(descriptor, from, n);
    if (descriptor == STDERR_FILENO) {
        said += lines_of(from, got < 0 ? n : (size_t)got); /* said, even if nobody hears it */
    } else if (descriptor == STDOUT_FILENO && got < 0) {
        failed = true;
    } else if (descriptor == STDOUT_FILENO) {
        lines += lines_of(from, (size_t)got);
        see(from, (size_t)got);
    }
    return got;
}

/* A program counts its arguments from its own name on, which is the first behind `locator`. */
uint64_t __wrap_rattle_arg_count(void) { return __real_rattle_arg_count() - 1; }

int64_t __wrap_rattle_arg(uint64_t i, uint8_t *buffer, uint64_t n) { return __real_rattle_arg(i + 1, buffer, n); }

/* ---- the programs */

/* Whether all of the input was taken, of a program that has read it without a failure. `salvage` prints its last line
   where kept.lr is written; what `jobs` and `sheet` did not take they say; `blocks correct` always says one line, its
   counts, and one more for whatever is wrong. */
static int roots_end(void) { return said > 0 || refused ? NOT_ALL : TAKEN; }
static int salvage_end(void) { return lines == 0 ? FAILED : lines > 1 || took > MOST ? NOT_ALL : TAKEN; }
static int told_end(void) { return said > 0 ? NOT_ALL : TAKEN; }
static int blocks_end(void) { return said > 1 ? NOT_ALL : TAKEN; }

static const struct program {
    const char *name, *usage, *does;
    int (*main)(void), (*end)(void);
} programs[] = {
    {"roots", "roots <jobs.lr", "the roots of each record of a job file, a line each", roots_main, roots_end},
    {"salvage", "salvage <damaged.lr", "what can be kept of a damaged job file, as kept.lr", salvage_main, salvage_end},
    {"jobs", "jobs <list >jobs.lr", "the job file of a list of roots, a line each", jobs_main, told_end},
    {"sheet", "sheet <jobs.lr", "the monthly sheet of a job file", sheet_main, told_end},
    {"blocks", "blocks encode T <data >words", "data as words of 256 bytes that stand up to T wrong bits", blocks_main,
     blocks_end},
    {"blocks", "blocks correct T <words >data", "these words corrected, and their data", blocks_main, blocks_end},
};

enum { PROGRAMS = sizeof programs / sizeof *programs };

static int usage(FILE *to)
{
    fprintf(to, "usage:\n");
    for (int k = 0; k < PROGRAMS; k++)
        fprintf(to, "  locator %-30s %s\n", programs[k].usage, programs[k].does);
    fprintf(to, "  locator PROGRAM --help, locator --version, locator --help\n\n"
                "Exit status: 0 all of the input was taken; 1 some of it was refused, dropped or ignored;\n"
                "2 the arguments are wrong; 74 reading or writing failed. man locator has the rest.\n");
    return to == stderr ? USAGE : fflush(to) == 0 ? TAKEN : FAILED;
}

static int run(const struct program *p)
{
    p->main();
    if (failed)
        return FAILED;
    if (!asked) /* it was asked for help or its version, or it said what is wrong with its arguments */
        return said > 0 ? USAGE : TAKEN;
    return p->end();
}

int main(int count, char **arguments)
{
    if (count < 2)
        return usage(stderr);
    for (int k = 0; k < PROGRAMS; k++)
        if (strcmp(arguments[1], programs[k].name) == 0)
            return run(&programs[k]);
    if (count == 2 && strcmp(arguments[1], "--help") == 0)
        return usage(stdout);
    if (count == 2 && strcmp(arguments[1], "--version") == 0) {
        printf("locator %s\n", LOCATOR_VERSION);
        return fflush(stdout) == 0 ? TAKEN : FAILED;
    }
    fprintf(stderr, "locator: no such program: %s (see locator --help)\n", arguments[1]);
    return USAGE;
}
