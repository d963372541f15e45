/* streams: runs a program of crates/ over many standard inputs, so that the emulator starts once: its object is linked here (tools/cc PROGRAM OUTPUT
   tests/c/streams.c) and its main is called for each. A program in Rattle has no state that outlives a call. Reads files, each behind its length in four bytes,
   low byte first; writes, in the same form, what the program wrote to standard output of each and then what it said on standard error. */
#include <stdint.h>
#include <stdio.h>
#include <stdlib.h>
#include <string.h>
#include <unistd.h>

enum { ROOM = 1 << 22 };

static int real_error, told;

int __real_main(void);

static void stop(const char *why)
{
    perror(why);
    exit(2);
}

/* the descriptor now stands for an empty file, to be written and read */
static void open_as(int descriptor)
{
    FILE *file = tmpfile();
    if (file == NULL || dup2(fileno(file), descriptor) < 0)
        stop("tmpfile");
}

/* to the front of its file */
static void rewound(int descriptor)
{
    if (lseek(descriptor, 0, SEEK_SET) != 0)
        stop("lseek");
}

/* runs the program; what it says on standard error goes to a file of its own */
static void run(void)
{
    if (dup2(told, STDERR_FILENO) < 0)
        stop("standard error");
    int status = __real_main();
    if (dup2(real_error, STDERR_FILENO) < 0)
        exit(2);
    if (status != 0) {
        fprintf(stderr, "streams: the program ends with %d\n", status);
        exit(1);
    }
}

/* puts the next n bytes of the files into standard input alone */
static void give(FILE *files, size_t n)
{
    static char room[ROOM];
    if (n > sizeof room || fread(room, 1, n, files) != n)
        stop("a file is cut short or too long");
    rewound(STDIN_FILENO);
    if (ftruncate(STDIN_FILENO, 0) != 0 || write(STDIN_FILENO, room, n) != (ssize_t)n)
        stop("write");
    rewound(STDIN_FILENO);
}

/* takes what the descriptor's file got, behind its length, and empties the file */
static void take(int descriptor, FILE *parts)
{
    static char room[ROOM];
    off_t n = lseek(descriptor, 0, SEEK_CUR);
    rewound(descriptor);
    if (n < 0 || n > (off_t)sizeof room || read(descriptor, room, (size_t)n) != n)
        stop("read");
    for (int i = 0; i < 4; i++)
        putc((int)(n >> 8 * i & 255), parts);
    fwrite(room, 1, (size_t)n, parts);
    rewound(descriptor);
    if (ftruncate(descriptor, 0) != 0)
        stop("ftruncate");
}

int __wrap_main(void)
{
    uint8_t head[4];
    FILE *files = fdopen(dup(STDIN_FILENO), "r"), *parts = fdopen(dup(STDOUT_FILENO), "w"), *errors = tmpfile();
    if (files == NULL || parts == NULL || errors == NULL)
        stop("fdopen");
    real_error = dup(STDERR_FILENO);
    told = fileno(errors);
    open_as(STDIN_FILENO);
    open_as(STDOUT_FILENO);
    while (fread(head, 1, 4, files) == 4) {
        size_t n = head[0] | (size_t)head[1] << 8 | (size_t)head[2] << 16 | (size_t)head[3] << 24;
        give(files, n);
        run();
        take(STDOUT_FILENO, parts);
        take(told, parts);
    }
    return fflush(parts);
}
