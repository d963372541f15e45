/* The C of the toolchain's crates os and libc for machines other than x86-64, for which the toolchain has it compiled:
   the functions that the programs of crates/ reach, as those crates declare them (c.rt, heap.rt). What is assumed of
   them stands there (axioms= on the last line of a program's check). */
#define _POSIX_C_SOURCE 200809L
#include <errno.h>
#include <stdint.h>
#include <stdlib.h>

/* tests/c/fuzz-records.c has these two itself. */
#define MAY_BE_REPLACED __attribute__((weak))

static int count;
static char **arguments;

/* glibc hands the arguments of main to the functions that run before it. */
__attribute__((constructor)) static void keep(int argc, char **argv)
{
    count = argc;
    arguments = argv;
}

/* How many arguments the program was started with, its own name among them. */
MAY_BE_REPLACED uint64_t rattle_arg_count(void)
{
    return (uint64_t)count;
}

/* Puts argument i at the start of the buffer of n bytes: its length, -1 where there is no such argument, or -2 where it
   does not fit, and then the buffer is full. */
MAY_BE_REPLACED int64_t rattle_arg(uint64_t i, uint8_t *buffer, uint64_t n)
{
    if (i >= (uint64_t)count || arguments[i] == 0)
        return -1;
    for (uint64_t k = 0;; k++) {
        if (arguments[i][k] == 0)
            return (int64_t)k;
        if (k == n)
            return -2;
        buffer[k] = (uint8_t)arguments[i][k];
    }
}

int32_t rattle_errno(void)
{
    return errno;
}

void rattle_set_errno(int32_t error)
{
    errno = error;
}

/* What a try for memory answers: 1 and where it is, or 0. */
typedef struct {
    uint64_t ok;
    void *place;
} tried;

static tried told(void *place)
{
    static uint64_t nothing[2];
    return (tried){place != NULL, place != NULL ? place : nothing};
}

/* New memory of n bytes; a, its alignment, is 16 at most. Of no bytes there is a block too. */
tried rattle_alloc(uint64_t n, uint64_t a)
{
    return told(malloc(n != 0 ? n : a));
}

/* The block at p becomes one of n bytes, and its first bytes stay. */
tried rattle_realloc(void *p, uint64_t kept, uint64_t n, uint64_t a)
{
    (void)kept;
    return told(realloc(p, n != 0 ? n : a));
}

void rattle_dealloc(void *p)
{
    free(p);
}
