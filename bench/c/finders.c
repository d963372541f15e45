/*
 * The root finders beside each other, for bench/peers: the proved whole call, begin with step and finish, plain search and successive resultants,
 * Linux lib/bch.c, FLINT, and a Chien search in C. All of them get the same polynomials, drawn from a fixed seed.
 *
 *   finders check SETS [FINDER..]  every list against a plain search; a line for each set and finder: set, finder, right lists, lists
 *   finders time SETS [FINDER..]   a line for each set and finder whose lists are all right: set, finder, nanoseconds a polynomial
 *   finders pass SET FINDER K      K passes over the set, for counting: the difference of two counts is one pass
 *
 * SETS is "usual" (those of several fields and kinds), "degrees" (field 11, as many distinct nonzero roots as the degree, 1 to 64),
 * or the beginning of a set's name. Without a FINDER all take part.
 */
#include <stdio.h>
#include <stdlib.h>
#include <string.h>
#include "../../tests/c/resultants_face.h"
#include "finder.h"
#include "locator.h"
#include "measure.h"

enum { LISTS = 64, MOST = LOCATOR_COEFFICIENTS, CHUNK = 8, SLOTS = 80 };

/* ---- the proved calls ---- */

struct job {
    uint16_t m, n, coeffs[MOST], found[MOST], mults[MOST], table[LOCATOR_SLOTS];
    size_t count;
};

static uint16_t degree_in_force;

static bool start_ours(int m)
{
    degree_in_force = (uint16_t)m;
    return true;
}

static void *prepare_job(size_t n, const uint16_t *coeffs)
{
    struct job *job = calloc(1, sizeof *job);
    job->m = degree_in_force;
    job->n = (uint16_t)n;
    memcpy(job->coeffs, coeffs, n * sizeof *coeffs);
    return job;
}

static size_t job_roots(void *of, uint16_t *list)
{
    struct job *job = of;
    memcpy(list, job->found, job->count * sizeof *list);
    return job->count;
}

static void solve_at(struct job *job, uint16_t cutoff)
{
    job->count = locator_solve(job->m, job->coeffs, job->n, cutoff, job->found, MOST, job->mults, MOST).count;
}

static void solve_1(void *job) { solve_at(job, 1); }
static void solve_2(void *job) { solve_at(job, 2); }
static void solve_3(void *job) { solve_at(job, 3); }

static void search(void *of)
{
    struct job *job = of;
    job->count = locator_search(job->m, job->coeffs, job->n, job->found, MOST, job->mults, MOST).count;
}

/* begin, steps until done and finish, at cutoff 2: roots alone, without their multiplicities */
static void stepped(void *of)
{
    struct job *job = of;
    locator_begin(job->m, job->coeffs, job->n, 2, job->table, LOCATOR_SLOTS);
    while (locator_step(job->table, LOCATOR_SLOTS).done == 0)
        continue;
    job->count = locator_finish(job->table, LOCATOR_SLOTS, job->found, MOST).count;
}

/* roots alone, without their multiplicities */
static void resultants(void *of)
{
    struct job *job = of;
    job->count = resultants_find(job->m, job->coeffs, job->n, job->found, MOST);
}

/* ---- Chien search: at the i-th power of a the term of degree j is the antilog of log c_j + i j. The steps stand in a loop of their own
   on 16-bit numbers, which the compiler does eight at a time: half the instructions of one loop for both. ---- */

static unsigned order;
static uint16_t logs[2048], antilogs[2047];

static bool start_chien(int m)
{
    unsigned x = 1;
    order = (1u << m) - 1;
    for (unsigned j = 0; j < order; j++) {
        antilogs[j] = (uint16_t)x;
        logs[x] = (uint16_t)j;
        x <<= 1;
        if (x >> m)
            x ^= field_polynomial(m);
    }
    return start_ours(m);
}

static void chien(void *of)
{
    struct job *job = of;
    uint16_t at[MOST], by[MOST];
    uint64_t seen[32] = {0};
    size_t terms = 0, s = 0;
    for (unsigned j = 1; j < job->n; j++)
        if (job->coeffs[j] != 0) {
            at[terms] = logs[job->coeffs[j]];
            by[terms++] = (uint16_t)(j % order);
        }
    seen[0] = job->coeffs[0] == 0;
    for (unsigned i = 0; i < order; i++) {
        unsigned value = job->coeffs[0];
        for (size_t j = 0; j < terms; j++)
            value ^= antilogs[at[j]];
        for (size_t j = 0; j < terms; j++) {
            int16_t t = (int16_t)(at[j] + by[j] - (int)order);
            at[j] = (uint16_t)(t + ((t >> 15) & (int)order));
        }
        if (value == 0)
            seen[antilogs[i] / 64] |= 1ull << antilogs[i] % 64;
    }
    for (unsigned w = 0; w <= order / 64; w++)
        for (uint64_t bits = seen[w]; bits != 0; bits &= bits - 1)
            job->found[s++] = (uint16_t)(64 * w + (unsigned)__builtin_ctzll(bits));
    job->count = s;
}

/* solve1, solve and solve3 are the whole call at cutoffs 1, 2 and 3. */
static const struct finder finders[] = {
    {"solve", true, start_ours, prepare_job, solve_2, job_roots},
    {"solve1", true, start_ours, prepare_job, solve_1, job_roots},
    {"solve3", true, start_ours, prepare_job, solve_3, job_roots},
    {"stepped", true, start_ours, prepare_job, stepped, job_roots},
    {"search", true, start_ours, prepare_job, search, job_roots},
    {"resultants", true, start_ours, prepare_job, resultants, job_roots},
    {"chien", true, start_chien, prepare_job, chien, job_roots},
};

/* The i-th finder, our own code first, then the peers that are there; NULL behind the last. */
static const struct finder *finder_at(size_t i)
{
    static const struct finder *const peers[] = {
#ifdef WITH_BCH
        &bch_finder, &bch_fixed_finder,
#endif
#ifdef WITH_FLINT
        &flint_finder,
#endif
        NULL,
    };
    const size_t own = sizeof finders / sizeof *finders;
    return i < own ? &finders[i] : peers[i - own];
}

/* ---- inputs ---- */

/* zero: split, and 0 is a root; double: as many distinct roots as five eighths of the degree, three fifths of them twice */
enum kind { SPLIT, DENSE, ZERO, DOUBLE };

struct polynomial {
    size_t n;
    uint16_t coeffs[MOST];
};

enum { USUAL = 15, DEGREES = LOCATOR_ROOTS, SETS = USUAL + DEGREES };

/* Each set has a seed of its own, so that it keeps its polynomials where others are added: the usual ones 1 to 12 and from 101 on, those by degree from 13 on. */
static struct set {
    char name[16];
    int m;
    size_t degree;
    enum kind kind;
    bool timed;
    uint64_t seed;
} sets[SETS] = {
    {"11.split.4", 11, 4, SPLIT, true, 1},     {"11.split.8", 11, 8, SPLIT, true, 2},     {"11.split.16", 11, 16, SPLIT, true, 3},
    {"11.split.32", 11, 32, SPLIT, true, 4},   {"11.split.64", 11, 64, SPLIT, true, 101}, {"11.dense.32", 11, 32, DENSE, true, 5},
    {"11.dense.64", 11, 64, DENSE, true, 102}, {"8.split.8", 8, 8, SPLIT, true, 6},       {"8.split.32", 8, 32, SPLIT, true, 7},
    {"8.split.64", 8, 64, SPLIT, true, 103},   {"8.dense.32", 8, 32, DENSE, true, 8},     {"4.split.8", 4, 8, SPLIT, true, 9},
    {"4.dense.32", 4, 32, DENSE, true, 10},    {"11.zero.32", 11, 32, ZERO, false, 11},   {"11.double.32", 11, 32, DOUBLE, false, 12},
};

/* The sets of distinct roots in field 11 by degree, behind the usual ones. */
static void name_degrees(void)
{
    for (size_t d = 1; d <= DEGREES; d++) {
        struct set *set = &sets[USUAL + d - 1];
        *set = (struct set){"", 11, d, SPLIT, true, 12 + d};
        snprintf(set->name, sizeof set->name, "11.distinct.%zu", d);
    }
}

static bool is_meant(const struct set *set, const char *which)
{
    if (strcmp(which, "usual") == 0)
        return set < sets + USUAL;
    if (strcmp(which, "degrees") == 0)
        return set >= sets + USUAL;
    return strncmp(set->name, which, strlen(which)) == 0;
}

static void times_root(int m, struct polynomial *f, unsigned root)
{
    f->coeffs[f->n++] = 0;
    for (size_t i = f->n; i-- > 0;)
        f->coeffs[i] = (uint16_t)(product(m, f->coeffs[i], root) ^ (i > 0 ? f->coeffs[i - 1] : 0u));
}

static struct polynomial make(const struct set *set)
{
    struct polynomial f = {1, {1}};
    bool taken[2048] = {false};
    unsigned size = 1u << set->m;
    if (set->kind == DENSE) {
        for (f.n = 0; f.n < set->degree; f.n++)
            f.coeffs[f.n] = (uint16_t)draw(size);
        f.coeffs[f.n++] = (uint16_t)(1 + draw(size - 1));
        return f;
    }
    if (set->kind == ZERO)
        times_root(set->m, &f, 0);
    while (f.n <= set->degree) {
        unsigned r = 1 + draw(size - 1);
        if (taken[r])
            continue;
        taken[r] = true;
        times_root(set->m, &f, r);
        if (set->kind == DOUBLE && f.n <= set->degree * 3 / 4)
            times_root(set->m, &f, r);
    }
    return f;
}

static void make_all(const struct set *set, struct polynomial *all)
{
    draw_set(set->seed);
    for (size_t i = 0; i < LISTS; i++)
        all[i] = make(set);
}

/* ---- checking, timing, passes ---- */

static size_t plain(int m, const struct polynomial *f, uint16_t *list)
{
    size_t s = 0;
    for (unsigned x = 0; x < 1u << m; x++) {
        unsigned value = 0;
        for (size_t i = f->n; i-- > 0;)
            value = product(m, value, x) ^ f->coeffs[i];
        if (value == 0)
            list[s++] = (uint16_t)x;
    }
    return s;
}

static int by_size(const void *a, const void *b)
{
    return *(const uint16_t *)a - *(const uint16_t *)b;
}

static void prepare_all(const struct finder *finder, const struct polynomial *all, void **jobs)
{
    for (size_t i = 0; i < LISTS; i++)
        jobs[i] = finder->prepare(all[i].n, all[i].coeffs);
}

/* How many lists of the finder are those of the plain search. */
static size_t right_lists(const struct finder *finder, const struct set *set, const struct polynomial *all, void **jobs)
{
    size_t right = 0;
    for (size_t i = 0; i < LISTS; i++) {
        uint16_t want[SLOTS], list[SLOTS];
        size_t s = plain(set->m, &all[i], want);
        finder->solve(jobs[i]);
        size_t k = finder->roots(jobs[i], list);
        if (!finder->ascending)
            qsort(list, k, sizeof *list, by_size);
        right += k == s && memcmp(list, want, s * sizeof *list) == 0;
    }
    return right;
}

/* Whether a finder takes part: all do where none is named. */
static bool is_named(const struct finder *finder, char **names)
{
    for (char **name = names; *name != NULL; name++)
        if (strcmp(*name, finder->name) == 0)
            return true;
    return *names == NULL;
}

/* Finders take turns; the least time of each chunk of polynomials counts, so that other work on the machine disturbs little. */
static void time_set(const struct set *set, bool timing, char **names)
{
    struct polynomial all[LISTS];
    struct runner {
        const struct finder *finder;
        void *jobs[LISTS];
        double least[LISTS / CHUNK];
    } runners[16];
    size_t count = 0;
    make_all(set, all);
    for (size_t f = 0; finder_at(f) != NULL; f++) {
        struct runner *r = &runners[count];
        r->finder = finder_at(f);
        if (!is_named(r->finder, names) || !r->finder->start(set->m))
            continue;
        prepare_all(r->finder, all, r->jobs);
        size_t right = right_lists(r->finder, set, all, r->jobs);
        for (size_t c = 0; c < LISTS / CHUNK; c++)
            r->least[c] = 1e300;
        if (!timing)
            printf("%s\t%s\t%zu\t%d\n", set->name, r->finder->name, right, LISTS);
        count += right == LISTS;
    }
    double begun = now();
    for (int round = 0; timing && (round < 15 || now() - begun < 1e9); round++)
        for (size_t k = 0; k < count; k++)
            for (size_t c = 0; c < LISTS / CHUNK; c++) {
                double t = now();
                for (size_t i = c * CHUNK; i < (c + 1) * CHUNK; i++)
                    runners[k].finder->solve(runners[k].jobs[i]);
                t = now() - t;
                if (t < runners[k].least[c])
                    runners[k].least[c] = t;
            }
    for (size_t k = 0; timing && k < count; k++) {
        double sum = 0;
        for (size_t c = 0; c < LISTS / CHUNK; c++)
            sum += runners[k].least[c];
        printf("%s\t%s\t%.0f\n", set->name, runners[k].finder->name, sum / LISTS);
    }
    fflush(stdout);
}

static int passes(const char *set_name, const char *finder_name, int k)
{
    for (size_t s = 0; s < SETS; s++)
        for (size_t f = 0; finder_at(f) != NULL; f++) {
            const struct finder *finder = finder_at(f);
            struct polynomial all[LISTS];
            void *jobs[LISTS];
            if (strcmp(sets[s].name, set_name) != 0 || strcmp(finder->name, finder_name) != 0 || !finder->start(sets[s].m))
                continue;
            make_all(&sets[s], all);
            prepare_all(finder, all, jobs);
            for (int i = 0; i < k * LISTS; i++)
                finder->solve(jobs[i % LISTS]);
            return 0;
        }
    return 2;
}

int main(int argc, char **argv)
{
    name_degrees();
    if (argc == 5 && strcmp(argv[1], "pass") == 0)
        return passes(argv[2], argv[3], atoi(argv[4]));
    bool timing = argc >= 3 && strcmp(argv[1], "time") == 0, met = false;
    if (!timing && (argc < 3 || strcmp(argv[1], "check") != 0))
        return 2;
    for (size_t s = 0; s < SETS; s++)
        if (is_meant(&sets[s], argv[2]) && (sets[s].timed || !timing)) {
            time_set(&sets[s], timing, argv + 3);
            met = true;
        }
    return met ? 0 : 2;
}
