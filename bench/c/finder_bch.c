/* The root finder of Linux lib/bch.c behind the common face. BCH_C names the file, which bench/lib.sh takes from Debian's linux-source-6.12.
   It wants distinct nonzero roots, as many as the degree; a list is the logs of their inverses, in no order.
   Compiled again with FIXED it is the kernel's build for one m and t (CONFIG_BCH_CONST_PARAMS), here 11 and 64. */
#ifdef FIXED
#define CONFIG_BCH_CONST_PARAMS
#define CONFIG_BCH_CONST_M 11
#define CONFIG_BCH_CONST_T 64
#define bch_init fixed_init
#define bch_free fixed_free
#define bch_encode fixed_encode
#define bch_decode fixed_decode
#endif
#include BCH_C
#include "finder.h"

enum { ROOM = 200 };
static struct bch_control *control;

struct job {
    int count;
    unsigned degree, found[80];
    _Alignas(struct gf_poly) unsigned char given[GF_POLY_SZ(ROOM)], work[GF_POLY_SZ(ROOM)];
};

static bool served(int m)
{
#ifdef FIXED
    return m == 11;
#else
    return m >= 5;
#endif
}

static bool start(int m)
{
    if (control)
        bch_free(control);
    control = !served(m) ? NULL : bch_init(m, m == 8 ? 31 : 64, field_polynomial(m), false);
    if (!control)
        return false;
    for (int i = 0; i < 4; i++) { /* room for degree 64 also where no code is that strong */
        free(control->poly_2t[i]);
        control->poly_2t[i] = malloc(GF_POLY_SZ(ROOM));
    }
    free(control->cache);
    control->cache = malloc(1000);
    return true;
}

static void *prepare(size_t n, const uint16_t *coeffs)
{
    struct job *job = calloc(1, sizeof *job);
    struct gf_poly *f = (void *)job->given;
    while (n > 1 && coeffs[n - 1] == 0)
        n--;
    job->degree = f->deg = (unsigned)n - 1;
    for (size_t i = 0; i < n; i++)
        f->c[i] = coeffs[i];
    return job;
}

static void solve(void *of)
{
    struct job *job = of;
    memcpy(job->work, job->given, GF_POLY_SZ(job->degree));
    job->count = find_poly_roots(control, 1, (struct gf_poly *)job->work, job->found);
}

static size_t roots(void *of, uint16_t *list)
{
    struct job *job = of;
    for (int i = 0; i < job->count; i++)
        list[i] = (uint16_t)a_pow(control, (int)((control->n - job->found[i]) % control->n));
    return job->count > 0 ? (size_t)job->count : 0;
}

#ifdef FIXED
const struct finder bch_fixed_finder = {"bchfixed", false, start, prepare, solve, roots};
#else
const struct finder bch_finder = {"bch", false, start, prepare, solve, roots};
#endif
