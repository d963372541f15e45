/* FLINT's fq_zech_poly_roots (the fastest of its root finders here) behind the common face. A list is in no order. */
#include <stdlib.h>
#include <flint/flint.h>
#include <flint/nmod_poly.h>
#include <flint/fq_zech.h>
#include <flint/fq_zech_poly.h>
#include <flint/fq_zech_poly_factor.h>
#include "finder.h"

static fq_zech_ctx_t field;
static bool started;

struct job {
    fq_zech_poly_t f;
    fq_zech_poly_factor_t found;
};

static void from_bits(nmod_poly_t p, unsigned bits)
{
    nmod_poly_zero(p);
    for (int i = 0; i < 16; i++)
        if (bits >> i & 1)
            nmod_poly_set_coeff_ui(p, i, 1);
}

static unsigned to_bits(const nmod_poly_t p)
{
    unsigned bits = 0;
    for (int i = 0; i < 16; i++)
        if (nmod_poly_get_coeff_ui(p, i))
            bits |= 1u << i;
    return bits;
}

static bool start(int m)
{
    nmod_poly_t p;
    if (started)
        fq_zech_ctx_clear(field);
    nmod_poly_init(p, 2);
    from_bits(p, field_polynomial(m));
    fq_zech_ctx_init_modulus(field, p, "a");
    nmod_poly_clear(p);
    return started = true;
}

static void *prepare(size_t n, const uint16_t *coeffs)
{
    struct job *job = malloc(sizeof *job);
    fq_zech_t element;
    nmod_poly_t p;
    fq_zech_poly_init(job->f, field);
    fq_zech_poly_factor_init(job->found, field);
    fq_zech_init(element, field);
    nmod_poly_init(p, 2);
    for (size_t i = 0; i < n; i++) {
        from_bits(p, coeffs[i]);
        fq_zech_set_nmod_poly(element, p, field);
        fq_zech_poly_set_coeff(job->f, (slong)i, element, field);
    }
    nmod_poly_clear(p);
    return job;
}

static void solve(void *of)
{
    struct job *job = of;
    fq_zech_poly_roots(job->found, job->f, 0, field);
}

static size_t roots(void *of, uint16_t *list)
{
    struct job *job = of;
    fq_zech_t element;
    nmod_poly_t p;
    fq_zech_init(element, field);
    nmod_poly_init(p, 2);
    for (slong i = 0; i < job->found->num; i++) {
        fq_zech_poly_get_coeff(element, job->found->poly + i, 0, field);
        nmod_poly_zero(p);
        fq_zech_get_nmod_poly(p, element, field);
        list[i] = (uint16_t)to_bits(p);
    }
    nmod_poly_clear(p);
    return (size_t)job->found->num;
}

const struct finder flint_finder = {"flint", false, start, prepare, solve, roots};
