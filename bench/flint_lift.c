/*
 * FLINT's nmod_poly doing what the public inversion does: nmod_poly_invmod modulo each prime p of m,
 * g <- 2 g - g^2 f by nmod_poly_mul, the upper half folded down, modulo p^2, p^4, .. up to p^k, and the
 * prime powers joined entry by entry. A square by nmod_poly_mul is cheaper than another product. All
 * polynomials are set up outside the timed run.
 */
#include <flint/nmod_poly.h>
#include <stdio.h>
#include <stdlib.h>

#include "contender.h"

#define MOST_LEVELS 6

/* One power of p on the way up: the pattern, the inverse and a product, modulo it. */
struct level {
    nmod_poly_t f, g, product;
};

struct ladder {
    int count;
    nmod_poly_t circle;
    struct level levels[MOST_LEVELS];
};

static struct ladder ladders[MOST_FACTORS];
static size_t ladder_count, length;
static const uint32_t *pattern;
static mp_limb_t result[MOST_ENTRIES];

static void init_level(struct level *level, mp_limb_t power) {
    nmod_poly_init2(level->f, power, (slong)length);
    nmod_poly_init2(level->g, power, 2 * (slong)length);
    nmod_poly_init2(level->product, power, 2 * (slong)length);
}

static void init_ladder(struct ladder *ladder, mp_limb_t p, unsigned k) {
    nmod_poly_init2(ladder->circle, p, (slong)length + 1);
    nmod_poly_set_coeff_ui(ladder->circle, (slong)length, 1);
    nmod_poly_set_coeff_ui(ladder->circle, 0, p - 1);
    ladder->count = 1;
    init_level(&ladder->levels[0], p);
    for (unsigned right = 1; right < k; ladder->count++) {
        right = 2 * right < k ? 2 * right : k;
        init_level(&ladder->levels[ladder->count], n_pow(p, right));
    }
}

static void clear_ladder(struct ladder *ladder) {
    nmod_poly_clear(ladder->circle);
    for (int i = 0; i < ladder->count; i++) {
        nmod_poly_clear(ladder->levels[i].f);
        nmod_poly_clear(ladder->levels[i].g);
        nmod_poly_clear(ladder->levels[i].product);
    }
}

static void set(const uint32_t *a, const uint32_t *b, size_t n, uint32_t m) {
    (void)b;
    for (size_t i = 0; i < ladder_count; i++)
        clear_ladder(&ladders[i]);
    struct factors list = factors_of(m);
    pattern = a;
    length = n;
    ladder_count = list.count;
    for (size_t i = 0; i < ladder_count; i++)
        init_ladder(&ladders[i], list.primes[i], list.exponents[i]);
}

/* The pattern modulo this power. */
static void reduce(nmod_poly_t f) {
    for (size_t i = 0; i < length; i++)
        NMOD_RED(f->coeffs[i], (mp_limb_t)pattern[i], f->mod);
    f->length = (slong)length;
    _nmod_poly_normalise(f);
}

static void multiply(nmod_poly_t product, const nmod_poly_t a, const nmod_poly_t b) {
    nmod_poly_mul(product, a, b);
    slong n = (slong)length;
    if (product->length <= n)
        return;
    slong above = product->length - n;
    _nmod_vec_add(product->coeffs, product->coeffs, product->coeffs + n, above, product->mod);
    product->length = n;
    _nmod_poly_normalise(product);
}

/* level->g becomes 2 g - g^2 f, where g is right modulo the power below. */
static void lift(struct level *level, const nmod_poly_t g) {
    reduce(level->f);
    nmod_poly_fit_length(level->g, g->length);
    _nmod_vec_set(level->g->coeffs, g->coeffs, g->length);
    level->g->length = g->length;
    multiply(level->product, level->g, level->g);
    multiply(level->product, level->product, level->f);
    nmod_poly_add(level->g, level->g, level->g);
    nmod_poly_sub(level->g, level->g, level->product);
}

static const nmod_poly_struct *climb(struct ladder *ladder) {
    struct level *levels = ladder->levels;
    reduce(levels[0].f);
    if (!nmod_poly_invmod(levels[0].g, levels[0].f, ladder->circle)) {
        fprintf(stderr, "FLINT found no inverse\n");
        exit(1);
    }
    for (int i = 1; i < ladder->count; i++)
        lift(&levels[i], levels[i - 1].g);
    return levels[ladder->count - 1].g;
}

/* The result, right modulo `done`, becomes right modulo `done` times the power of g too. */
static void join(mp_limb_t done, const nmod_poly_struct *g) {
    nmod_t mod = g->mod;
    mp_limb_t inverse = n_invmod(done % mod.n, mod.n);
    for (size_t i = 0; i < length; i++) {
        mp_limb_t entry = (slong)i < g->length ? g->coeffs[i] : 0, old;
        NMOD_RED(old, result[i], mod);
        result[i] += done * nmod_mul(nmod_sub(entry, old, mod), inverse, mod);
    }
}

static void invert(void) {
    mp_limb_t done = 1;
    for (size_t i = 0; i < ladder_count; i++) {
        const nmod_poly_struct *g = climb(&ladders[i]);
        if (done == 1)
            for (size_t k = 0; k < length; k++)
                result[k] = (slong)k < g->length ? g->coeffs[k] : 0;
        else
            join(done, g);
        done *= g->mod.n;
    }
}

static void get(uint32_t *out) {
    for (size_t i = 0; i < length; i++)
        out[i] = (uint32_t)result[i];
}

const struct contender flint_inverts = {"FLINT", set, invert, get};
