/*
 * FLINT. Mixes by nmod_poly_mul, then the upper half folded down: nmod_poly_mulmod by x^n - 1 takes
 * three to seven times as long. Inverts by nmod_poly_invmod: nmod_poly_xgcd takes as long.
 */
#include <flint/nmod_poly.h>
#include <stdio.h>
#include <stdlib.h>

#include "contender.h"

static nmod_poly_t left, right, circle, result;
static size_t length;

static void fill(nmod_poly_t poly, const uint32_t *entries, size_t n, uint32_t m) {
    nmod_poly_init2(poly, m, 2 * n);
    for (size_t i = 0; i < n; i++)
        nmod_poly_set_coeff_ui(poly, i, entries[i]);
}

static void fill_circle(size_t n, uint32_t m) {
    nmod_poly_init2(circle, m, n + 1);
    nmod_poly_set_coeff_ui(circle, n, 1);
    nmod_poly_set_coeff_ui(circle, 0, m - 1);
}

static void set(const uint32_t *a, const uint32_t *b, size_t n, uint32_t m) {
    if (length != 0) {
        nmod_poly_clear(left);
        nmod_poly_clear(right);
        nmod_poly_clear(circle);
        nmod_poly_clear(result);
    }
    length = n;
    fill(left, a, n, m);
    fill(right, b, n, m);
    fill_circle(n, m);
    nmod_poly_init2(result, m, 2 * n);
}

static void mix(void) {
    nmod_poly_mul(result, left, right);
    slong n = (slong)length;
    if (result->length <= n)
        return;
    for (slong i = n; i < result->length; i++)
        result->coeffs[i - n] = nmod_add(result->coeffs[i - n], result->coeffs[i], result->mod);
    result->length = n;
    _nmod_poly_normalise(result);
}

static void invert(void) {
    if (!nmod_poly_invmod(result, left, circle)) {
        fprintf(stderr, "FLINT found no inverse\n");
        exit(1);
    }
}

static void get(uint32_t *out) {
    for (size_t i = 0; i < length; i++)
        out[i] = (uint32_t)nmod_poly_get_coeff_ui(result, i);
}

const struct contender flint_mixes = {"FLINT", set, mix, get};
const struct contender flint_inverts_prime = {"FLINT", set, invert, get};
