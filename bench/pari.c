/*
 * PARI. Mixes by Flx_mul, then Flx_mod_Xnm1. Inverts by Flxq_inv: Flx_extgcd takes as long. It raises
 * an error where there is no inverse. For the modulus 2 there is a type of its own, F2x, which is not
 * used here.
 */
#include <pari/pari.h>

#include "contender.h"

static GEN left, right, circle, result;
static size_t length;
static uint32_t modulus;
static pari_sp after_inputs;

static GEN polynomial(const uint32_t *entries, size_t n) {
    GEN poly = cgetg((long)n + 2, t_VECSMALL);
    poly[1] = 0;
    for (size_t i = 0; i < n; i++)
        poly[i + 2] = (long)entries[i];
    return Flx_renormalize(poly, (long)n + 2);
}

static GEN circle_of(size_t n, uint32_t m) {
    uint32_t entries[MOST_ENTRIES + 1] = {m - 1};
    entries[n] = 1;
    return polynomial(entries, n + 1);
}

static void set(const uint32_t *a, const uint32_t *b, size_t n, uint32_t m) {
    static pari_sp before_inputs;
    if (length == 0) {
        pari_init(64000000, 2);
        before_inputs = avma;
    }
    set_avma(before_inputs);
    length = n;
    modulus = m;
    left = polynomial(a, n);
    right = polynomial(b, n);
    circle = circle_of(n, m);
    after_inputs = avma;
}

static void mix(void) {
    set_avma(after_inputs);
    result = Flx_mod_Xnm1(Flx_mul(left, right, modulus), length, modulus);
}

static void invert(void) {
    set_avma(after_inputs);
    result = Flxq_inv(left, circle, modulus);
}

static void get(uint32_t *out) {
    for (size_t i = 0; i < length; i++)
        out[i] = (long)i + 2 < lg(result) ? (uint32_t)result[i + 2] : 0;
}

const struct contender pari_mixes = {"PARI", set, mix, get};
const struct contender pari_inverts_prime = {"PARI", set, invert, get};
