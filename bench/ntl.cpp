// NTL, in zz_pX. Mixes by mul, for which the modulus need not be prime, then the upper half folded
// down. Inverts by InvMod: XGCD takes as long. It stops with an error where there is no inverse. For
// the modulus 2 there is a type of its own, GF2X, which is not used here.
#include <NTL/lzz_pX.h>

#include "contender.h"

static NTL::zz_pX left, right, circle, result;
static long length;

static NTL::zz_pX polynomial(const uint32_t *entries, long n) {
    NTL::zz_pX poly;
    for (long i = 0; i < n; i++)
        NTL::SetCoeff(poly, i, static_cast<long>(entries[i]));
    return poly;
}

static void set(const uint32_t *a, const uint32_t *b, size_t n, uint32_t m) {
    NTL::zz_p::init(m);
    length = static_cast<long>(n);
    left = polynomial(a, length);
    right = polynomial(b, length);
    circle = NTL::zz_pX(length, 1) - 1;
}

static void mix() {
    NTL::mul(result, left, right);
    long full = result.rep.length();
    if (full <= length)
        return;
    for (long i = length; i < full; i++)
        result.rep[i - length] += result.rep[i];
    result.rep.SetLength(length);
    result.normalize();
}

static void invert() { NTL::InvMod(result, left, circle); }

static void get(uint32_t *out) {
    for (long i = 0; i < length; i++)
        out[i] = static_cast<uint32_t>(NTL::rep(NTL::coeff(result, i)));
}

const struct contender ntl_mixes = {"NTL", set, mix, get};
const struct contender ntl_inverts_prime = {"NTL", set, invert, get};
