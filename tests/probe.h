/*
 * The inner functions, for tests/ and bench/ alone. Link with
 * target/staticlib/libprobe.a, which tests/archive probe makes.
 *
 * As in dowelbrook.h no pointer is NULL, each is good for its length, and an
 * output overlaps no input. What an answer does not tell is 0.
 */
#ifndef PROBE_H
#define PROBE_H

#include <stdbool.h>
#include <stddef.h>
#include <stdint.h>

#include "../include/dowelbrook.h"

#ifdef __cplusplus
extern "C" {
#endif

enum { PROBE_INVERSE = 0, PROBE_SHARES = 1, PROBE_REFUSED = 2 };

/* Whether p is a prime. */
bool probe_is_prime(uint32_t p);

/*
 * The check of the factor list by itself, for any m: FACTORS, EXPONENT, PRIME,
 * ORDER or PRODUCT as in a call, or DONE where the list passes.
 */
dowelbrook_reply probe_factors(const uint32_t *primes, size_t primes_len,
                               const uint8_t *exponents, size_t exponents_len,
                               uint32_t m);

typedef struct {
    uint32_t kind;
    uint32_t value;
} probe_number;

/*
 * INVERSE tells the z below m with y z = 1 modulo m; SHARES tells the greatest
 * common divisor, which is above 1. REFUSED when m is below 2.
 */
probe_number probe_inverse(uint32_t y, uint32_t m);

/* The smallest c with 2^c at least k; 0 for k = 0. */
uint32_t probe_rounds(uint32_t k);

typedef struct {
    uint32_t kind;
    uint32_t zero;
    size_t degree;
} probe_outcome;

/*
 * INVERSE writes the inverse of f modulo x^n - 1 and p. SHARES writes the ghost
 * w, the monic polynomial of least degree with f w = 0 modulo x^n - 1 and p,
 * and tells the degree of the factor that f and x^n - 1 share. REFUSED leaves
 * the output as it came: when n is not 1 to 1,024, p not a prime of at most
 * 1,000,000, a coefficient not below p, or the output's length not n.
 */
probe_outcome probe_euclid(const uint32_t *f, size_t n, uint32_t p,
                           uint32_t *out, size_t out_len);

#ifdef __cplusplus
}
#endif

#endif
