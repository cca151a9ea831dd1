/*
 * A factor list of seven primes just below 2^32, which the public call refuses with 13, and the seven
 * tests of a prime alone. Beside them nothing in that call should take time.
 */
#include "../include/dowelbrook.h"
#include "../tests/probe.h"
#include "contender.h"

static const uint32_t primes[MOST_FACTORS] = {4294967143u, 4294967161u, 4294967189u, 4294967197u,
                                              4294967231u, 4294967279u, 4294967291u};
static const uint8_t exponents[MOST_FACTORS] = {1, 1, 1, 1, 1, 1, 1};
static const uint32_t *pattern;
static size_t length;
static uint32_t modulus;
static uint32_t result, inverse[MOST_ENTRIES];

static void set(const uint32_t *a, const uint32_t *b, size_t n, uint32_t m) {
    (void)b;
    pattern = a;
    length = n;
    modulus = m;
}

static void refuse(void) {
    result = dowelbrook_invert(pattern, length, modulus, primes, MOST_FACTORS, exponents, MOST_FACTORS,
                               inverse, length)
                 .number;
}

static void test_each(void) {
    result = DOWELBROOK_PRODUCT;
    for (size_t i = 0; i < MOST_FACTORS; i++)
        if (!probe_is_prime(primes[i]))
            result = DOWELBROOK_PRIME;
}

static void get(uint32_t *out) { *out = result; }

const struct contender prime_tests = {"tests", set, test_each, get};
const struct contender dowelbrook_refuses = {"refusal", set, refuse, get};
