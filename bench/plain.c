/* The sum of document 01 as a C programmer writes it: no check, two loops that split at the wrap. */
#include <string.h>

#include "contender.h"

static const uint32_t *left, *right;
static size_t length;
static uint32_t modulus;
static uint32_t product[MOST_ENTRIES];

static void plain_mix(const uint32_t *restrict a, const uint32_t *restrict b, size_t n,
                      uint32_t m, uint32_t *restrict out) {
    for (size_t k = 0; k < n; k++) {
        uint64_t sum = 0;
        for (size_t i = 0; i <= k; i++)
            sum += (uint64_t)a[i] * b[k - i];
        for (size_t i = k + 1; i < n; i++)
            sum += (uint64_t)a[i] * b[n + k - i];
        out[k] = (uint32_t)(sum % m);
    }
}

static void set(const uint32_t *a, const uint32_t *b, size_t n, uint32_t m) {
    left = a;
    right = b;
    length = n;
    modulus = m;
}

static void mix(void) { plain_mix(left, right, length, modulus, product); }

static void get(uint32_t *out) { memcpy(out, product, length * sizeof *out); }

const struct contender plain_mixes = {"plain C", set, mix, get};
