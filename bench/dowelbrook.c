/* The public call, with all its checks; and the inner inversion modulo a prime, with the probe's. */
#include <stdio.h>
#include <stdlib.h>
#include <string.h>

#include "../include/dowelbrook.h"
#include "../tests/probe.h"
#include "contender.h"

static const uint32_t *left, *right;
static size_t length;
static uint32_t modulus;
static uint32_t result[MOST_ENTRIES];

static void set(const uint32_t *a, const uint32_t *b, size_t n, uint32_t m) {
    left = a;
    right = b;
    length = n;
    modulus = m;
}

static void mix(void) {
    dowelbrook_reply reply = dowelbrook_mix(left, length, right, length, modulus, result, length);
    if (reply.number != DOWELBROOK_DONE) {
        fprintf(stderr, "dowelbrook_mix refused with %u\n", (unsigned)reply.number);
        exit(1);
    }
}

static void invert(void) {
    probe_outcome outcome = probe_euclid(left, length, modulus, result, length);
    if (outcome.kind != PROBE_INVERSE) {
        fprintf(stderr, "probe_euclid found no inverse: kind %u\n", (unsigned)outcome.kind);
        exit(1);
    }
}

bool has_inverse(const uint32_t *a, size_t n, uint32_t m) {
    return probe_euclid(a, n, m, result, n).kind == PROBE_INVERSE;
}

static void get(uint32_t *out) { memcpy(out, result, length * sizeof *out); }

const struct contender dowelbrook_mixes = {"dowelbrook", set, mix, get};
const struct contender dowelbrook_inverts_prime = {"dowelbrook", set, invert, get};
