/*
 * The public calls that invert, with all their checks; and beside unmix and same feeding the public
 * inversions and mixes that they stand for. a is the pattern and b the readings.
 */
#include <stdio.h>
#include <stdlib.h>
#include <string.h>

#include "../include/dowelbrook.h"
#include "contender.h"

static const uint32_t *pattern, *readings;
static uint32_t other_pattern[MOST_ENTRIES], other_readings[MOST_ENTRIES];
static size_t length;
static uint32_t modulus;
static struct factors list;
static uint32_t result[MOST_ENTRIES], inverse[MOST_ENTRIES], counts[2][MOST_ENTRIES];

static void demand_done(uint32_t number) {
    if (number != DOWELBROOK_DONE) {
        fprintf(stderr, "a call refused with %u\n", (unsigned)number);
        exit(1);
    }
}

static dowelbrook_reply ask_invert(const uint32_t *f, uint32_t *out) {
    return dowelbrook_invert(f, length, modulus, list.primes, list.count, list.exponents, list.count,
                             out, length);
}

static void mix(const uint32_t *f, const uint32_t *c, uint32_t *out) {
    demand_done(dowelbrook_mix(f, length, c, length, modulus, out, length).number);
}

static void invert_and_mix(const uint32_t *f, const uint32_t *y, uint32_t *out) {
    demand_done(ask_invert(f, inverse).number);
    mix(inverse, y, out);
}

static void set(const uint32_t *a, const uint32_t *b, size_t n, uint32_t m) {
    pattern = a;
    readings = b;
    length = n;
    modulus = m;
    list = factors_of(m);
}

/* The other side hears the same counts through the inverse, so that all entries are compared. */
static void set_both(const uint32_t *a, const uint32_t *b, size_t n, uint32_t m) {
    set(a, b, n, m);
    memset(result, 0, sizeof result);
    demand_done(ask_invert(pattern, other_pattern).number);
    mix(other_pattern, readings, counts[0]);
    mix(other_pattern, counts[0], other_readings);
}

bool has_whole_inverse(const uint32_t *a, size_t n, uint32_t m) {
    set(a, NULL, n, m);
    return ask_invert(a, result).number == DOWELBROOK_DONE;
}

static void invert(void) { demand_done(ask_invert(pattern, result).number); }

static void unmix(void) {
    demand_done(dowelbrook_unmix(pattern, length, readings, length, modulus, list.primes, list.count,
                                 list.exponents, list.count, result, length)
                    .number);
}

static void unmix_in_parts(void) { invert_and_mix(pattern, readings, result); }

static void same_feeding(void) {
    dowelbrook_verdict verdict = dowelbrook_same_feeding(
        pattern, length, readings, length, other_pattern, length, other_readings, length, modulus,
        list.primes, list.count, list.exponents, list.count);
    demand_done(verdict.number);
    result[0] = (uint32_t)verdict.same;
}

static void same_feeding_in_parts(void) {
    invert_and_mix(pattern, readings, counts[0]);
    invert_and_mix(other_pattern, other_readings, counts[1]);
    result[0] = memcmp(counts[0], counts[1], length * sizeof *result) == 0;
}

static void get(uint32_t *out) { memcpy(out, result, length * sizeof *out); }

const struct contender dowelbrook_inverts = {"dowelbrook", set, invert, get};
const struct contender dowelbrook_unmixes = {"dowelbrook", set, unmix, get};
const struct contender parts_unmix = {"parts", set, unmix_in_parts, get};
const struct contender dowelbrook_compares = {"dowelbrook", set_both, same_feeding, get};
const struct contender parts_compare = {"parts", set_both, same_feeding_in_parts, get};
