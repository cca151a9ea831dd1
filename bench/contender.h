/* One way to do one job, on inputs that every contender of the job is given alike. */
#ifndef CONTENDER_H
#define CONTENDER_H

#include <stdbool.h>
#include <stddef.h>
#include <stdint.h>

#define MOST_ENTRIES 1024
#define MOST_FACTORS 7

#ifdef __cplusplus
extern "C" {
#endif

/*
 * Only `run` is timed. `set` may bring the inputs into a library's own form and
 * `get` brings the result back, so a library is not charged for its forms.
 */
struct contender {
    const char *name;
    void (*set)(const uint32_t *a, const uint32_t *b, size_t n, uint32_t m);
    void (*run)(void);
    void (*get)(uint32_t *out);
};

extern const struct contender dowelbrook_mixes;
extern const struct contender plain_mixes;
extern const struct contender flint_mixes;
extern const struct contender ntl_mixes;
extern const struct contender pari_mixes;

/* These invert a modulo x^n - 1 and m, where m is a prime, and leave b alone. */
extern const struct contender dowelbrook_inverts_prime;
extern const struct contender flint_inverts_prime;
extern const struct contender ntl_inverts_prime;
extern const struct contender pari_inverts_prime;

bool has_inverse(const uint32_t *a, size_t n, uint32_t m);

/* These do so for any m. */
extern const struct contender dowelbrook_inverts;
extern const struct contender flint_inverts;

bool has_whole_inverse(const uint32_t *a, size_t n, uint32_t m);

/* The counts behind readings b through pattern a: in one call, or as an inversion and a mix. */
extern const struct contender dowelbrook_unmixes;
extern const struct contender parts_unmix;

/* Whether two sides hear the same feeding: in one call, or as two inversions and two mixes. */
extern const struct contender dowelbrook_compares;
extern const struct contender parts_compare;

/* The counts again, from the bytes of a sheet to the text that the program prints. */
extern const struct contender dowelbrook_reports;

/* A list of seven large primes, whatever m is: the tests of a prime alone, and the call that refuses the list. */
extern const struct contender prime_tests;
extern const struct contender dowelbrook_refuses;

struct factors {
    size_t count;
    uint32_t primes[MOST_FACTORS];
    uint8_t exponents[MOST_FACTORS];
};

/* m is 2 to 1,000,000. */
struct factors factors_of(uint32_t m);

#ifdef __cplusplus
}
#endif

#endif
