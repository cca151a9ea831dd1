/*
 * Dowelbrook: rings of n whole numbers, each from 0 to m - 1, that stand for
 * polynomials modulo x^n - 1 and m. n is 1 to 1,024 and m is 2 to 1,000,000.
 *
 * Link with the library dowelbrook of the folder that tools/dist makes (lib/pkgconfig
 * there says how), or with target/staticlib/libcapi.a, which tests/archive capi makes.
 *
 * Every call ends for every content of its buffers and touches nothing else.
 * Three things it cannot see for itself, and the caller owes them:
 *   - no pointer is NULL, not even beside a length of 0;
 *   - each pointer is good for as many words (exponents: bytes) as the length
 *     beside it says;
 *   - an output overlaps no input. Inputs may overlap each other.
 */
#ifndef DOWELBROOK_H
#define DOWELBROOK_H

#include <stddef.h>
#include <stdint.h>

/* The version. It stands nowhere else: what else tells it reads these three lines. */
#define DOWELBROOK_VERSION_MAJOR 0
#define DOWELBROOK_VERSION_MINOR 4
#define DOWELBROOK_VERSION_PATCH 0

/* The three as one string, with points between them. (DOWELBROOK_VERSION is one of the numbers below.) */
#define DOWELBROOK_VERSION_STRING \
    DOWELBROOK_QUOTED(DOWELBROOK_VERSION_MAJOR) "." \
    DOWELBROOK_QUOTED(DOWELBROOK_VERSION_MINOR) "." \
    DOWELBROOK_QUOTED(DOWELBROOK_VERSION_PATCH)
#define DOWELBROOK_QUOTED(number) DOWELBROOK_QUOTED_AS_IT_STANDS(number)
#define DOWELBROOK_QUOTED_AS_IT_STANDS(number) #number

#ifdef __cplusplus
extern "C" {
#endif

/* The numbers a call can answer with. n is the length of ring 1. */
enum {
    DOWELBROOK_DONE = 0,
    DOWELBROOK_EMPTY = 1,       /* ring 1 has no entry */
    DOWELBROOK_LARGE = 2,       /* ring 1 has more than 1,024 entries */
    DOWELBROOK_MISMATCH = 3,    /* another ring's length is not n; tells the lowest such ring */
    DOWELBROOK_MODULUS = 4,     /* m is below 2 or above 1,000,000 */
    DOWELBROOK_FACTORS = 5,     /* primes and exponents are not equally many, or there are none, or more than 7 */
    DOWELBROOK_COEFFICIENT = 6, /* an entry is m or more; tells the lowest such ring, and its first such place */
    DOWELBROOK_ROOM = 7,        /* the output's length is not n */
    DOWELBROOK_DIVISOR = 8,     /* reduce: divisor is below 2 or does not divide m;
                                   fold: the output's length is 0 or does not divide n */
    DOWELBROOK_SINGULAR = 9,    /* a pattern has no inverse modulo m; tells the lowest such ring, and the
                                   smallest prime of m that is singular for it */
    DOWELBROOK_EXPONENT = 10,   /* an exponent is 0; tells the place of its entry */
    DOWELBROOK_PRIME = 11,      /* a number in the list of primes is not a prime; tells the place of its entry */
    DOWELBROOK_ORDER = 12,      /* a prime is not above the one before; tells the place of its entry */
    DOWELBROOK_PRODUCT = 13,    /* the powers do not multiply to m */

    /* Of a sheet; each tells an offset: of the field's first byte, or the sheet's length for a tag
       that is missing at its end. */
    DOWELBROOK_CUT = 20,        /* fewer than three header bytes are left, or the value is cut */
    DOWELBROOK_TAG = 21,        /* the tag is not 1 to 5, or not above the one before */
    DOWELBROOK_LENGTH = 22,     /* the length is wrong */
    DOWELBROOK_MISSING = 23,    /* a required tag has not come */
    DOWELBROOK_VERSION = 24     /* the version is not 1 */
};

/*
 * What a call answers. Rings are numbered from 1 in the order of the
 * parameters, places from 0. A value that the number does not tell is 0.
 */
typedef struct {
    uint32_t number;
    uint32_t prime;
    size_t ring;
    size_t place;
} dowelbrook_reply;

/* What dowelbrook_same_feeding answers. The number is 0 for yes and for no. */
typedef struct {
    uint32_t number;
    uint32_t prime;
    size_t ring;
    size_t place;
    size_t same; /* 1 for yes, else 0 */
} dowelbrook_verdict;

/*
 * In each call the first refusal that applies is the answer, in the order
 * given, and then the output is as it came; only in dowelbrook_invert does
 * SINGULAR write.
 */

/*
 * Mixes rings a (1) and b (2): entry k of the output becomes the sum over i of
 * a[i] * b[(k - i) mod n], modulo m.
 * Refuses, in this order: EMPTY, LARGE, MISMATCH, MODULUS, COEFFICIENT, ROOM.
 */
dowelbrook_reply dowelbrook_mix(const uint32_t *a, size_t a_len,
                                const uint32_t *b, size_t b_len,
                                uint32_t m,
                                uint32_t *out, size_t out_len);

/*
 * Reduces ring a from modulus m to a divisor of m: entry k of the output
 * becomes the remainder of a[k] by divisor. Entries are judged against m.
 * Refuses, in this order: EMPTY, LARGE, MODULUS, COEFFICIENT, ROOM, DIVISOR.
 */
dowelbrook_reply dowelbrook_reduce(const uint32_t *a, size_t a_len,
                                   uint32_t m, uint32_t divisor,
                                   uint32_t *out, size_t out_len);

/*
 * Folds ring a onto out_len entries: entry k of the output becomes the sum,
 * modulo m, of all entries of a whose place is k modulo out_len.
 * Refuses, in this order: EMPTY, LARGE, MODULUS, COEFFICIENT, DIVISOR.
 */
dowelbrook_reply dowelbrook_fold(const uint32_t *a, size_t a_len,
                                 uint32_t m,
                                 uint32_t *out, size_t out_len);

/*
 * The calls below take the factor list of m: its primes, strictly rising, and
 * beside them as many exponents, each at least 1, whose powers multiply to m.
 * An m in range has one such list, of 1 to 7 entries, and every other list is
 * refused: with FACTORS by its size, before any entry is looked at; then entry
 * by entry from the first, with EXPONENT, PRIME or ORDER at the first entry
 * that is bad; then with PRODUCT.
 *
 * A prime p of m is singular for a pattern f when f and x^n - 1 share a factor
 * of degree 1 or more modulo p. f has an inverse exactly when no p is.
 */

/*
 * Inverts pattern f (1): the output becomes the ring whose mix with f is
 * 1, 0, .., 0. With SINGULAR all its n entries become the ghost instead: m / p
 * times the monic w of least degree whose mix with f is zero modulo p, where p
 * is the prime told. The ghost is not all zero, and its mix with f is.
 * Refuses, in this order: EMPTY, LARGE, MODULUS, FACTORS, EXPONENT, PRIME,
 * ORDER, PRODUCT, COEFFICIENT, ROOM, SINGULAR.
 */
dowelbrook_reply dowelbrook_invert(const uint32_t *f, size_t f_len,
                                   uint32_t m,
                                   const uint32_t *primes, size_t primes_len,
                                   const uint8_t *exponents, size_t exponents_len,
                                   uint32_t *out, size_t out_len);

/*
 * Unmixes readings y (2) heard through pattern f (1): the output becomes the
 * counts, the one ring whose mix with f is y.
 * Refuses, in this order: EMPTY, LARGE, MISMATCH, MODULUS, FACTORS, EXPONENT,
 * PRIME, ORDER, PRODUCT, COEFFICIENT, ROOM, SINGULAR.
 */
dowelbrook_reply dowelbrook_unmix(const uint32_t *f, size_t f_len,
                                  const uint32_t *y, size_t y_len,
                                  uint32_t m,
                                  const uint32_t *primes, size_t primes_len,
                                  const uint8_t *exponents, size_t exponents_len,
                                  uint32_t *out, size_t out_len);

/*
 * Whether readings y1 (2) through pattern f1 (1) and readings y2 (4) through
 * pattern f2 (3) are of the same feeding: the counts behind them are equal,
 * entry by entry, and at least one of them is not zero. So an idle tank, in
 * which every count is zero, is never the same feeding as another idle tank,
 * nor as itself: that is a no, and no refusal.
 * Refuses, in this order: EMPTY, LARGE, MISMATCH, MODULUS, FACTORS, EXPONENT,
 * PRIME, ORDER, PRODUCT, COEFFICIENT, SINGULAR.
 */
dowelbrook_verdict dowelbrook_same_feeding(const uint32_t *f1, size_t f1_len,
                                           const uint32_t *y1, size_t y1_len,
                                           const uint32_t *f2, size_t f2_len,
                                           const uint32_t *y2, size_t y2_len,
                                           uint32_t m,
                                           const uint32_t *primes, size_t primes_len,
                                           const uint8_t *exponents, size_t exponents_len);

/*
 * What a sheet holds and where: offsets count from the sheet's first byte. A
 * pattern and readings have four bytes an entry, factors four for the prime and
 * one for the exponent, high byte first. On a refusal the modulus is 0 and all
 * parts are empty; absent readings are an empty part with readings_present 0.
 */
typedef struct {
    uint32_t number;         /* 0, or 20 to 24 */
    uint32_t modulus;
    size_t place;            /* the offset that a refusal tells, else 0 */
    size_t factors_from, factors_len;
    size_t pattern_from, pattern_len;
    size_t readings_present; /* 1 or 0 */
    size_t readings_from, readings_len;
} dowelbrook_sheet;

/*
 * Reads a pattern sheet of any length, in place: its fields, in order, are
 *   tag 1, length 1      version, 1
 *   tag 2, length 4      modulus
 *   tag 3, 5 each, to 35 factors
 *   tag 4, 4 each, to 4,096  pattern
 *   tag 5, as tag 4      readings, optional
 * each with its tag in one byte and its length in two. It judges nothing else.
 * Refuses at the first field that fails, in this order: CUT (header), TAG,
 * MISSING, LENGTH, CUT (value), VERSION; at the end MISSING.
 */
dowelbrook_sheet dowelbrook_read_sheet(const uint8_t *sheet, size_t sheet_len);

/* Room for every text of dowelbrook_report. */
#define DOWELBROOK_TEXT 16512

/*
 * Writes the text that the program unmix prints for a sheet at the start of
 * text, and returns its length; the rest of text is as it came. Where text_len
 * is below DOWELBROOK_TEXT, nothing is written and 0 is returned.
 */
size_t dowelbrook_report(const uint8_t *sheet, size_t sheet_len,
                         uint8_t *text, size_t text_len);

#ifdef __cplusplus
}
#endif

#endif
