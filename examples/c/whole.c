/*
 * Three feeders, counters that wrap at 10, and a logger that hears each feeder once and the feeder before it twice:
 * the counts behind its readings, and what a mistyped reading and a mistyped factor list get. It prints what stands in
 * whole.out.
 *
 *     cc -I include -o whole examples/c/whole.c target/staticlib/libcapi.a && ./whole
 *
 * By hand, modulo 10: the counts 1 0 5 are heard as 1 + 2*5, 0 + 2*1, 5 + 2*0, which are the readings 1 2 5; and the
 * inverse 9 2 6 as 9 + 2*6, 2 + 2*9, 6 + 2*2, which is 1 0 0. In the list 5 2, the prime 2 at place 1 is not above 5.
 */
#include <dowelbrook.h>

#include <inttypes.h>
#include <stdio.h>

enum { FEEDERS = 3, PRIMES = 2 };

/* 10 is 2^1 times 5^1. */
static const uint32_t modulus = 10;
static const uint32_t primes[PRIMES] = {2, 5};
static const uint8_t exponents[PRIMES] = {1, 1};

static const uint32_t pattern[FEEDERS] = {1, 2, 0};

static void print_list(const char *name, const uint32_t *list, size_t length)
{
    printf("%s", name);
    for (size_t k = 0; k < length; k++)
        printf(" %" PRIu32, list[k]);
    printf("\n");
}

/* The pattern is ring 1, the readings are ring 2. */
static const char *in_words(uint32_t number)
{
    switch (number) {
    case DOWELBROOK_EMPTY: return "the pattern has no entry";
    case DOWELBROOK_LARGE: return "the pattern has more than 1,024 entries";
    case DOWELBROOK_MISMATCH: return "there are not as many readings as the pattern has entries";
    case DOWELBROOK_MODULUS: return "the modulus is not from 2 to 1,000,000";
    case DOWELBROOK_FACTORS: return "there are no primes, or more than 7, or not as many exponents";
    case DOWELBROOK_EXPONENT: return "an exponent is 0";
    case DOWELBROOK_PRIME: return "a number in the list of primes is not a prime";
    case DOWELBROOK_ORDER: return "a prime is not above the one before";
    case DOWELBROOK_PRODUCT: return "the powers of the primes do not multiply to the modulus";
    case DOWELBROOK_COEFFICIENT: return "an entry is not below the modulus";
    case DOWELBROOK_ROOM: return "the output has not as many entries as the pattern";
    case DOWELBROOK_SINGULAR: return "the pattern has no inverse, so that no counts can be told";
    default: return "no such answer";
    }
}

/* What the reply tells besides the number. */
static void print_told(dowelbrook_reply reply)
{
    switch (reply.number) {
    case DOWELBROOK_COEFFICIENT: printf(" (ring %zu, place %zu)", reply.ring, reply.place); break;
    case DOWELBROOK_EXPONENT:
    case DOWELBROOK_PRIME:
    case DOWELBROOK_ORDER: printf(" (place %zu)", reply.place); break;
    case DOWELBROOK_SINGULAR: printf(" (modulo %" PRIu32 ")", reply.prime); break;
    }
}

static void print_refusal(dowelbrook_reply reply)
{
    printf("refused %" PRIu32 ": %s", reply.number, in_words(reply.number));
    print_told(reply);
    printf("\n");
}

static void print_inverse(const uint32_t *listed)
{
    uint32_t inverse[FEEDERS];
    dowelbrook_reply reply = dowelbrook_invert(pattern, FEEDERS, modulus, listed, PRIMES, exponents, PRIMES,
                                               inverse, FEEDERS);
    print_list("primes", listed, PRIMES);
    if (reply.number == DOWELBROOK_DONE)
        print_list("inverse", inverse, FEEDERS);
    else
        print_refusal(reply);
}

static void print_counts(const uint32_t *readings)
{
    uint32_t counts[FEEDERS];
    dowelbrook_reply reply = dowelbrook_unmix(pattern, FEEDERS, readings, FEEDERS, modulus,
                                              primes, PRIMES, exponents, PRIMES, counts, FEEDERS);
    print_list("readings", readings, FEEDERS);
    if (reply.number == DOWELBROOK_DONE)
        print_list("counts", counts, FEEDERS);
    else
        print_refusal(reply);
}

int main(void)
{
    const uint32_t readings[FEEDERS] = {1, 2, 5};
    const uint32_t mistyped[FEEDERS] = {1, 10, 5};
    const uint32_t mistyped_primes[PRIMES] = {5, 2};
    print_inverse(primes);
    print_counts(readings);
    print_counts(mistyped);
    print_inverse(mistyped_primes);
    return 0;
}
