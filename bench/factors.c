/* Factor lists by trial division. */
#include "contender.h"

struct factors factors_of(uint32_t m) {
    struct factors list = {0};
    for (uint32_t p = 2; m > 1; p++) {
        if (m % p != 0)
            continue;
        list.primes[list.count] = p;
        for (; m % p == 0; m /= p)
            list.exponents[list.count]++;
        list.count++;
    }
    return list;
}
