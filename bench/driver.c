/*
 * Times every contender of every job on the same inputs in one process. The
 * contenders take turns, round by round, and the best round of each counts.
 */
#define _POSIX_C_SOURCE 199309L
#include <stdio.h>
#include <stdlib.h>
#include <string.h>
#include <time.h>

#include "contender.h"

#define ROUNDS 60
#define ROUND_SECONDS 0.001
#define MOST_CONTENDERS 8

struct shape {
    size_t n;
    uint32_t m;
};

/*
 * The first contender is the one the others are measured against. Both lists end with a zero.
 * Input a is drawn again until it suits the job; without a test every input does.
 */
struct job {
    const char *name;
    const struct contender *contenders[MOST_CONTENDERS];
    const struct shape *shapes;
    bool (*suits)(const uint32_t *a, size_t n, uint32_t m);
};

static const struct shape mix_shapes[] = {
    {16, 1000000},  {61, 1000000},  {64, 1000000},   {128, 1000000},  {251, 1000000},
    {256, 1000000}, {512, 1000000}, {1021, 1000000}, {1024, 1000000}, {64, 10},
    {251, 10},      {1024, 10},     {64, 524288},    {251, 524288},   {1024, 524288},
    {64, 999983},   {251, 999983},  {1024, 999983},  {0, 0},
};

static const struct shape prime_shapes[] = {
    {16, 2},       {61, 2},        {64, 2},        {128, 2},       {251, 2},      {256, 2},
    {512, 2},      {1021, 2},      {1024, 2},      {16, 17},       {61, 17},      {64, 17},
    {128, 17},     {251, 17},      {256, 17},      {512, 17},      {1021, 17},    {1024, 17},
    {16, 999983},  {61, 999983},   {64, 999983},   {128, 999983},  {251, 999983}, {256, 999983},
    {512, 999983}, {1021, 999983}, {1024, 999983}, {0, 0},
};

static const struct shape invert_shapes[] = {
    {64, 1000000}, {128, 1000000}, {256, 1000000}, {1024, 1000000}, {64, 524288},
    {128, 524288}, {256, 524288},  {1024, 524288}, {64, 510510},    {128, 510510},
    {256, 510510}, {1024, 510510}, {0, 0},
};

static const struct shape parts_shapes[] = {
    {128, 1000000}, {1024, 1000000}, {128, 524288}, {1024, 524288},
    {128, 510510},  {1024, 510510},  {0, 0},
};

static const struct shape report_shapes[] = {
    {16, 1000000}, {128, 1000000}, {1024, 1000000}, {0, 0},
};

static const struct shape refused_shapes[] = {{1, 1000000}, {0, 0}};

static const struct job jobs[] = {
    {"mix",
     {&dowelbrook_mixes, &plain_mixes,
#ifdef HAVE_FLINT
      &flint_mixes,
#endif
#ifdef HAVE_NTL
      &ntl_mixes,
#endif
#ifdef HAVE_PARI
      &pari_mixes,
#endif
     },
     mix_shapes,
     NULL},
    {"invert modulo a prime",
     {&dowelbrook_inverts_prime,
#ifdef HAVE_FLINT
      &flint_inverts_prime,
#endif
#ifdef HAVE_NTL
      &ntl_inverts_prime,
#endif
#ifdef HAVE_PARI
      &pari_inverts_prime,
#endif
     },
     prime_shapes,
     has_inverse},
    {"invert",
     {&dowelbrook_inverts,
#ifdef HAVE_FLINT
      &flint_inverts,
#endif
     },
     invert_shapes,
     has_whole_inverse},
    {"unmix", {&dowelbrook_unmixes, &parts_unmix}, parts_shapes, has_whole_inverse},
    {"same feeding", {&dowelbrook_compares, &parts_compare}, parts_shapes, has_whole_inverse},
    {"report", {&parts_unmix, &dowelbrook_reports}, report_shapes, has_whole_inverse},
    {"refuse seven large primes", {&prime_tests, &dowelbrook_refuses}, refused_shapes, NULL},
};

static void draw(uint32_t *ring, size_t n, uint32_t m) {
    static uint64_t state = 20260;
    for (size_t i = 0; i < n; i++) {
        state = state * 6364136223846793005u + 1442695040888963407u;
        ring[i] = (uint32_t)((state >> 33) % m);
    }
}

static double now(void) {
    struct timespec t;
    clock_gettime(CLOCK_MONOTONIC, &t);
    return (double)t.tv_sec + (double)t.tv_nsec * 1e-9;
}

/* Seconds for one run, over `runs` of them. */
static double time_runs(const struct contender *c, long runs) {
    double start = now();
    for (long i = 0; i < runs; i++)
        c->run();
    return (now() - start) / (double)runs;
}

static long runs_in_a_round(const struct contender *c) {
    long runs = 1;
    while (time_runs(c, runs) * (double)runs < ROUND_SECONDS)
        runs *= 2;
    return runs;
}

static void demand_agreement(const struct job *job, struct shape shape) {
    static uint32_t first[MOST_ENTRIES], other[MOST_ENTRIES];
    for (int c = 0; job->contenders[c]; c++) {
        job->contenders[c]->run();
        job->contenders[c]->get(c == 0 ? first : other);
        if (c > 0 && memcmp(first, other, shape.n * sizeof *first) != 0) {
            fprintf(stderr, "%s: %s disagrees with %s at n %zu, m %u\n", job->name,
                    job->contenders[c]->name, job->contenders[0]->name, shape.n,
                    (unsigned)shape.m);
            exit(1);
        }
    }
}

static void time_all(const struct job *job, double *best) {
    long runs[MOST_CONTENDERS];
    for (int c = 0; job->contenders[c]; c++) {
        runs[c] = runs_in_a_round(job->contenders[c]);
        best[c] = time_runs(job->contenders[c], runs[c]);
    }
    for (int round = 1; round < ROUNDS; round++) {
        for (int c = 0; job->contenders[c]; c++) {
            double seconds = time_runs(job->contenders[c], runs[c]);
            if (seconds < best[c])
                best[c] = seconds;
        }
    }
}

static void print_head(const struct job *job) {
    printf("\n%s: microseconds, then how many times as long the others take\n", job->name);
    printf("%6s%9s%12s", "n", "m", job->contenders[0]->name);
    for (int c = 1; job->contenders[c]; c++)
        printf("%10s", job->contenders[c]->name);
    printf("\n");
}

static void measure(const struct job *job, struct shape shape) {
    static uint32_t a[MOST_ENTRIES], b[MOST_ENTRIES];
    double best[MOST_CONTENDERS];
    do
        draw(a, shape.n, shape.m);
    while (job->suits && !job->suits(a, shape.n, shape.m));
    draw(b, shape.n, shape.m);
    for (int c = 0; job->contenders[c]; c++)
        job->contenders[c]->set(a, b, shape.n, shape.m);
    demand_agreement(job, shape);
    time_all(job, best);
    printf("%6zu%9u%12.2f", shape.n, (unsigned)shape.m, best[0] * 1e6);
    for (int c = 1; job->contenders[c]; c++)
        printf("%10.2f", best[c] / best[0]);
    printf("\n");
    fflush(stdout);
}

int main(void) {
    for (size_t j = 0; j < sizeof jobs / sizeof *jobs; j++) {
        print_head(&jobs[j]);
        for (const struct shape *shape = jobs[j].shapes; shape->n != 0; shape++)
            measure(&jobs[j], *shape);
    }
    return 0;
}
