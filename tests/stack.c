/*
 * The whole stack of each call of include/dowelbrook.h, arrays and all else:
 *   cc -std=gnu99 -O2 -pthread stack.c ../target/staticlib/libcapi.a -o ../target/stack && ../target/stack
 *
 * Each call runs on all the inputs below. First it does so on a thread whose stack was painted, and what is no longer
 * paint is counted, from the frame that makes the call downwards, so that arguments on the stack count. It must not be
 * more than the table `calls` states. Then it runs on an ordinary thread that has just the stated stack above its guard
 * page, where too deep a frame ends the process.
 *
 * memset and memcpy are all that the library needs from elsewhere. In a program that binds them at their first
 * use, the dynamic linker once stands on the same stack.
 */
#include <limits.h>
#include <pthread.h>
#include <stdbool.h>
#include <stdio.h>
#include <stdlib.h>
#include <sys/wait.h>
#include <unistd.h>

#include "../include/dowelbrook.h"

#define COUNT(array) (sizeof(array) / sizeof *(array))
#define MOST_ENTRIES 1024
#define MOST_FACTORS 7
#define MOST_BYTES 8247
#define MOST_INPUTS 64

static void demand(bool holds, const char *said) {
    if (holds)
        return;
    fprintf(stderr, "stack: %s\n", said);
    exit(1);
}

/* ---- Inputs */

/* What every call takes its arguments from. The rings have room for an entry too many, the sheet for a field. */
struct inputs {
    size_t n, y_len, out_len, folded_len, factors, sheet_len;
    uint32_t m, divisor;
    uint32_t f[MOST_ENTRIES + 1], y[MOST_ENTRIES + 1], other_f[MOST_ENTRIES + 1];
    uint32_t primes[MOST_FACTORS];
    uint8_t exponents[MOST_FACTORS];
    uint8_t sheet[MOST_BYTES + 16];
};

static struct inputs inputs[MOST_INPUTS];
static size_t inputs_count;
static uint32_t out[MOST_ENTRIES];
static uint8_t text[DOWELBROOK_TEXT];

static void put(struct inputs *in, size_t number, int bytes) {
    for (int place = bytes - 1; place >= 0; place--)
        in->sheet[in->sheet_len++] = (uint8_t)(number >> 8 * place);
}

static void put_header(struct inputs *in, size_t tag, size_t bytes) {
    put(in, tag, 1);
    put(in, bytes, 2);
}

static void put_factors(struct inputs *in) {
    put_header(in, 3, 5 * in->factors);
    for (size_t i = 0; i < in->factors; i++) {
        put(in, in->primes[i], 4);
        put(in, in->exponents[i], 1);
    }
}

static void put_ring(struct inputs *in, size_t tag, const uint32_t *ring, size_t length) {
    put_header(in, tag, 4 * length);
    for (size_t i = 0; i < length; i++)
        put(in, ring[i], 4);
}

static void put_sheet(struct inputs *in) {
    in->sheet_len = 0;
    put_header(in, 1, 1);
    put(in, 1, 1);
    put_header(in, 2, 4);
    put(in, in->m, 4);
    put_factors(in);
    put_ring(in, 4, in->f, in->n);
    put_ring(in, 5, in->y, in->y_len);
}

static void add(const struct inputs *in) {
    demand(inputs_count < MOST_INPUTS, "there are more inputs than MOST_INPUTS");
    inputs[inputs_count++] = *in;
}

static void add_with_sheet(struct inputs *in) {
    put_sheet(in);
    add(in);
}

static void factorize(struct inputs *in) {
    uint32_t rest = in->m;
    in->factors = 0;
    for (uint32_t p = 2; rest > 1; p++) {
        if (rest % p != 0)
            continue;
        in->primes[in->factors] = p;
        in->exponents[in->factors] = 0;
        for (; rest % p == 0; rest /= p)
            in->exponents[in->factors]++;
        in->factors++;
    }
}

static void draw(uint32_t *ring, size_t n, uint32_t m) {
    static uint64_t state = 20260;
    for (size_t i = 0; i < n; i++) {
        state = state * 6364136223846793005u + 1442695040888963407u;
        ring[i] = (uint32_t)((state >> 33) % m);
    }
}

static void fill(uint32_t *ring, size_t n, uint32_t value) {
    for (size_t i = 0; i < n; i++)
        ring[i] = value;
}

static bool has_inverse(const struct inputs *in) {
    return dowelbrook_invert(in->f, in->n, in->m, in->primes, in->factors, in->exponents, in->factors, out, in->n)
               .number == DOWELBROOK_DONE;
}

/* Legal inputs, with one pattern for both sides of a comparison. It has an inverse. */
static void draw_inputs(struct inputs *in, size_t n, uint32_t m) {
    in->n = in->y_len = in->out_len = n;
    in->folded_len = 1;
    in->m = m;
    factorize(in);
    in->divisor = in->primes[0];
    do
        draw(in->f, n, m);
    while (!has_inverse(in));
    for (size_t i = 0; i < n; i++)
        in->other_f[i] = in->f[i];
    draw(in->y, n, m);
}

/* Both patterns have an inverse; only the first; neither, twice. */
static void add_legal(size_t n, uint32_t m) {
    struct inputs in = {0};
    draw_inputs(&in, n, m);
    add_with_sheet(&in);
    fill(in.other_f, n, 1);
    add_with_sheet(&in);
    fill(in.f, n, 1);
    add_with_sheet(&in);
    fill(in.f, n, 0);
    add_with_sheet(&in);
}

static void no_entry(struct inputs *in) { in->n = in->y_len = 0; }
static void many_entries(struct inputs *in) { in->n = in->y_len = MOST_ENTRIES + 1; }
static void short_readings(struct inputs *in) { in->y_len--; }
static void high_modulus(struct inputs *in) { in->m = 1000001; }
static void no_factor(struct inputs *in) { in->factors = 0; }
static void zero_exponent(struct inputs *in) { in->exponents[in->factors - 1] = 0; }
static void no_prime(struct inputs *in) { in->primes[in->factors - 1] = 999999; }
static void falling_primes(struct inputs *in) { in->primes[in->factors - 1] = in->primes[0]; }
static void missing_factor(struct inputs *in) { in->factors--; }
static void high_entry(struct inputs *in) { in->f[in->n - 1] = in->m; }
static void high_last_entry(struct inputs *in) { in->y[in->y_len - 1] = in->m; }
static void short_output(struct inputs *in) { in->out_len--; }
static void no_divisor(struct inputs *in) { in->divisor = in->m + 1; }
static void nothing_folded(struct inputs *in) { in->folded_len = 0; }

static void (*const ring_faults[])(struct inputs *) = {
    no_entry,       many_entries,   short_readings, high_modulus,    no_factor,    zero_exponent, no_prime,
    falling_primes, missing_factor, high_entry,     high_last_entry, short_output, no_divisor,    nothing_folded,
};

static void no_readings(struct inputs *in) { in->sheet_len -= 3 + 4 * in->y_len; }
static void no_rings(struct inputs *in) { in->sheet_len -= 6 + 4 * (in->n + in->y_len); }
static void cut(struct inputs *in) { in->sheet_len--; }
static void further_field(struct inputs *in) { put_header(in, 5, 0); }
static void other_version(struct inputs *in) { in->sheet[3] = 2; }

/* The first is no fault. */
static void (*const sheet_faults[])(struct inputs *) = {no_readings, no_rings, cut, further_field, other_version};

static void add_faulty(size_t n, uint32_t m) {
    struct inputs legal = {0}, in;
    draw_inputs(&legal, n, m);
    put_sheet(&legal);
    for (size_t i = 0; i < COUNT(ring_faults); i++) {
        in = legal;
        ring_faults[i](&in);
        add_with_sheet(&in);
    }
    for (size_t i = 0; i < COUNT(sheet_faults); i++) {
        in = legal;
        sheet_faults[i](&in);
        add(&in);
    }
}

static void add_all(void) {
    static const uint32_t moduli[] = {1000000, 999983, 524288, 531441, 510510, 2};
    for (size_t i = 0; i < COUNT(moduli); i++)
        add_legal(MOST_ENTRIES, moduli[i]);
    add_legal(MOST_ENTRIES - 1, 1000000);
    add_legal(128, 1000000);
    add_legal(1, 1000000);
    add_faulty(MOST_ENTRIES, 510510);
}

/* ---- Calls */

/* The numbers that were answered, a bit each. All of them are 0 to 13 and 20 to 24. */
static uint32_t answered;

#define EVERY_NUMBER 0x1f03fff

static void note(uint32_t number) { answered |= (uint32_t)1 << number; }

/* Each makes one call, and returns the address of the frame that makes it. */

static uint8_t *mix(const struct inputs *in) {
    note(dowelbrook_mix(in->f, in->n, in->y, in->y_len, in->m, out, in->out_len).number);
    return __builtin_frame_address(0);
}

static uint8_t *reduce(const struct inputs *in) {
    note(dowelbrook_reduce(in->f, in->n, in->m, in->divisor, out, in->out_len).number);
    return __builtin_frame_address(0);
}

static uint8_t *fold(const struct inputs *in) {
    note(dowelbrook_fold(in->f, in->n, in->m, out, in->folded_len).number);
    return __builtin_frame_address(0);
}

static uint8_t *invert(const struct inputs *in) {
    note(dowelbrook_invert(in->f, in->n, in->m, in->primes, in->factors, in->exponents, in->factors, out, in->out_len)
             .number);
    return __builtin_frame_address(0);
}

static uint8_t *unmix(const struct inputs *in) {
    note(dowelbrook_unmix(in->f, in->n, in->y, in->y_len, in->m, in->primes, in->factors, in->exponents, in->factors,
                          out, in->out_len)
             .number);
    return __builtin_frame_address(0);
}

static uint8_t *same_feeding(const struct inputs *in) {
    note(dowelbrook_same_feeding(in->f, in->n, in->y, in->y_len, in->other_f, in->n, in->y, in->y_len, in->m,
                                 in->primes, in->factors, in->exponents, in->factors)
             .number);
    return __builtin_frame_address(0);
}

static uint8_t *read_sheet(const struct inputs *in) {
    note(dowelbrook_read_sheet(in->sheet, in->sheet_len).number);
    return __builtin_frame_address(0);
}

static uint8_t *report(const struct inputs *in) {
    dowelbrook_report(in->sheet, in->sheet_len, text, sizeof text);
    return __builtin_frame_address(0);
}

struct call {
    const char *name;
    uint8_t *(*run)(const struct inputs *);
    size_t stated_kib;
};

/* The stack that is enough for a call: a whole number of 4 KiB, with SPARE bytes to spare above what is measured, and
   4 KiB where one of the three is called, so that the dynamic linker has room too. docs/ARCHITECTURE.md has the same
   numbers, and tests/src/tables.rs compares them. */
#define SPARE 2048
static const struct call calls[] = {
    {"mix", mix, 32},
    {"reduce", reduce, 4},
    {"fold", fold, 4},
    {"invert", invert, 48},
    {"unmix", unmix, 76},
    {"same_feeding", same_feeding, 84},
    {"read_sheet", read_sheet, 4},
    {"report", report, 88},
};

static size_t stated(const struct call *call) { return 1024 * call->stated_kib; }

static uint8_t *run_on_all(const struct call *call) {
    uint8_t *frame = NULL;
    for (size_t i = 0; i < inputs_count; i++)
        frame = call->run(&inputs[i]);
    return frame;
}

/* ---- On painted stacks */

#define PAINT 0x5ca1ab1e0ddba11u

static uint64_t area[1 << 15];

struct measurement {
    const struct call *call;
    size_t below; /* bytes from the calling frame down to the lowest that was touched */
    size_t above; /* bytes from there up to the area's end */
};

/* It looks for paint before it returns, as a thread that ends needs some stack too. */
static void *run_on_paint(void *argument) {
    struct measurement *it = argument;
    uint8_t *frame = run_on_all(it->call);
    const uint64_t *word = area;
    while (*word == PAINT)
        word++;
    it->below = (size_t)(frame - (const uint8_t *)word);
    it->above = (size_t)((uint8_t *)(area + COUNT(area)) - frame);
    return NULL;
}

static void run_thread(const pthread_attr_t *attributes, void *(*run)(void *), void *argument) {
    pthread_t thread;
    demand(pthread_create(&thread, attributes, run, argument) == 0, "a thread cannot be made");
    demand(pthread_join(thread, NULL) == 0, "a thread cannot be joined");
}

static struct measurement measure(const struct call *call) {
    struct measurement it = {.call = call};
    pthread_attr_t attributes;
    for (size_t i = 0; i < COUNT(area); i++)
        area[i] = PAINT;
    pthread_attr_init(&attributes);
    demand(pthread_attr_setstack(&attributes, area, sizeof area) == 0, "a thread's stack cannot be set");
    run_thread(&attributes, run_on_paint, &it);
    pthread_attr_destroy(&attributes);
    return it;
}

/* ---- On stated stacks */

static void *run_plainly(void *argument) {
    const struct call *const *call = argument;
    run_on_all(*call);
    return NULL;
}

/* `above` is what the C library keeps in a thread's area and the frames before the call: it comes to the stated stack.
   The area's size is at least PTHREAD_STACK_MIN, and the C library adds the guard page to it. */
static void run_on_stated(const struct call *call, size_t above) {
    size_t size = stated(call) + above;
    pthread_attr_t attributes;
    pthread_attr_init(&attributes);
    if (size < PTHREAD_STACK_MIN)
        size = PTHREAD_STACK_MIN;
    demand(pthread_attr_setstacksize(&attributes, size) == 0, "a thread's stack size cannot be set");
    run_thread(&attributes, run_plainly, &call);
}

/* A process of its own, whose end can be seen, and in which no thread has left a larger stack to be used again. */
static bool stated_suffices(const struct call *call, size_t above) {
    int status;
    pid_t child = fork();
    demand(child >= 0, "a process cannot be made");
    if (child == 0) {
        run_on_stated(call, above);
        _exit(0);
    }
    return waitpid(child, &status, 0) == child && WIFEXITED(status) && WEXITSTATUS(status) == 0;
}

static bool holds(const struct call *call) {
    struct measurement it = measure(call);
    bool within = it.below + SPARE <= stated(call), suffices;
    printf("%-12s %6zu bytes of stack, %2zu KiB stated\n", call->name, it.below, call->stated_kib);
    fflush(stdout);
    if (!within)
        fprintf(stderr, "stack: %s leaves too little of the %zu KiB stated\n", call->name, call->stated_kib);
    suffices = stated_suffices(call, it.above);
    if (!suffices)
        fprintf(stderr, "stack: %s ends the process on the %zu KiB stated\n", call->name, call->stated_kib);
    return within && suffices;
}

int main(void) {
    bool all_hold = true;
    add_all();
    for (size_t i = 0; i < COUNT(calls); i++)
        all_hold &= holds(&calls[i]);
    demand(answered == EVERY_NUMBER, "the inputs do not bring out every number that a call can answer");
    return all_hold ? 0 : 1;
}
