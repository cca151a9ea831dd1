/*
 * The bytes of a sheet to the text that is printed for it, in one call. a is the pattern and b the
 * readings. `get` reads the counts back from the text.
 */
#include <stdio.h>
#include <stdlib.h>
#include <string.h>

#include "../include/dowelbrook.h"
#include "contender.h"

#define MOST_BYTES 8247

static uint8_t sheet[MOST_BYTES];
static size_t sheet_length;
static char text[DOWELBROOK_TEXT + 1];
static size_t text_length;
static size_t length;

static void put(size_t number, int bytes) {
    for (int place = bytes - 1; place >= 0; place--)
        sheet[sheet_length++] = (uint8_t)(number >> 8 * place);
}

static void put_header(size_t tag, size_t bytes) {
    put(tag, 1);
    put(bytes, 2);
}

static void put_factors(uint32_t m) {
    struct factors list = factors_of(m);
    put_header(3, 5 * list.count);
    for (size_t i = 0; i < list.count; i++) {
        put(list.primes[i], 4);
        put(list.exponents[i], 1);
    }
}

static void put_ring(size_t tag, const uint32_t *ring) {
    put_header(tag, 4 * length);
    for (size_t i = 0; i < length; i++)
        put(ring[i], 4);
}

static void set(const uint32_t *a, const uint32_t *b, size_t n, uint32_t m) {
    length = n;
    sheet_length = 0;
    put_header(1, 1);
    put(1, 1);
    put_header(2, 4);
    put(m, 4);
    put_factors(m);
    put_ring(4, a);
    put_ring(5, b);
}

static void report(void) {
    text_length = dowelbrook_report(sheet, sheet_length, (uint8_t *)text, DOWELBROOK_TEXT);
}

static void get(uint32_t *out) {
    static const char head[] = "\ncounts";
    text[text_length] = 0;
    char *entry = strstr(text, head);
    if (!entry) {
        fprintf(stderr, "the report has no counts: %s\n", text);
        exit(1);
    }
    entry += strlen(head);
    for (size_t i = 0; i < length; i++)
        out[i] = (uint32_t)strtoul(entry, &entry, 10);
}

const struct contender dowelbrook_reports = {"report", set, report, get};
