/* The headers are C99, and their structs are laid out as src/door.rs, src/sheets/door.rs and src/probe/door.rs say. */
#include "../include/dowelbrook.h"
#include "probe.h"

#define HOLDS(name, fact) typedef char name[(fact) ? 1 : -1]

HOLDS(number_first, offsetof(dowelbrook_reply, number) == 0);
HOLDS(then_prime, offsetof(dowelbrook_reply, prime) == 4);
HOLDS(then_ring, offsetof(dowelbrook_reply, ring) == 8);
HOLDS(then_place, offsetof(dowelbrook_reply, place) == 16);
HOLDS(no_more, sizeof(dowelbrook_reply) == 24);

HOLDS(number_first_too, offsetof(dowelbrook_verdict, number) == 0);
HOLDS(then_prime_too, offsetof(dowelbrook_verdict, prime) == 4);
HOLDS(then_ring_too, offsetof(dowelbrook_verdict, ring) == 8);
HOLDS(then_place_too, offsetof(dowelbrook_verdict, place) == 16);
HOLDS(then_same, offsetof(dowelbrook_verdict, same) == 24);
HOLDS(no_more_of_a_verdict, sizeof(dowelbrook_verdict) == 32);

HOLDS(number_first_of_a_sheet, offsetof(dowelbrook_sheet, number) == 0);
HOLDS(then_modulus, offsetof(dowelbrook_sheet, modulus) == 4);
HOLDS(then_place_of_a_sheet, offsetof(dowelbrook_sheet, place) == 8);
HOLDS(then_factors, offsetof(dowelbrook_sheet, factors_from) == 16);
HOLDS(then_their_length, offsetof(dowelbrook_sheet, factors_len) == 24);
HOLDS(then_pattern, offsetof(dowelbrook_sheet, pattern_from) == 32);
HOLDS(then_its_length, offsetof(dowelbrook_sheet, pattern_len) == 40);
HOLDS(then_presence, offsetof(dowelbrook_sheet, readings_present) == 48);
HOLDS(then_readings, offsetof(dowelbrook_sheet, readings_from) == 56);
HOLDS(then_their_length_too, offsetof(dowelbrook_sheet, readings_len) == 64);
HOLDS(no_more_of_a_sheet, sizeof(dowelbrook_sheet) == 72);

HOLDS(room_for_a_text, DOWELBROOK_TEXT == 16512);

dowelbrook_sheet (*const reads_a_sheet)(const uint8_t *, size_t) = dowelbrook_read_sheet;
size_t (*const reports_a_sheet)(const uint8_t *, size_t, uint8_t *, size_t) = dowelbrook_report;

HOLDS(kind_first, offsetof(probe_number, kind) == 0);
HOLDS(then_value, offsetof(probe_number, value) == 4);
HOLDS(no_more_of_a_number, sizeof(probe_number) == 8);

HOLDS(kind_first_too, offsetof(probe_outcome, kind) == 0);
HOLDS(then_zero, offsetof(probe_outcome, zero) == 4);
HOLDS(then_degree, offsetof(probe_outcome, degree) == 8);
HOLDS(no_more_of_an_outcome, sizeof(probe_outcome) == 16);
