/* What the fuzz target's parts share: a claim that stops the fuzzer, document 01's numbers, and the fuzz input's layout. */
#ifndef FUZZ_H
#define FUZZ_H

#include <stddef.h>
#include <stdint.h>
#include <stdio.h>
#include <stdlib.h>
#include <string.h>

#include "sporeflask.h"

#define HOLD(claim)                                                                  \
    do {                                                                             \
        if (!(claim)) {                                                              \
            fprintf(stderr, "%s:%d: does not hold: %s\n", __FILE__, __LINE__, #claim); \
            abort();                                                                 \
        }                                                                            \
    } while (0)

enum { INT = 1, BOOL, VAR, ETVAR, ARROW, FORALL };
enum { EVAR = 16, APP, ABS, TAPP, TABS, ANN, LITINT, LITBOOL, LET, IF, BINOP };
enum { VARBND = 32, TVARBND, ETVARBND, SETVARBND, MARK };

/* What an input's first bytes choose; the question's bytes follow. */
struct chosen {
    uint16_t budget;
    uint8_t functions;     /* bit 0: not sporeflask_check; bit 1: not sporeflask_answer; both bits: both */
    uint8_t sides;         /* one bit for each slice: it lies against its last guard page, or its first */
    uint16_t report_words;
    uint16_t reply_bytes;
    int8_t more_work;      /* words of work beyond what the budget needs */
    uint8_t offsets;       /* how far the two byte slices lie from their guard page: 2 bits each */
    uint8_t high_budget;   /* the budget's high half */
    uint8_t elsewhere;     /* at which other budget sporeflask_check is asked too */
    uint8_t fill[4];       /* what work and the report hold before */
};
_Static_assert(sizeof(struct chosen) == 16, "an input's first bytes");

/* The words past the item that stands at `at`, or 0 where none is whole before `end`. */
size_t past_type(const uint32_t *words, size_t at, size_t end);
size_t past_expr(const uint32_t *words, size_t at, size_t end);
size_t past_entry(const uint32_t *words, size_t at, size_t end);

/* Holds a report to its form and tells libFuzzer what it shows. */
void look_at_report(uint32_t code, uint32_t units, const uint32_t *report, size_t length);

/* Tells libFuzzer which blocks of the archive's code are reached. */
void watch_blocks(void);

#endif
