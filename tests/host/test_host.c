/* The exported functions at every edge of their sizes, held to document 01, and what the header says of names, threads and the stack.
   Prints each failure, then 'N checks, M failed'. */
#include <pthread.h>

#include "slices.h"
#include "sporeflask.h"

#define COUNT(array) (sizeof(array) / sizeof(array)[0])
#define WORDS(...) {__VA_ARGS__}, COUNT(((const uint32_t[]){__VA_ARGS__}))
#define NONE {0}, 0

/* Room that leaves no report out, and work beyond what any budget may need. */
enum { WHOLE_ROOM = 8192, MOST_WORK = 266240 };

/* A question, and its reply where budget and room are enough. */
struct asked {
    const char *label;
    uint32_t words[28];
    size_t count;
    uint32_t reply[4];   /* code, at, length, units */
    uint32_t report[14]; /* its first words */
    size_t held;
};

static const struct asked ASKED[] = {
    {"a", WORDS(7, 0, 0, 3, 22, 1, 0, 0, 0), {0, 0, 13, 2}, WORDS(1, 1, 0, 9, 2, 0, 4, 0, 0, 0, 0, 1, 1)},
    {"b", WORDS(7, 0, 0, 5, 18, 5, 1, 16, 5, 0, 0), {0, 0, 108, 28}, WORDS(3, 5, 1, 1, 3, 35, 1000000, 1, 99, 4, 1, 4)},
    {"c", WORDS(7, 0, 0, 11, 18, 5, 1, 17, 18, 6, 1, 16, 6, 16, 5, 0, 0), {11, 5, 2, 59}, WORDS(0, 0)},
    {"d", WORDS(7, 0, 0, 8, 18, 5, 1, 18, 5, 2, 16, 5, 0, 0), {0, 0, 409, 111}, WORDS(5, 5, 1, 5, 2, 1)},
    {"e", WORDS(2, 0, 0, 6, 18, 5, 2, 22, 1, 0, 0, 3, 5, 1, 1), {0, 0, 29, 4}, WORDS(0, 0, 26, 19, 1, 4)},
    {"f", WORDS(2, 1, 0, 6, 18, 5, 2, 22, 1, 0, 0, 3, 5, 1, 1), {17, 0, 4, 2}, WORDS(1, 2, 1, 1)},
    {"g", WORDS(7, 0, 0, 8, 20, 1, 18, 5, 3, 1, 16, 5, 0, 0), {0, 0, 166, 43}, WORDS(7, 6, 1, 5, 3, 1, 3, 1)},
    {"h", WORDS(7, 0, 0, 10, 19, 20, 1, 18, 5, 3, 1, 16, 5, 1, 0, 0), {0, 0, 177, 47}, WORDS(3, 5, 1, 1)},
    {"i", WORDS(7, 0, 0, 5, 19, 22, 1, 0, 1, 0, 0), {13, 0, 3, 2}, WORDS(1, 1, 0)},
    {"j", WORDS(7, 0, 0, 7, 17, 22, 1, 0, 22, 2, 0, 0, 0), {12, 0, 3, 4}, WORDS(1, 1, 0)},
    {"k", WORDS(7, 0, 0, 8, 25, 23, 1, 22, 1, 0, 23, 1, 0, 0), {15, 0, 4, 5}, WORDS(1, 1, 1, 2)},
    {"l", WORDS(7, 0, 0, 13, 25, 23, 1, 18, 5, 1, 16, 5, 18, 5, 1, 23, 1, 0, 0), {0, 0, 385, 90}, WORDS(3, 5, 1, 1)},
    {"m", WORDS(7, 1, 0, 13, 25, 23, 1, 18, 5, 1, 16, 5, 18, 5, 1, 23, 1, 0, 0), {15, 0, 4, 79}, WORDS(1, 1, 1, 2)},
    {"n", WORDS(4, 0, 0, 0, 7, 6, 1, 5, 3, 1, 3, 1, 3, 5, 1, 2), {0, 0, 143, 33}, WORDS(0, 3, 35, 1, 2)},
    {"o", WORDS(5, 0, 0, 0, 2, 4, 1, 2, 3, 1), {14, 1, 4, 1}, WORDS(2, 3, 1, 0)},
    {"order 2", WORDS(2, 1, 0, 12, 18, 5, 6, 1, 5, 3, 1, 3, 1, 22, 1, 0, 0, 9, 5, 6, 2, 5, 3, 2, 3, 2, 1), {0, 0, 47, 8},
     WORDS(0, 0, 44, 19, 1, 4)},
    {"bound for free", WORDS(2, 1, 0, 9, 18, 5, 6, 1, 3, 1, 22, 1, 0, 0, 6, 5, 6, 2, 3, 1, 1), {17, 0, 10, 3},
     WORDS(4, 6, 1, 3, 1, 4, 6, 2, 3, 1)},
    {"a ring", WORDS(2, 0, 4, 35, 1, 4, 1, 3, 22, 1, 0, 0, 2, 4, 1), {6, 0, 0, 8192}, NONE},
    {"name 999,999", WORDS(7, 0, 0, 2, 16, 999999, 0, 0), {11, 999999, 2, 1}, WORDS(0, 0)},
    {"name 1,000,000", WORDS(7, 0, 0, 2, 16, 1000000, 0, 0), {5, 5, 0, 0}, NONE},
    {"a section stops", WORDS(7, 0, 0, 0, 0, 0), {4, 4, 0, 0}, NONE},
    {"no mode", WORDS(7), {4, 1, 0, 0}, NONE},
};

static const struct asked *const CASE_B = &ASKED[1];

static struct slice work_slice, report_slice, question_slice, reply_slice;
static const uint8_t zeros[MOST_SLICE];
static unsigned long checks, failed;

static void hold(bool holds, const char *label, const char *what, size_t size) {
    checks++;
    if (!holds) {
        failed++;
        printf("FAILED: %s: %s (%zu)\n", label, what, size);
    }
}

static bool has_report(const uint32_t reply[4]) { return reply[0] == 0 || reply[0] >= 11; }

static size_t needed(uint32_t budget) {
    return budget > SPOREFLASK_MOST_BUDGET ? MOST_WORK : SPOREFLASK_WORK_WORDS(budget);
}

/* The reply at other sizes, as document 01 says it. */
static void reply_at(const uint32_t full[4], uint32_t budget, size_t work, size_t room, uint32_t reply[4]) {
    memset(reply, 0, 16);
    if (budget == 0 || budget > 8192) {
        reply[0] = 1;
    } else if (work < needed(budget)) {
        reply[0] = 2;
    } else if (full[0] >= 3 && full[0] <= 5) {
        memcpy(reply, full, 16);
    } else if (full[0] == 6 || full[3] > budget) {
        reply[0] = 6;
        reply[3] = budget;
    } else {
        memcpy(reply, full, 16);
        if (full[2] > room) {
            reply[0] = 7;
            reply[1] = 0;
        }
    }
}

/* One call of sporeflask_check in noise: the numbers, every slice afterwards, and the report's first words. */
static void hold_check(const char *label, const uint32_t *question, size_t count, uint32_t budget, size_t work, size_t room,
                       const uint32_t reply[4], const uint32_t *report, size_t held) {
    uint32_t numbers[6] = {77, 77, 77, 77, 77, 77};
    lend(&question_slice, 4 * count, 0);
    lend(&work_slice, 4 * work, 0);
    lend(&report_slice, 4 * room, 0);
    memcpy(question_slice.at, question, 4 * count);
    uint32_t code = sporeflask_check(words_of(&question_slice), count, budget, words_of(&work_slice), work, words_of(&report_slice), room,
                                     numbers + 1);
    size_t written = has_report(reply) ? 4 * (size_t)reply[2] : 0;
    size_t cleared = reply[0] >= 1 && reply[0] <= 5 ? 0 : 4 * needed(budget);
    hold(code == reply[0], label, "the code returned, with budget", budget);
    hold(memcmp(numbers + 1, reply, 16) == 0, label, "the four numbers, with budget", budget);
    hold(numbers[0] == 77 && numbers[5] == 77, label, "what lies beside the numbers, with budget", budget);
    if (written > 4 * room || cleared > 4 * work) {
        hold(false, label, "the reply wanted is none for this room", room);
        return;
    }
    hold(kept(&report_slice, written), label, "the report slice past the report, room", room);
    hold(memcmp(report_slice.at, report, written < 4 * held ? written : 4 * held) == 0, label, "the report, room", room);
    hold(memcmp(work_slice.at, zeros, cleared) == 0, label, "work that ends as 0, of", work);
    hold(kept(&work_slice, cleared), label, "work that is not touched, of", work);
    hold(kept(&question_slice, 4 * count) && memcmp(question_slice.at, question, 4 * count) == 0, label, "the question, of", count);
}

/* One call of sporeflask_answer in noise; `reply` as document 01 says it for the reply's size. */
static void hold_answer(const char *label, const void *question, size_t bytes, size_t size, const uint32_t reply[4],
                        const uint32_t *report, size_t held) {
    static size_t calls;
    size_t off = calls++ % 4;
    lend(&question_slice, bytes, calls / 4 % 4);
    lend(&reply_slice, size, off);
    memcpy(question_slice.at, question, bytes);
    uint32_t code = sporeflask_answer(question_slice.at, bytes, reply_slice.at, size);
    size_t written = reply[0] == 8 ? 0 : 16 + (has_report(reply) ? 4 * (size_t)reply[2] : 0);
    size_t of_report = written < 16 ? 0 : written - 16, to_hold = of_report < 4 * held ? of_report : 4 * held;
    hold(code == reply[0], label, "the code returned, reply bytes", size);
    if (written > size) {
        hold(false, label, "the reply wanted is none for this many bytes", size);
        return;
    }
    hold(kept(&reply_slice, written), label, "the reply past the report, bytes", size);
    hold(written == 0 || memcmp(reply_slice.at, reply, 16) == 0, label, "the reply's four numbers, bytes", size);
    hold(to_hold == 0 || memcmp(reply_slice.at + 16, report, to_hold) == 0, label, "the reply's report, bytes", size);
    hold(kept(&question_slice, bytes) && memcmp(question_slice.at, question, bytes) == 0, label, "the question, of bytes", bytes);
}

/* The report in full, of a call with all there is. */
static const uint32_t *whole_report(const uint32_t *question, size_t count) {
    static uint32_t work[MOST_WORK], report[WHOLE_ROOM], numbers[4];
    sporeflask_check(question, count, SPOREFLASK_MOST_BUDGET, work, MOST_WORK, report, WHOLE_ROOM, numbers);
    return report;
}

/* Cases (a) to (o) and the edges, in both functions, with the desk program's sizes. */
static void cases(void) {
    for (const struct asked *q = ASKED; q < ASKED + COUNT(ASKED); q++) {
        uint32_t reply[4];
        reply_at(q->reply, 384, 16384, 4096, reply);
        hold_check(q->label, q->words, q->count, 384, 16384, 4096, reply, q->report, q->held);
        hold_answer(q->label, q->words, 4 * q->count, 16400, reply, q->report, q->held);
        hold_check(q->label, q->words, q->count, 8192, MOST_WORK, 4096, q->reply, q->report, q->held);
    }
}

/* Case (b) at budgets with stated replies. */
static void budgets(void) {
    static const struct { uint32_t budget, reply[4]; } TABLE[] = {
        {0, {1, 0, 0, 0}},      {1, {6, 0, 0, 1}},         {27, {6, 0, 0, 27}},   {28, {0, 0, 108, 28}},
        {8192, {0, 0, 108, 28}}, {8193, {1, 0, 0, 0}},     {UINT32_MAX, {1, 0, 0, 0}},
    };
    const uint32_t *report = whole_report(CASE_B->words, CASE_B->count);
    for (size_t i = 0; i < COUNT(TABLE); i++) {
        uint32_t budget = TABLE[i].budget;
        hold_check("b", CASE_B->words, CASE_B->count, budget, needed(budget), 4096, TABLE[i].reply, report, 108);
    }
}

/* Every question at every budget, with work and report at their edges. */
static void all_sizes(const struct asked *q, uint32_t budget) {
    const uint32_t *report = whole_report(q->words, q->count);
    size_t least = needed(budget), length = q->reply[2];
    size_t works[] = {0, 1, least - 1, least, least + 1, least + 999};
    size_t rooms[] = {0, 1, length == 0 ? 0 : length - 1, length, length + 1, 4096};
    for (size_t w = 0; w < COUNT(works); w++) {
        for (size_t r = 0; r < COUNT(rooms); r++) {
            uint32_t reply[4];
            reply_at(q->reply, budget, works[w], rooms[r], reply);
            hold_check(q->label, q->words, q->count, budget, works[w], rooms[r], reply, report, length);
        }
    }
}

static void sizes(void) {
    static const uint32_t BUDGETS[] = {0, 1, 2, 27, 28, 29, 384, 8191, 8192, 8193, 100000, UINT32_MAX};
    for (size_t q = 0; q < COUNT(ASKED); q++) {
        for (size_t b = 0; b < COUNT(BUDGETS); b++) {
            /* the two dearest budgets for the first few questions alone */
            if (q < 3 || BUDGETS[b] < 8191 || BUDGETS[b] > 8192) all_sizes(&ASKED[q], BUDGETS[b]);
        }
    }
}

/* Every question at every budget up to its units and one more: 6 below them, and from them on the same reply; the ring at some. */
static void around_units(void) {
    for (const struct asked *q = ASKED; q < ASKED + COUNT(ASKED); q++) {
        const uint32_t *report = whole_report(q->words, q->count), most = q->reply[0] == 6 ? 28 : q->reply[3];
        for (uint32_t budget = 1; budget <= most + 1; budget++) {
            uint32_t reply[4];
            reply_at(q->reply, budget, needed(budget), 4096, reply);
            hold_check(q->label, q->words, q->count, budget, needed(budget), 4096, reply, report, q->reply[2]);
        }
    }
}

/* A reply of this size, which must give what document 01 says of its room. */
static void hold_reply_size(const char *label, const uint32_t *words, size_t count, const uint32_t full[4], size_t size) {
    static const uint32_t TOO_SHORT[4] = {8, 0, 0, 0};
    uint32_t reply[4];
    size_t room = size < 16 ? 0 : (size - 16) / 4;
    reply_at(full, 384, 16384, room > 4096 ? 4096 : room, reply);
    hold_answer(label, words, 4 * count, size, size < 16 ? TOO_SHORT : reply, whole_report(words, count), full[2]);
}

static void reply_sizes(void) {
    for (const struct asked *q = ASKED; q < ASKED + COUNT(ASKED); q++) {
        size_t exact = 16 + 4 * (size_t)q->reply[2];
        size_t all[] = {0, 1, 15, 16, 17, 19, 20, exact - 1, exact, exact + 1, exact + 4, 16399, 16400, 16401, 65536};
        for (size_t i = 0; i < COUNT(all); i++) hold_reply_size(q->label, q->words, q->count, q->reply, all[i]);
    }
}

/* Subtyping Int with Int under solved entries of 11 words and marks of 2; the number of words. */
static size_t under_entries(uint32_t *words, size_t solved, size_t marks) {
    static const uint32_t SOLVED[] = {35, 1, 5, 1, 5, 1, 5, 1, 5, 1, 1}, MARK[] = {36, 1}, REST[] = {0, 1, 1, 1, 1};
    size_t count = 3;
    for (size_t i = 0; i < solved; i++, count += COUNT(SOLVED)) memcpy(words + count, SOLVED, sizeof SOLVED);
    for (size_t i = 0; i < marks; i++, count += COUNT(MARK)) memcpy(words + count, MARK, sizeof MARK);
    words[0] = 4;
    words[1] = 0;
    words[2] = (uint32_t)(count - 3);
    memcpy(words + count, REST, sizeof REST);
    return count + COUNT(REST);
}

/* Reports at the edge of sporeflask_answer's 4,096 words: its report is three contexts and 10 words more. */
static void longest_reports(void) {
    static const struct { const char *label; size_t solved, marks; uint32_t reply[4]; } TABLE[] = {
        {"report of 4,093 words", 122, 9, {0, 0, 4093, 263}},
        {"report of 4,096 words", 123, 4, {0, 0, 4096, 255}},
        {"report of 4,099 words", 122, 10, {0, 0, 4099, 265}},
        {"report of 4,963 words", 150, 0, {0, 0, 4963, 301}},
    };
    static const size_t SIZES[] = {16, 16384, 16387, 16388, 16399, 16400, 16401, 16411, 16412, 65536};
    static uint32_t words[2049];
    for (size_t i = 0; i < COUNT(TABLE); i++) {
        size_t count = under_entries(words, TABLE[i].solved, TABLE[i].marks);
        for (size_t s = 0; s < COUNT(SIZES); s++) hold_reply_size(TABLE[i].label, words, count, TABLE[i].reply, SIZES[s]);
        hold_check(TABLE[i].label, words, count, 384, 16384, TABLE[i].reply[2], TABLE[i].reply, whole_report(words, count), 4);
    }
}

/* Lengths of a question in bytes; its first 8,192 would be a whole question. */
static void question_bytes(void) {
    static const struct { size_t bytes; uint32_t reply[4]; } TABLE[] = {
        {0, {3, 0, 0, 0}},       {1, {3, 0, 0, 0}},    {3, {3, 0, 0, 0}},      {4, {4, 1, 0, 0}},    {5, {3, 0, 0, 0}},
        {8188, {4, 2046, 0, 0}}, {8191, {3, 0, 0, 0}}, {8192, {6, 0, 0, 384}}, {8193, {3, 0, 0, 0}}, {8195, {3, 0, 0, 0}},
        {8196, {3, 0, 0, 0}},    {40000, {3, 0, 0, 0}},
    };
    static uint32_t words[10000];
    under_entries(words, 0, 1020);
    for (size_t i = 0; i < COUNT(TABLE); i++) {
        hold_answer("a question in bytes", words, TABLE[i].bytes, 16, TABLE[i].reply, words, 0);
        hold_answer("a question in bytes", words, TABLE[i].bytes, 16400, TABLE[i].reply, words, 0);
    }
    static const uint32_t TOO_SHORT[4] = {8, 0, 0, 0};
    hold_answer("a short reply comes before all else", words, 1, 15, TOO_SHORT, words, 0);
    hold_answer("both slices empty", words, 0, 0, TOO_SHORT, words, 0);
}

/* Lengths of a question in words, and the order in which refusals are tried. */
static void question_words(void) {
    static const struct { size_t count; uint32_t budget; size_t work; uint32_t reply[4]; } TABLE[] = {
        {0, 8192, MOST_WORK, {3, 0, 0, 0}},    {1, 8192, MOST_WORK, {4, 1, 0, 0}},       {2047, 8192, MOST_WORK, {4, 2046, 0, 0}},
        {2048, 8192, MOST_WORK, {0, 0, 6133, 2041}}, {2048, 2041, 69408, {0, 0, 6133, 2041}}, {2048, 2040, 69408, {6, 0, 0, 2040}},
        {2049, 8192, MOST_WORK, {3, 0, 0, 0}}, {10000, 1, 4128, {3, 0, 0, 0}},           {0, 0, 0, {1, 0, 0, 0}},
        {0, 8193, MOST_WORK, {1, 0, 0, 0}},    {0, 1, 4127, {2, 0, 0, 0}},               {0, 1, 4128, {3, 0, 0, 0}},
        {2049, 1, 0, {2, 0, 0, 0}},            {2048, 0, 0, {1, 0, 0, 0}},
    };
    static uint32_t words[10000];
    under_entries(words, 0, 1020);
    for (size_t i = 0; i < COUNT(TABLE); i++) {
        const uint32_t *report = whole_report(words, 2048);
        hold_check("a question in words", words, TABLE[i].count, TABLE[i].budget, TABLE[i].work, WHOLE_ROOM, TABLE[i].reply, report, 6133);
    }
}

/* ---- Names: the numbers that the header's names stand for, and a formula in them */

static void hold_numbers(const char *label, const int *names, size_t count, int first) {
    for (size_t i = 0; i < count; i++) hold(names[i] == first + (int)i, label, "a name's number, of names", i);
}

static void numbers_of_kinds_and_codes(void) {
    static const int KINDS[] = {SPOREFLASK_INFER,  SPOREFLASK_CHECK,  SPOREFLASK_INFER_APP,        SPOREFLASK_SUBTYPE,
                                SPOREFLASK_INST_L, SPOREFLASK_INST_R, SPOREFLASK_RUN_BIDIRECTIONAL};
    static const int MODES[] = {SPOREFLASK_PLAIN, SPOREFLASK_STRICT};
    static const int REFUSALS[] = {SPOREFLASK_OK,        SPOREFLASK_BAD_BUDGET,    SPOREFLASK_SHORT_WORK,
                                   SPOREFLASK_BAD_LENGTH, SPOREFLASK_BAD_SHAPE,     SPOREFLASK_RESERVED_NAME,
                                   SPOREFLASK_BUDGET,    SPOREFLASK_NO_ROOM,       SPOREFLASK_SHORT_REPLY};
    static const int ERRORS[] = {SPOREFLASK_UNBOUND_VARIABLE,       SPOREFLASK_APPLICATION_TYPE_ERROR,
                                 SPOREFLASK_TYPE_APPLICATION_ERROR, SPOREFLASK_OCCURS_CHECK,
                                 SPOREFLASK_SUBTYPING_ERROR}; /* no question draws 16: never_16, docs/THEOREMS.md */
    static const int SIZES[][2] = {
        {SPOREFLASK_MOST_WORDS, 2048},   {SPOREFLASK_MOST_BUDGET, 8192},        {SPOREFLASK_DESK_BUDGET, 384},
        {SPOREFLASK_DESK_WORK, 16384},   {SPOREFLASK_DESK_REPORT, 4096},        {SPOREFLASK_REPLY_BYTES, 16},
        {SPOREFLASK_MOST_REPLY_BYTES, 16400}, {SPOREFLASK_FIRST_FRESH_NAME, 1000000}, {SPOREFLASK_WORK_WORDS(384), 16384}};
    static const int STRICT_ERRORS[] = {SPOREFLASK_PARAMETER_MISMATCH};
    hold_numbers("kinds", KINDS, COUNT(KINDS), 1);
    hold_numbers("modes", MODES, COUNT(MODES), 0);
    hold_numbers("refusals", REFUSALS, COUNT(REFUSALS), 0);
    hold_numbers("type errors", ERRORS, COUNT(ERRORS), 11);
    hold_numbers("strict mode's type error", STRICT_ERRORS, COUNT(STRICT_ERRORS), 17);
    for (size_t i = 0; i < COUNT(SIZES); i++) hold(SIZES[i][0] == SIZES[i][1], "sizes", "the number of the table's row", i);
}

/* Whether the header has a name for a code. A name more or less does not compile: -Wswitch, with no default. */
static bool has_name(enum sporeflask_code code) {
    switch (code) {
    case SPOREFLASK_OK: case SPOREFLASK_BAD_BUDGET: case SPOREFLASK_SHORT_WORK: case SPOREFLASK_BAD_LENGTH:
    case SPOREFLASK_BAD_SHAPE: case SPOREFLASK_RESERVED_NAME: case SPOREFLASK_BUDGET: case SPOREFLASK_NO_ROOM:
    case SPOREFLASK_SHORT_REPLY: case SPOREFLASK_UNBOUND_VARIABLE: case SPOREFLASK_APPLICATION_TYPE_ERROR:
    case SPOREFLASK_TYPE_APPLICATION_ERROR: case SPOREFLASK_OCCURS_CHECK: case SPOREFLASK_SUBTYPING_ERROR:
    case SPOREFLASK_PARAMETER_MISMATCH: return true;
    }
    return false;
}

/* Those that are returned (answer-code, docs/THEOREMS.md), and no other: not 16. */
static void names_of_codes(void) {
    for (int code = 0; code < 32; code++) {
        bool returned = code <= 8 || (code >= 11 && code <= 15) || code == 17;
        hold(has_name((enum sporeflask_code)code) == returned, "codes", "a name for the code", (size_t)code);
    }
}

/* In the order of document 01's "Rules 1 to 37". */
static void numbers_of_rules(void) {
    static const int RULES[] = {
        SPOREFLASK_INF_VAR, SPOREFLASK_INF_LIT_INT, SPOREFLASK_INF_LIT_BOOL, SPOREFLASK_INF_LAM, SPOREFLASK_INF_APP,
        SPOREFLASK_INF_LET, SPOREFLASK_INF_IF, SPOREFLASK_INF_ARITH, SPOREFLASK_INF_BOOL, SPOREFLASK_INF_CMP,
        SPOREFLASK_INF_EQ, SPOREFLASK_INF_ANN, SPOREFLASK_INF_T_ABS, SPOREFLASK_INF_T_APP, SPOREFLASK_INF_APP_ARR,
        SPOREFLASK_INF_APP_ETVAR, SPOREFLASK_CHK_LIT_INT, SPOREFLASK_CHK_LIT_BOOL, SPOREFLASK_CHK_LAM,
        SPOREFLASK_CHK_ALL, SPOREFLASK_CHK_SUB, SPOREFLASK_SUB_REFL, SPOREFLASK_SUB_REFL_TVAR,
        SPOREFLASK_SUB_REFL_ETVAR, SPOREFLASK_SUB_ARR, SPOREFLASK_SUB_ALL_R, SPOREFLASK_SUB_ALL_L,
        SPOREFLASK_SUB_INST_L, SPOREFLASK_SUB_INST_R, SPOREFLASK_INST_L_SOLVE, SPOREFLASK_INST_L_REACH,
        SPOREFLASK_INST_L_ARR, SPOREFLASK_INST_L_ALL_R, SPOREFLASK_INST_R_SOLVE, SPOREFLASK_INST_R_REACH,
        SPOREFLASK_INST_R_ARR, SPOREFLASK_INST_R_ALL_L};
    hold(COUNT(RULES) == 37, "rules", "how many", COUNT(RULES));
    hold_numbers("rules", RULES, COUNT(RULES), 1);
}

static void numbers_of_names(void) {
    static const int TYPES[] = {SPOREFLASK_T_INT,   SPOREFLASK_T_BOOL,  SPOREFLASK_T_VAR,
                                SPOREFLASK_T_ETVAR, SPOREFLASK_T_ARROW, SPOREFLASK_T_FORALL};
    static const int EXPRESSIONS[] = {SPOREFLASK_E_VAR,      SPOREFLASK_E_APP, SPOREFLASK_E_ABS,     SPOREFLASK_E_TAPP,
                                      SPOREFLASK_E_TABS,     SPOREFLASK_E_ANN, SPOREFLASK_E_LIT_INT, SPOREFLASK_E_LIT_BOOL,
                                      SPOREFLASK_E_LET,      SPOREFLASK_E_IF_THEN_ELSE,              SPOREFLASK_E_BIN_OP};
    static const int ENTRIES[] = {SPOREFLASK_C_VAR_BND, SPOREFLASK_C_TVAR_BND, SPOREFLASK_C_ETVAR_BND, SPOREFLASK_C_SETVAR_BND,
                                  SPOREFLASK_C_MARK};
    static const int OPERATORS[] = {SPOREFLASK_OP_ADD, SPOREFLASK_OP_SUB, SPOREFLASK_OP_MUL, SPOREFLASK_OP_DIV,
                                    SPOREFLASK_OP_AND, SPOREFLASK_OP_OR,  SPOREFLASK_OP_EQ,  SPOREFLASK_OP_NE,
                                    SPOREFLASK_OP_LT,  SPOREFLASK_OP_LE,  SPOREFLASK_OP_GT,  SPOREFLASK_OP_GE};
    char version[32];
    hold_numbers("types", TYPES, COUNT(TYPES), 1);
    hold_numbers("expressions", EXPRESSIONS, COUNT(EXPRESSIONS), 16);
    hold_numbers("entries", ENTRIES, COUNT(ENTRIES), 32);
    hold_numbers("operators", OPERATORS, COUNT(OPERATORS), 1);
    snprintf(version, sizeof version, "%d.%d.%d", SPOREFLASK_VERSION_MAJOR, SPOREFLASK_VERSION_MINOR, SPOREFLASK_VERSION_PATCH);
    hold(strcmp(version, SPOREFLASK_VERSION) == 0, "version", "the text and its three numbers, of bytes", strlen(version));
}

/* README's formula: ahead * 4 / heads signed_in, refused; with open in the place of signed_in, accepted. */
static void formula_in_names(void) {
    enum { AHEAD = 1, OPEN, SIGNED_IN, HEADS }; /* variables */
    enum { T_OPEN = 1, T_SIGNED_IN };           /* type names */
    static const uint32_t NAMED[] = {
        SPOREFLASK_INFER, SPOREFLASK_PLAIN,
        17, SPOREFLASK_C_VAR_BND, AHEAD, SPOREFLASK_T_INT,
            SPOREFLASK_C_VAR_BND, OPEN, SPOREFLASK_T_VAR, T_OPEN,
            SPOREFLASK_C_VAR_BND, SIGNED_IN, SPOREFLASK_T_VAR, T_SIGNED_IN,
            SPOREFLASK_C_VAR_BND, HEADS, SPOREFLASK_T_ARROW, SPOREFLASK_T_VAR, T_OPEN, SPOREFLASK_T_INT,
        14, SPOREFLASK_E_BIN_OP, SPOREFLASK_OP_DIV,
            SPOREFLASK_E_BIN_OP, SPOREFLASK_OP_MUL, SPOREFLASK_E_VAR, AHEAD, SPOREFLASK_E_LIT_INT, 4, 0,
            SPOREFLASK_E_APP, SPOREFLASK_E_VAR, HEADS, SPOREFLASK_E_VAR, SIGNED_IN,
        0, 0,
    };
    static const uint32_t WORDS[] = {1, 0, 17, 32, 1, 1, 32, 2, 3, 1, 32, 3, 3, 2, 32, 4, 5, 3, 1, 1, 14, 26, 4, 26, 3,
                                     16, 1, 22, 4, 0, 17, 16, 4, 16, 3, 0, 0};
    static const uint32_t REFUSED[4] = {SPOREFLASK_SUBTYPING_ERROR, 0, 6, 120}, ACCEPTED[4] = {SPOREFLASK_OK, 0, 724, 155};
    static const uint32_t BOTH_TYPES[] = {2, SPOREFLASK_T_VAR, T_SIGNED_IN, 2, SPOREFLASK_T_VAR, T_OPEN};
    uint32_t mended[COUNT(NAMED)];
    hold(COUNT(NAMED) == COUNT(WORDS) && memcmp(NAMED, WORDS, sizeof WORDS) == 0, "a formula in names", "its words", COUNT(NAMED));
    hold_check("a formula in names", NAMED, COUNT(NAMED), 384, 16384, 4096, REFUSED, BOTH_TYPES, COUNT(BOTH_TYPES));
    hold_answer("a formula in names", NAMED, sizeof NAMED, 16400, REFUSED, BOTH_TYPES, COUNT(BOTH_TYPES));
    memcpy(mended, NAMED, sizeof mended);
    mended[COUNT(mended) - 3] = OPEN;
    hold_check("the mended formula in names", mended, COUNT(mended), 384, 16384, 4096, ACCEPTED, whole_report(mended, COUNT(mended)), 724);
}

/* ---- Threads: each calls with slices of its own, and gets the replies that a single caller gets */

enum { THREADS = 4, ROUNDS = 50, DESK_REPLY = SPOREFLASK_MOST_REPLY_BYTES };

/* What one caller has for a call of either function. */
struct slices {
    uint32_t work[SPOREFLASK_DESK_WORK], report[SPOREFLASK_DESK_REPORT], numbers[4];
    uint8_t reply[DESK_REPLY];
};

struct caller {
    pthread_t thread;
    size_t wrong; /* replies that are not those of a single caller */
    struct slices own;
};

static struct slices alone[COUNT(ASKED)];

static void ask_both(const struct asked *q, struct slices *s) {
    memset(s, 0xA5, sizeof *s);
    sporeflask_check(q->words, q->count, SPOREFLASK_DESK_BUDGET, s->work, SPOREFLASK_DESK_WORK, s->report, SPOREFLASK_DESK_REPORT,
                     s->numbers);
    sporeflask_answer((const uint8_t *)q->words, 4 * q->count, s->reply, sizeof s->reply);
}

static void *call_many(void *given) {
    struct caller *caller = given;
    for (size_t i = 0; i < ROUNDS * COUNT(ASKED); i++) {
        ask_both(&ASKED[i % COUNT(ASKED)], &caller->own);
        caller->wrong += memcmp(&caller->own, &alone[i % COUNT(ASKED)], sizeof caller->own) != 0;
    }
    return NULL;
}

static void threads(void) {
    static struct caller callers[THREADS];
    for (size_t i = 0; i < COUNT(ASKED); i++) ask_both(&ASKED[i], &alone[i]);
    for (size_t i = 0; i < THREADS; i++) {
        if (pthread_create(&callers[i].thread, NULL, call_many, &callers[i]) != 0) {
            fputs("no thread\n", stderr);
            exit(2);
        }
    }
    for (size_t i = 0; i < THREADS; i++) {
        pthread_join(callers[i].thread, NULL);
        hold(callers[i].wrong == 0, "threads at the same time", "the replies, wrong ones", callers[i].wrong);
    }
}

/* ---- The stack: a thread with exactly the header's bytes lives through the deepest questions known. tests/stack measures how deep
   they go (docs/STACK.md); here a stack that is too small is a crash. */

/* A question, and the reply to it in a thread; budget 0 stands for sporeflask_answer. */
struct deep {
    const char *label;
    uint32_t words[SPOREFLASK_MOST_WORDS];
    size_t count;
    uint32_t budget, numbers[4];
};

/* `before` n times, the expression inside, and `after` n times: a question of kind 1 without inputs, with n as large as its words allow.
   Without an `after` the question ends there, broken. */
static void nest(struct deep *d, const char *label, uint32_t before, const uint32_t *inside, size_t count, const uint32_t *after) {
    size_t types = after == NULL ? 0 : 2, room = SPOREFLASK_MOST_WORDS - 4 - types - count, n = after == NULL ? room : room / 2, at = 4;
    d->label = label;
    d->words[0] = SPOREFLASK_INFER;
    for (size_t i = 0; i < n; i++) d->words[at++] = before;
    for (size_t i = 0; i < count; i++) d->words[at++] = inside[i];
    for (size_t i = 0; after != NULL && i < n; i++) d->words[at++] = *after;
    d->words[3] = (uint32_t)(at - 4);
    d->count = at + types;
}

static void *call_deep(void *given) {
    static uint32_t work[MOST_WORK], report[WHOLE_ROOM];
    static uint8_t reply[DESK_REPLY];
    struct deep *d = given;
    if (d->budget == 0) {
        sporeflask_answer((const uint8_t *)d->words, 4 * d->count, reply, sizeof reply);
        memcpy(d->numbers, reply, sizeof d->numbers);
    } else {
        sporeflask_check(d->words, d->count, d->budget, work, MOST_WORK, report, WHOLE_ROOM, d->numbers);
    }
    return NULL;
}

static bool in_thread(struct deep *d, size_t bytes) {
    pthread_attr_t attributes;
    pthread_t thread;
    bool joined = pthread_attr_init(&attributes) == 0 && pthread_attr_setstacksize(&attributes, bytes) == 0 &&
                  pthread_create(&thread, &attributes, call_deep, d) == 0 && pthread_join(thread, NULL) == 0;
    pthread_attr_destroy(&attributes);
    return joined;
}

/* A call in a thread with these bytes of stack; `code` and `units` as document 01 has them for the question. */
static void hold_deep(struct deep *d, uint32_t budget, size_t bytes, uint32_t code, uint32_t units) {
    d->budget = budget;
    memset(d->numbers, 0xA5, sizeof d->numbers);
    hold(in_thread(d, bytes), d->label, "a thread with bytes of stack", bytes);
    hold(d->numbers[0] == code && d->numbers[3] == units, d->label, "the reply in a thread with bytes of stack", bytes);
}

static void deep_questions(void) {
    /* Two unknowns whose solutions lead to each other; see LOOP in tests/stack/families.py. */
    static const uint32_t LOOP[] = {18, 5, 5, 4, 2, 4, 2, 17, 21, 16, 5, 5, 4, 1, 4, 1, 23, 1}, ONE[] = {22, 1, 0}, INT = 1;
    static struct deep reading, tapp, ann, loop;
    nest(&reading, "App that never ends", SPOREFLASK_E_APP, NULL, 0, NULL);
    nest(&tapp, "TApp nested", SPOREFLASK_E_TAPP, ONE, COUNT(ONE), &INT);
    nest(&ann, "Ann nested", SPOREFLASK_E_ANN, ONE, COUNT(ONE), &INT);
    nest(&loop, "Ann nested, then a loop of solutions", SPOREFLASK_E_ANN, LOOP, COUNT(LOOP), &INT);
    hold_deep(&reading, 0, SPOREFLASK_ANSWER_STACK_BYTES, SPOREFLASK_BAD_SHAPE, 0);
    hold_deep(&tapp, 0, SPOREFLASK_ANSWER_STACK_BYTES, SPOREFLASK_BUDGET, 384);
    hold_deep(&reading, 1, SPOREFLASK_CHECK_STACK_BYTES(1), SPOREFLASK_BAD_SHAPE, 0);
    hold_deep(&reading, 384, SPOREFLASK_CHECK_STACK_BYTES(384), SPOREFLASK_BAD_SHAPE, 0);
    hold_deep(&tapp, 384, SPOREFLASK_CHECK_STACK_BYTES(384), SPOREFLASK_BUDGET, 384);
    hold_deep(&tapp, 700, SPOREFLASK_CHECK_STACK_BYTES(700), SPOREFLASK_BUDGET, 700);
    hold_deep(&tapp, 1024, SPOREFLASK_CHECK_STACK_BYTES(1024), SPOREFLASK_TYPE_APPLICATION_ERROR, 1020);
    hold_deep(&ann, 2048, SPOREFLASK_CHECK_STACK_BYTES(2048), SPOREFLASK_BUDGET, 2048);
    hold_deep(&loop, 4096, SPOREFLASK_CHECK_STACK_BYTES(4096), SPOREFLASK_BUDGET, 4096);
    hold_deep(&loop, 8192, SPOREFLASK_CHECK_STACK_BYTES(8192), SPOREFLASK_BUDGET, 8192);
}

int main(void) {
    make_noise();
    work_slice = new_slice();
    report_slice = new_slice();
    question_slice = new_slice();
    reply_slice = new_slice();
    cases();
    budgets();
    sizes();
    around_units();
    reply_sizes();
    longest_reports();
    question_bytes();
    question_words();
    numbers_of_names();
    numbers_of_kinds_and_codes();
    names_of_codes();
    numbers_of_rules();
    formula_in_names();
    threads();
    deep_questions();
    printf("%lu checks, %lu failed\n", checks, failed);
    return failed == 0 ? 0 : 1;
}
