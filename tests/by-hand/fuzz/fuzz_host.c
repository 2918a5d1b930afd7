/* The fuzz target: both exported functions on slices between pages that trap, their replies held to what document 01 says. */
#include <sanitizer/asan_interface.h>
#include <sys/mman.h>

#include "fuzz.h"

enum { PAGE = 4096, MOST_QUESTION = 4 * 4096, MOST_WORK = 32 * 8192 + 4096 + 128, MOST_REPORT = 1 << 16, FIELD = 0xA5 };

/* Memory between two pages that trap. */
struct arena {
    uint8_t *start;
    size_t bytes;
};
static struct arena question_arena, reply_arena, work_arena, report_arena, numbers_arena;

static struct arena lend(size_t most) {
    size_t bytes = (most + PAGE - 1) / PAGE * PAGE;
    uint8_t *p = mmap(NULL, bytes + 2 * PAGE, PROT_NONE, MAP_PRIVATE | MAP_ANONYMOUS, -1, 0);
    HOLD(p != MAP_FAILED && mprotect(p + PAGE, bytes, PROT_READ | PROT_WRITE) == 0);
    return (struct arena){p + PAGE, bytes};
}

/* A slice that lies `offset` bytes from one of its arena's pages; the rest is poisoned for the archive's memcpy and memset. */
static void *place(struct arena a, size_t bytes, int last, size_t offset) {
    uint8_t *p = last ? a.start + a.bytes - bytes - offset : a.start + offset;
    ASAN_POISON_MEMORY_REGION(a.start, a.bytes);
    ASAN_UNPOISON_MEMORY_REGION(p, bytes);
    return p;
}

static int all(const void *p, size_t bytes, uint8_t value) {
    const uint8_t *b = p;
    return bytes == 0 || (b[0] == value && memcmp(b, b + 1, bytes - 1) == 0);
}

/* One call of sporeflask_check: what is lent, and what came back. */
struct call {
    const uint32_t *question;
    size_t question_words;
    uint32_t budget;
    uint32_t *work;
    size_t work_words;
    uint32_t *report;
    size_t report_words;
    uint32_t *numbers;
};

/* Whether a report was written; with codes 1 to 7 none is. */
static int reports(uint32_t code) { return code == SPOREFLASK_OK || code >= SPOREFLASK_UNBOUND_VARIABLE; }

/* Codes 1 to 3 are decided by the sizes alone, in this order; 0 stands for any other. */
static uint32_t by_sizes(const struct call *c) {
    if (c->budget == 0 || c->budget > SPOREFLASK_MOST_BUDGET) return SPOREFLASK_BAD_BUDGET;
    if (c->work_words < SPOREFLASK_WORK_WORDS(c->budget)) return SPOREFLASK_SHORT_WORK;
    if (c->question_words == 0 || c->question_words > SPOREFLASK_MOST_WORDS) return SPOREFLASK_BAD_LENGTH;
    return 0;
}

static void hold_numbers(const struct call *c, uint32_t code) {
    const uint32_t at = c->numbers[1], length = c->numbers[2], units = c->numbers[3], refused = by_sizes(c);
    HOLD(c->numbers[0] == code);
    HOLD(refused ? code == refused : code == 0 || (code >= 4 && code <= 7) || (code >= 11 && code <= 15) || code == 17);
    HOLD(code >= 4 && code <= 5 ? at <= c->question_words : at == 0 || code == 11 || code == 14);
    HOLD(code != SPOREFLASK_RESERVED_NAME || (at < c->question_words && c->question[at] >= SPOREFLASK_FIRST_FRESH_NAME));
    HOLD(reports(code) ? length <= c->report_words : code == SPOREFLASK_NO_ROOM ? length > c->report_words : length == 0);
    HOLD(code >= 1 && code <= 5 ? units == 0 : code == SPOREFLASK_BUDGET ? units == c->budget : units >= 1 && units <= c->budget);
}

static void hold_memory(const struct call *c, uint32_t code, uint8_t fill) {
    size_t used = code >= 1 && code <= 5 ? 0 : SPOREFLASK_WORK_WORDS(c->budget);
    size_t written = reports(code) ? c->numbers[2] : 0;
    HOLD(all(c->work, 4 * used, 0));
    HOLD(all(c->work + used, 4 * (c->work_words - used), fill));
    HOLD(all(c->report + written, 4 * (c->report_words - written), (uint8_t)~fill));
}

static uint32_t call_check(const struct call *c, uint8_t fill) {
    memset(c->work, fill, 4 * c->work_words);
    memset(c->report, (uint8_t)~fill, 4 * c->report_words);
    memset(c->numbers, FIELD, 16);
    uint32_t code = sporeflask_check(c->question, c->question_words, c->budget, c->work, c->work_words, c->report, c->report_words, c->numbers);
    hold_numbers(c, code);
    hold_memory(c, code, fill);
    return code;
}

/* A first call's four numbers and report. */
static uint32_t kept[MOST_REPORT], numbers[4];

static void hold_same(const struct call *c) {
    HOLD(memcmp(numbers, c->numbers, 16) == 0);
    HOLD(!reports(numbers[0]) || memcmp(kept, c->report, 4 * (size_t)numbers[2]) == 0);
}

/* Two calls with other words in work and report must give the same. */
static void ask_twice(const struct call *c, uint8_t fill) {
    uint32_t code = call_check(c, fill);
    size_t written = reports(code) ? c->numbers[2] : 0;
    memcpy(kept, c->report, 4 * written);
    memcpy(numbers, c->numbers, 16);
    look_at_report(code, numbers[3], kept, written);
    call_check(c, (uint8_t)(fill + 1));
    hold_same(c);
}

/* Order 5: at another budget, with as much room, the same where it is no less than the units, 6 where it is less. 1 and 2 tell of no other
   budget, 6 of no larger one. */
static void ask_at_another_budget(struct call *c, const struct chosen *to) {
    const uint32_t code = numbers[0], units = numbers[3], budgets[] = {units - 1, units, units + 1, SPOREFLASK_MOST_BUDGET};
    c->budget = budgets[to->elsewhere % 4];
    if (code == SPOREFLASK_BAD_BUDGET || code == SPOREFLASK_SHORT_WORK || (code == SPOREFLASK_BUDGET && c->budget >= units)) return;
    if (c->budget == 0 || c->budget > SPOREFLASK_MOST_BUDGET) return;
    c->work_words = SPOREFLASK_WORK_WORDS(c->budget);
    c->work = place(work_arena, 4 * c->work_words, to->sides & 2, 0);
    if (call_check(c, to->fill[2]) == SPOREFLASK_BUDGET)
        HOLD(c->budget < units);
    else
        hold_same(c);
}

static void fuzz_check(const struct chosen *to, const uint8_t *bytes, size_t count) {
    struct call c = {.question_words = count / 4, .budget = to->budget | (uint32_t)to->high_budget << 24};
    uint32_t *question = place(question_arena, 4 * c.question_words, to->sides & 1, 0);
    memcpy(question, bytes, 4 * c.question_words);
    c.question = question;
    int64_t work = (int64_t)SPOREFLASK_WORK_WORDS(c.budget <= SPOREFLASK_MOST_BUDGET ? c.budget : 0) + to->more_work;
    c.work_words = to->more_work == -128 ? 0 : (size_t)work;
    c.report_words = to->report_words;
    c.work = place(work_arena, 4 * c.work_words, to->sides & 2, 0);
    c.report = place(report_arena, 4 * c.report_words, to->sides & 4, 0);
    c.numbers = place(numbers_arena, 16, to->sides & 8, 0);
    ask_twice(&c, to->fill[0]);
    ask_at_another_budget(&c, to);
    HOLD(memcmp(question, bytes, 4 * c.question_words) == 0);
}

/* The same question by sporeflask_check with the desk's sizes must give the same words. */
static void hold_to_check(const uint8_t *bytes, size_t count, const uint8_t *reply, size_t size, uint32_t code, size_t written) {
    const size_t words = (size - 16) / 4, room = words < SPOREFLASK_DESK_REPORT ? words : SPOREFLASK_DESK_REPORT;
    struct call c = {.budget = SPOREFLASK_DESK_BUDGET, .question_words = count / 4, .work_words = SPOREFLASK_DESK_WORK, .report_words = room};
    uint32_t *question = place(question_arena, count, 1, 0);
    memcpy(question, bytes, count);
    c.question = question;
    c.work = place(work_arena, 4 * c.work_words, 1, 0);
    c.report = place(report_arena, 4 * room, 1, 0);
    c.numbers = place(numbers_arena, 16, 1, 0);
    HOLD(call_check(&c, 0x5A) == code);
    HOLD(memcmp(reply, c.numbers, 16) == 0 && memcmp(reply + 16, c.report, written) == 0);
}

static void fuzz_answer(const struct chosen *to, const uint8_t *bytes, size_t count) {
    const uint8_t fill = to->fill[1];
    const size_t size = to->reply_bytes;
    uint8_t *question = place(question_arena, count, to->sides & 1, to->offsets & 3);
    uint8_t *reply = place(reply_arena, size, to->sides & 16, to->offsets >> 2 & 3);
    memcpy(question, bytes, count);
    memset(reply, fill, size);
    uint32_t code = sporeflask_answer(question, count, reply, size);
    HOLD(memcmp(question, bytes, count) == 0);
    HOLD((code == SPOREFLASK_SHORT_REPLY) == (size < 16));
    if (size < 16) {
        HOLD(all(reply, size, fill));
        return;
    }
    uint32_t told[4];
    memcpy(told, reply, 16);
    size_t written = reports(code) ? 4 * (size_t)told[2] : 0;
    HOLD(told[0] == code && 16 + written <= size);
    HOLD(all(reply + 16 + written, size - 16 - written, fill));
    if (count % 4 == 0)
        hold_to_check(bytes, count, reply, size, code, written);
    else
        HOLD(code == SPOREFLASK_BAD_LENGTH && all(reply + 4, 12, 0));
}

int LLVMFuzzerInitialize(int *argc, char ***argv) {
    (void)argc, (void)argv;
    question_arena = lend(MOST_QUESTION + 4);
    reply_arena = lend((1 << 16) + 4);
    work_arena = lend(4 * MOST_WORK);
    report_arena = lend(4 * MOST_REPORT);
    numbers_arena = lend(16);
    watch_blocks();
    return 0;
}

int LLVMFuzzerTestOneInput(const uint8_t *data, size_t size) {
    struct chosen to;
    if (size < sizeof to || size - sizeof to > MOST_QUESTION) return -1;
    memcpy(&to, data, sizeof to);
    data += sizeof to, size -= sizeof to;
    if ((to.functions & 3) != 1) fuzz_check(&to, data, size);
    if ((to.functions & 3) != 2) fuzz_answer(&to, data, size);
    return 0;
}
