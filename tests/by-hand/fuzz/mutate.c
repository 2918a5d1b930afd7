/* Mutations that keep a question's layout: items made, copied, pumped and exchanged, counts mended; libFuzzer's own for the rest. */
#include "fuzz.h"

size_t LLVMFuzzerMutate(uint8_t *data, size_t size, size_t max_size);

enum { MOST = 4096, HEADER = sizeof(struct chosen), TRIES = 16 };

struct words {
    uint32_t w[MOST];
    size_t n;
};

/* The end of an item of one sort. */
typedef size_t past(const uint32_t *, size_t, size_t);

static uint32_t state;

static uint32_t roll(uint32_t n) {
    state ^= state << 13, state ^= state >> 17, state ^= state << 5;
    return state % n;
}

static void put(struct words *to, uint32_t word) {
    if (to->n < MOST) to->w[to->n++] = word;
}

static void put_all(struct words *to, const uint32_t *from, size_t n) {
    while (n-- > 0) put(to, *from++);
}

/* A name out of few; rarely the last that may be written, or one past it. */
static uint32_t name(void) { return roll(64) ? 1 + roll(4) : 999999 + roll(2); }

static void make_type(struct words *to, uint32_t depth) {
    uint32_t code = 1 + roll(depth ? 6 : 4);
    put(to, code);
    if (code == VAR || code == ETVAR || code == FORALL) put(to, name());
    if (code == ARROW) make_type(to, depth - 1);
    if (code >= ARROW) make_type(to, depth - 1);
}

static void make_expr(struct words *to, uint32_t depth) {
    static const uint8_t leaves[] = {EVAR, LITINT, LITBOOL};
    static const uint8_t exprs[] = {0, 2, 1, 1, 1, 1, 0, 0, 2, 3, 2};
    uint32_t code = depth ? EVAR + roll(11) : leaves[roll(3)];
    put(to, code);
    if (code == EVAR || code == ABS || code == TABS || code == LET) put(to, name());
    if (code == ABS) make_type(to, 1);
    if (code == BINOP) put(to, 1 + roll(12));
    if (code == LITINT || code == LITBOOL) put(to, roll(2));
    if (code == LITINT) put(to, roll(2));
    for (uint32_t i = 0; i < exprs[code - EVAR]; i++) make_expr(to, depth - 1);
    if (code == TAPP || code == ANN) make_type(to, 2);
}

static void make_entry(struct words *to, uint32_t depth) {
    uint32_t code = VARBND + roll(5);
    put(to, code);
    put(to, name());
    if (code == VARBND || code == SETVARBND) make_type(to, depth);
}

/* Which of the four sections a kind fills: context, expression, left, right. */
static int fills(uint32_t kind, int section) {
    static const uint8_t filled[] = {0x3, 0xB, 0x7, 0xD, 0xD, 0xD, 0x2};
    return kind >= 1 && kind <= 7 && (filled[kind - 1] >> section & 1);
}

/* Where the section's count stands; 0 where the question's counts do not add up. */
static size_t section_at(const struct words *q, int section) {
    size_t at = 2;
    for (int i = 0; i <= section; i++) {
        if (at >= q->n || q->w[at] > q->n - at - 1) return 0;
        if (i < section) at += 1 + q->w[at];
    }
    return at;
}

/* Puts words in the place of those from `from` to `to`, and mends the count that stands at `count`. */
static void splice(struct words *q, size_t count, size_t from, size_t to, const struct words *by) {
    struct words tail = {.n = 0};
    put_all(&tail, q->w + to, q->n - to);
    if (from + by->n + tail.n > MOST) return;
    q->w[count] += (uint32_t)by->n - (uint32_t)(to - from);
    q->n = from;
    put_all(q, by->w, by->n);
    put_all(q, tail.w, tail.n);
}

/* A random item of one sort from `from` on: true, and where it stands. */
static int find_item(const struct words *q, past *sort, size_t from, size_t end, size_t *at, size_t *to) {
    for (int i = 0; i < TRIES && from < end; i++) {
        *at = from + roll((uint32_t)(end - from));
        *to = sort(q->w, *at, end);
        if (*to != 0) return 1;
    }
    return 0;
}

/* An item that holds an item of its sort, written with what stands round the inner one many times. */
static void pump(const struct words *q, past *sort, size_t at, size_t to, struct words *by) {
    size_t in, out, times = 1 + roll(roll(4) ? 4 : 400);
    if (!find_item(q, sort, at + 1, to, &in, &out)) return;
    for (size_t i = 0; i < times; i++) put_all(by, q->w + at, in - at);
    put_all(by, q->w + in, out - in);
    for (size_t i = 0; i < times; i++) put_all(by, q->w + out, to - out);
}

/* Another item in the place of one: made, from the donor, pumped, or a part of itself. */
static void exchange(struct words *q, const struct words *donor, int section) {
    size_t count = section_at(q, section), at, to, from, end;
    if (count == 0) return;
    past *sort = roll(3) == 0 ? past_type : section == 0 ? past_entry : section == 1 ? past_expr : past_type;
    if (!find_item(q, sort, count + 1, count + 1 + q->w[count], &at, &to)) return;
    struct words by = {.n = 0};
    uint32_t how = roll(4);
    if (how == 0)
        (sort == past_type ? make_type : sort == past_expr ? make_expr : make_entry)(&by, roll(4));
    else if (how == 1)
        pump(q, sort, at, to, &by);
    else if (how == 2 && find_item(q, sort, at + 1, to, &from, &end))
        put_all(&by, q->w + from, end - from);
    else if (find_item(donor, sort, 2, donor->n, &from, &end))
        put_all(&by, donor->w + from, end - from);
    if (by.n > 0) splice(q, count, at, to, &by);
}

/* An entry more at either end of the context, or none. */
static void change_context(struct words *q) {
    size_t count = section_at(q, 0);
    if (count == 0) return;
    struct words by = {.n = 0};
    if (roll(8)) make_entry(&by, 2);
    size_t end = count + 1 + q->w[count], at = roll(2) ? count + 1 : end;
    splice(q, count, by.n ? at : count + 1, by.n ? at : end, &by);
}

/* Another kind or mode, its sections filled as it wants them. */
static void change_kind(struct words *q) {
    if (section_at(q, 3) == 0) q->n = 0;
    while (q->n < 6) put(q, 0);
    q->w[0] = 1 + roll(7);
    q->w[1] = roll(2);
    for (int section = 0; section < 4; section++) {
        size_t count = section_at(q, section);
        struct words by = {.n = 0};
        if (count == 0) return;
        if (fills(q->w[0], section) && (section == 0 || q->w[count] > 0)) continue;
        if (fills(q->w[0], section)) (section == 1 ? make_expr : make_type)(&by, 3);
        splice(q, count, count + 1, count + 1 + q->w[count], &by);
    }
}

static void change_word(struct words *q) {
    if (q->n > 0) q->w[roll((uint32_t)q->n)] = roll(4) ? name() : roll(40);
}

static void change_question(struct words *q, const struct words *donor) {
    for (uint32_t times = 1 + roll(3); times > 0; times--) {
        uint32_t how = roll(16);
        if (how == 0) change_kind(q);
        else if (how < 3) change_context(q);
        else if (how < 5) change_word(q);
        else if (how == 5) q->n = q->n ? roll((uint32_t)q->n + 1) : 0;
        else exchange(q, donor, (int)roll(4));
    }
}

/* Small changes of the sizes, towards their edges. */
static void change_sizes(struct chosen *to) {
    static const uint16_t budgets[] = {0, 1, 2, 16, 64, 384, 1024, 8192, 8193};
    switch (roll(8)) {
    case 0: to->budget = budgets[roll(9)]; break;
    case 1: to->budget = (uint16_t)(to->budget + roll(3) - 1); break;
    case 2: to->more_work = (int8_t)(roll(4) ? 0 : roll(256)); break;
    case 3: to->report_words = (uint16_t)roll(roll(2) ? 64 : 1 << 16); break;
    case 4: to->report_words = (uint16_t)(to->report_words + roll(3) - 1); break;
    case 5: to->reply_bytes = (uint16_t)roll(roll(2) ? 128 : 17000); break;
    case 6: to->sides = (uint8_t)roll(32), to->offsets = (uint8_t)roll(16), to->elsewhere = (uint8_t)roll(4); break;
    default: to->functions = (uint8_t)roll(4), to->high_budget = roll(32) == 0;
    }
}

static void unpack(const uint8_t *data, size_t size, struct words *q) {
    q->n = size > HEADER ? (size - HEADER) / 4 : 0;
    if (q->n > MOST) q->n = MOST;
    if (q->n > 0) memcpy(q->w, data + HEADER, 4 * q->n);
}

/* Rarely some bytes more, so that the question isn't whole words. */
static size_t odd_end(uint8_t *data, size_t size, size_t max_size) {
    size_t more = roll(16) ? 0 : roll(4);
    if (size + more > max_size) return size;
    memset(data + size, 0, more);
    return size + more;
}

size_t LLVMFuzzerCustomMutator(uint8_t *data, size_t size, size_t max_size, unsigned int seed) {
    state = seed | 1;
    if (max_size < HEADER || roll(16) == 0) return LLVMFuzzerMutate(data, size, max_size);
    static struct words q;
    struct chosen to = {.budget = 64, .functions = 3, .report_words = 1024, .reply_bytes = 16400};
    unpack(data, size, &q);
    if (size >= HEADER) memcpy(&to, data, HEADER);
    if (roll(4) == 0) change_sizes(&to);
    else change_question(&q, &q);
    if (q.n > (max_size - HEADER) / 4) q.n = (max_size - HEADER) / 4;
    memcpy(data, &to, HEADER);
    memcpy(data + HEADER, q.w, 4 * q.n);
    return odd_end(data, HEADER + 4 * q.n, max_size);
}

/* The second input's items in the first one's question. */
size_t LLVMFuzzerCustomCrossOver(const uint8_t *data1, size_t size1, const uint8_t *data2, size_t size2, uint8_t *out, size_t max_size,
                                 unsigned int seed) {
    static struct words q, donor;
    state = seed | 1;
    if (size1 < HEADER || max_size < HEADER) return 0;
    unpack(data1, size1, &q);
    unpack(data2, size2, &donor);
    for (int i = 0; i < 4; i++) exchange(&q, &donor, (int)roll(4));
    if (q.n > (max_size - HEADER) / 4) q.n = (max_size - HEADER) / 4;
    memcpy(out, data1, HEADER);
    memcpy(out + HEADER, q.w, 4 * q.n);
    return HEADER + 4 * q.n;
}
