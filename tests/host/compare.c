/* Questions with the replies they must have, as frames on standard input, asked of the exported functions. See README.md.
   A frame is u32 words: budget, work words, report words, question words, the question; code, at, length, units, report words, the
   report. All of it is held: the numbers, the report and what follows it, work, the question, and guards round every slice. Then the same
   question is asked at another budget, where what it gets follows from the frame. */
#include "slices.h"
#include "sporeflask.h"

/* The most of a frame. No budget needs more work; longer work is clipped by who writes frames, since it changes no reply. */
enum { MOST_QUESTION = 4096, MOST_WORK = 266240 + 512, MOST_REPORT = 65536, MOST_BUDGET = 8192, CODES = 18 };

/* A line is printed after each so many frames, since a long run takes an hour. */
enum { FRAMES_A_LINE = 1000000 };

struct frame {
    struct { uint32_t budget, work, room, count; } sizes;
    uint32_t question[MOST_QUESTION];
    struct { uint32_t reply[4], length; } wanted;
    uint32_t report[MOST_REPORT];
};

static struct frame frame;
static struct slice work, report, question, reply;
static const uint8_t zeros[MOST_SLICE];
static unsigned long frames, differences, checked[CODES], answered[CODES], elsewhere[CODES];

static void print_words(const char *before, const uint32_t *words, size_t count) {
    fputs(before, stdout);
    for (size_t i = 0; i < count; i++) printf(" %lu", (unsigned long)words[i]);
}

/* Counts a difference, at most one for a call; the first is printed as a recorded line. */
static void differs(const char *function, const char *what, const uint32_t *got, size_t count) {
    if (differences++ > 0) return;
    printf("%s differs in %s, frame %lu:\n%lu %lu %lu |", function, what, frames, (unsigned long)frame.sizes.budget,
           (unsigned long)frame.sizes.work, (unsigned long)frame.sizes.room);
    print_words("", frame.question, frame.sizes.count);
    print_words(" |", frame.wanted.reply, 4);
    print_words(" |", frame.report, frame.wanted.length);
    print_words("\n  got", got, count);
    putchar('\n');
}

/* False at the end of the input, which only a frame's first words may find. */
static bool read_words(void *to, size_t count, bool first) {
    size_t got = fread(to, 4, count, stdin);
    if (got == count) return true;
    if (first && got == 0 && feof(stdin)) return false;
    fputs("a frame that breaks off\n", stderr);
    exit(2);
}

static bool read_frame(void) {
    if (!read_words(&frame.sizes, 4, true)) return false;
    bool fits = frame.sizes.count <= MOST_QUESTION && frame.sizes.work <= MOST_WORK && frame.sizes.room <= MOST_REPORT;
    if (fits) {
        read_words(frame.question, frame.sizes.count, false);
        read_words(&frame.wanted, 5, false);
        fits = frame.wanted.length <= frame.sizes.room && frame.wanted.reply[0] < CODES;
    }
    if (!fits) {
        fputs("a frame beyond its limits\n", stderr);
        exit(2);
    }
    read_words(frame.report, frame.wanted.length, false);
    return true;
}

static bool question_kept(void) {
    return kept(&question, question.bytes) && memcmp(question.at, frame.question, question.bytes) == 0;
}

static void hold_check(unsigned long *calls) {
    uint32_t numbers[4] = {77, 77, 77, 77}, code = frame.wanted.reply[0];
    size_t written = 4 * (size_t)frame.wanted.length;
    size_t cleared = code >= 1 && code <= 5 ? 0 : 4 * SPOREFLASK_WORK_WORDS(frame.sizes.budget);
    lend(&question, 4 * (size_t)frame.sizes.count, 0);
    lend(&work, 4 * (size_t)frame.sizes.work, 0);
    lend(&report, 4 * (size_t)frame.sizes.room, 0);
    memcpy(question.at, frame.question, question.bytes);
    uint32_t got = sporeflask_check(words_of(&question), frame.sizes.count, frame.sizes.budget, words_of(&work), frame.sizes.work,
                                    words_of(&report), frame.sizes.room, numbers);
    calls[code]++;
    if (got != code || memcmp(numbers, frame.wanted.reply, 16) != 0) {
        differs("sporeflask_check", "the numbers", numbers, 4);
    } else if (memcmp(report.at, frame.report, written) != 0) {
        differs("sporeflask_check", "the report", words_of(&report), frame.wanted.length);
    } else if (!kept(&report, written)) {
        differs("sporeflask_check", "the report slice past the report", words_of(&report), frame.sizes.room);
    } else if (cleared > work.bytes || memcmp(work.at, zeros, cleared) != 0) {
        differs("sporeflask_check", "work that must end as 0", words_of(&work), frame.sizes.work);
    } else if (!kept(&work, cleared)) {
        differs("sporeflask_check", "work that must stay", words_of(&work), frame.sizes.work);
    } else if (!question_kept()) {
        differs("sporeflask_check", "the question", words_of(&question), frame.sizes.count);
    }
}

/* Reply bytes beyond whole words, and slices off a word's boundary, vary from frame to frame. */
static void hold_answer(void) {
    uint32_t code = frame.wanted.reply[0], got[MOST_REPORT + 4];
    size_t written = 16 + 4 * (size_t)frame.wanted.length;
    lend(&question, 4 * (size_t)frame.sizes.count, frames / 16 % 4);
    lend(&reply, 16 + 4 * (size_t)frame.sizes.room + frames % 4, frames / 4 % 4);
    memcpy(question.at, frame.question, question.bytes);
    uint32_t returned = sporeflask_answer(question.at, question.bytes, reply.at, reply.bytes);
    answered[code]++;
    memcpy(got, reply.at, written);
    if (returned != code || memcmp(got, frame.wanted.reply, 16) != 0) {
        differs("sporeflask_answer", "the numbers", got, 4);
    } else if (memcmp(got + 4, frame.report, written - 16) != 0) {
        differs("sporeflask_answer", "the report", got + 4, frame.wanted.length);
    } else if (!kept(&reply, written)) {
        differs("sporeflask_answer", "the reply past the report", got, 4);
    } else if (!question_kept()) {
        differs("sporeflask_answer", "the question", got, 4);
    }
}

/* Makes the frame that of its question at another budget, one of some that vary from frame to frame. Order 5: the same reply where the budget
   is no less than the reply's units, 6 where it is less. False where this budget is not allowed, or where the frame does not tell of it: 1 and 2
   of none, 6 of no larger one. */
static bool at_another_budget(void) {
    uint32_t *reply = frame.wanted.reply, units = reply[3], given = frame.sizes.budget, most = MOST_BUDGET;
    const uint32_t budgets[] = {units - 1, units, units + 1, given - 1, given + 1, 1, most};
    uint32_t budget = budgets[frames % (sizeof budgets / sizeof *budgets)];
    if (reply[0] == 1 || reply[0] == 2 || (reply[0] == 6 && budget >= given) || budget == 0 || budget > most) return false;
    frame.sizes.budget = budget;
    frame.sizes.work = 32 * budget + 4096;
    if (budget < units) {
        memcpy(reply, (const uint32_t[]){6, 0, 0, budget}, 16);
        frame.wanted.length = 0;
    }
    return true;
}

/* Whether sporeflask_answer, whose budget and work are its own, must give this reply too. In numbers: a wrong name in the header must not
   keep it from being asked. */
static bool at_the_desk(void) {
    return frame.sizes.budget == 384 && frame.sizes.work == 16384 && frame.sizes.room <= 4096;
}

/* Prints the calls of a function by code; how many there were. */
static unsigned long print_codes(const char *function, const unsigned long *codes) {
    unsigned long all = 0;
    for (size_t code = 0; code < CODES; code++) all += codes[code];
    printf("%s: %lu calls; by code", function, all);
    for (size_t code = 0; code < CODES; code++) {
        if (codes[code] > 0) printf(" %zu: %lu", code, codes[code]);
    }
    putchar('\n');
    return all;
}

int main(void) {
    make_noise();
    work = new_slice();
    report = new_slice();
    question = new_slice();
    reply = new_slice();
    setvbuf(stdin, NULL, _IOFBF, 1 << 20);
    for (; read_frame(); frames++) {
        hold_check(checked);
        if (at_the_desk()) hold_answer();
        if (at_another_budget()) hold_check(elsewhere);
        if ((frames + 1) % FRAMES_A_LINE == 0) {
            printf("after %lu frames: %lu differences\n", frames + 1, differences);
            fflush(stdout);
        }
    }
    unsigned long calls = print_codes("sporeflask_check", checked) + print_codes("sporeflask_answer", answered) +
                          print_codes("sporeflask_check at another budget", elsewhere);
    /* nothing asked is a failure */
    unsigned long failed = calls == 0 ? 1 : differences;
    printf("%lu passed, %lu failed\n", calls - differences, failed);
    return failed == 0 ? 0 : 1;
}
