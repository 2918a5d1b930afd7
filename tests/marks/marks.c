/* The stored monotype marks of a run beside a walk: asks each question of standard input, looks at work when the report's first word is
   written, and goes from the tree's nodes through every type that they and their contexts refer to (docs/LAYOUT.md). A line in: WORD.. ; the
   last line out: types looked at by sort, and how many marks differ. With an argument N, the N-th mark that is looked at is turned round in
   that copy of work, and all of its question is walked again, so that one differs. */
#define _GNU_SOURCE
#include <signal.h>
#include <stdbool.h>
#include <stdio.h>
#include <stdlib.h>
#include <string.h>
#include <sys/mman.h>

#include "sporeflask.h"

enum { MOST_LINE = 1 << 20, ROOM = 1 << 16, LARGEST_PAGE = 1 << 16, BUDGET = SPOREFLASK_MOST_BUDGET, WORK = 32 * BUDGET + 4096 };
enum { BASE = 2048, ENDS = 16, MARK = 4096, NODE = 12, ENTRY = 4 };
enum { INT = 1, BOOL, VAR, ETVAR, ARROW, FORALL };
enum { WRITTEN_LEAF, WRITTEN_ARROW, WRITTEN_HOLDER, WRITTEN_FORALL, MADE_BASE, MADE_UNKNOWN, MADE_ARROW, MADE_HOLDER, MADE_FORALL, SORTS };

static uint32_t question[MOST_LINE], work[WORK], seen[WORK], numbers[4];
static _Alignas(LARGEST_PAGE) uint32_t report[ROOM];
static size_t words, looked[SORTS], wrong, seen_marks, turned;
static uint32_t *turned_word;
static bool written;
/* what a walk found of a reference: 0 not walked yet, 1 a monotype, 2 it holds a Forall */
static uint8_t walked[BASE + WORK];

static void at_first_word(int number, siginfo_t *fault, void *context) {
    (void)number, (void)context;
    uint32_t *word = fault->si_addr;
    if (written || word < report || word >= report + ROOM) abort();
    written = true;
    memcpy(seen, work, sizeof work);
    mprotect(report, sizeof report, PROT_READ | PROT_WRITE);
}

static void catch_first_word(void) {
    struct sigaction action = {.sa_sigaction = at_first_word, .sa_flags = SA_SIGINFO};
    if (sigaction(SIGSEGV, &action, NULL) != 0) abort();
}

/* Past the type that is written at place p, and whether a Forall is in it: read from the words alone. */
static uint32_t past_type(uint32_t p, bool *holds) {
    switch (question[p]) {
    case INT: case BOOL: return p + 1;
    case VAR: case ETVAR: return p + 2;
    case ARROW: return past_type(past_type(p + 1, holds), holds);
    case FORALL: *holds = true; return past_type(p + 2, holds);
    default: abort();
    }
}

/* A mark, held to the walk; a code, or an end, is what the word has without it. */
static void look(uint32_t *word, uint32_t plain, bool holds, int sort) {
    looked[sort]++;
    if (++seen_marks == turned) turned_word = word;
    if (*word != plain + (holds ? 0 : MARK)) wrong++;
}

static bool holds_forall(uint32_t r);

/* Of a type of the question: the type itself and all its parts. */
static bool written_type(uint32_t p) {
    bool holds = false;
    uint32_t end = past_type(p, &holds), code = question[p];
    look(&seen[ENDS + p], end, holds, code == FORALL ? WRITTEN_FORALL : code < ARROW ? WRITTEN_LEAF : holds ? WRITTEN_HOLDER : WRITTEN_ARROW);
    if (code == ARROW) {
        bool unused;
        holds_forall(p + 1);
        holds_forall(past_type(p + 1, &unused));
    } else if (code == FORALL)
        holds_forall(p + 2);
    return holds;
}

/* Of a record: by its parts. */
static bool made_type(uint32_t i) {
    uint32_t code = seen[i] % MARK;
    bool holds = code == FORALL;
    if (code == ARROW) {
        bool left = holds_forall(seen[i + 1]), right = holds_forall(seen[i + 2]);
        holds = left || right;
    } else if (code == FORALL)
        holds_forall(seen[i + 2]);
    else if (code != INT && code != BOOL && code != ETVAR)
        abort();
    look(&seen[i], code, holds, code == FORALL ? MADE_FORALL : code == ETVAR ? MADE_UNKNOWN : code < ARROW ? MADE_BASE : holds ? MADE_HOLDER : MADE_ARROW);
    return holds;
}

static bool holds_forall(uint32_t r) {
    if (r >= BASE + WORK) abort();
    if (walked[r] == 0) walked[r] = 1 + (r < BASE ? written_type(r) : made_type(r - BASE));
    return walked[r] == 2;
}

static void context(uint32_t at, uint32_t entries) {
    for (; entries > 0; entries--, at += ENTRY) holds_forall(seen[at + 2]);
}

/* The nodes from the end of work down: what each of their judgements refers to. */
static void tree(void) {
    memset(walked, 0, sizeof walked);
    for (uint32_t *node = seen + WORK - NODE; node >= seen && node[0] != 0; node -= NODE) {
        uint32_t kind = node[10];
        context(node[3], node[4]);
        context(node[7], node[8]);
        if (kind >= 3) holds_forall(node[5]);
        if (kind != 1 && kind != 3) holds_forall(node[6]);
        if (kind == 1 || kind == 3) holds_forall(node[9]);
    }
}

static void ask(void) {
    written = false;
    mprotect(report, sizeof report, PROT_READ);
    uint32_t code = sporeflask_check(question, words, BUDGET, work, WORK, report, ROOM, numbers);
    mprotect(report, sizeof report, PROT_READ | PROT_WRITE);
    if (!written || code != 0) return;
    tree();
    if (turned_word != NULL) {
        *turned_word ^= MARK;
        turned_word = NULL;
        tree();
    }
}

int main(int count, char **arguments) {
    static char line[MOST_LINE];
    turned = count > 1 ? strtoul(arguments[1], NULL, 10) : 0;
    catch_first_word();
    while (fgets(line, sizeof line, stdin)) {
        char *at = line, *end;
        for (words = 0; question[words] = (uint32_t)strtoul(at, &end, 10), end != at; at = end) words++;
        ask();
    }
    for (int i = 0; i < SORTS; i++) printf("%zu ", looked[i]);
    printf("%zu\n", wrong);
    return 0;
}
