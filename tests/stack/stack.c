/* How deep a call goes: asks each question of standard input on a painted stack, at each budget that is an argument and by
   sporeflask_answer. A line in: NAME WORD.. ; a line out: NAME, the bytes of stack at each budget, those of sporeflask_answer, and those in
   use at the largest budget from the report's first word on (0 where none is written). The first line out has what the header gives to
   every budget from 1 on, and to sporeflask_answer. */
#define _GNU_SOURCE
#include <signal.h>
#include <stdbool.h>
#include <stdio.h>
#include <stdlib.h>
#include <string.h>
#include <sys/mman.h>
#include <ucontext.h>

#include "sporeflask.h"

enum { STACK = 8 << 20, PAGE = 4096, PAINT = 0xA7, MOST_LINE = 1 << 20, ROOM = 1 << 16, LARGEST_PAGE = 1 << 16, RED_ZONE = 128, GAP = 16 * PAGE };

static uint8_t *stack, *top, painted[PAGE];
static ucontext_t here, there;
static uint32_t question[MOST_LINE], work[32 * 8192 + 4096], numbers[4], budget;
static _Alignas(LARGEST_PAGE) uint32_t report[ROOM];
static bool written;
static uint8_t reply[SPOREFLASK_MOST_REPLY_BYTES];
static size_t words;

/* Runs on the painted stack; budget 0 stands for sporeflask_answer. */
static void ask(void) {
    top = __builtin_frame_address(0);
    if (budget == 0)
        sporeflask_answer((const uint8_t *)question, 4 * words, reply, sizeof reply);
    else
        sporeflask_check(question, words, budget, work, SPOREFLASK_WORK_WORDS(budget), report, ROOM, numbers);
}

static void make_stack(void) {
    stack = mmap(NULL, STACK + PAGE, PROT_NONE, MAP_PRIVATE | MAP_ANONYMOUS, -1, 0);
    if (stack == MAP_FAILED || mprotect(stack + PAGE, STACK, PROT_READ | PROT_WRITE) != 0) abort();
    stack += PAGE;
    memset(stack, PAINT, STACK);
    memset(painted, PAINT, PAGE);
}

/* The lowest byte that is no longer as painted; no call leaves out more than a gap. */
static uint8_t *lowest(void) {
    uint8_t *at = stack + STACK;
    for (uint8_t *page = at - PAGE; page >= stack && at - page <= GAP; page -= PAGE)
        if (memcmp(page, painted, PAGE) != 0) at = page;
    while (*at == PAINT) at++;
    return at;
}

/* The bytes of stack that one call takes, its caller's frame included. */
static size_t depth_at(uint32_t with) {
    budget = with;
    getcontext(&there);
    there.uc_stack.ss_sp = stack;
    there.uc_stack.ss_size = STACK;
    there.uc_link = &here;
    makecontext(&there, ask, 0);
    swapcontext(&here, &there);
    uint8_t *at = lowest();
    memset(at, PAINT, (size_t)(stack + STACK - at));
    return (size_t)(top - at);
}

/* The report's first word, of a report that can't be written: paints all that is not in use then, and lets it be written. */
static void at_first_word(int number, siginfo_t *fault, void *context) {
    (void)number;
    uint8_t *word = fault->si_addr, *use = (uint8_t *)((ucontext_t *)context)->uc_mcontext.gregs[REG_RSP] - RED_ZONE, *at = lowest();
    if (written || word < (uint8_t *)report || word >= (uint8_t *)(report + ROOM)) abort();
    written = true;
    if (at < use) memset(at, PAINT, (size_t)(use - at));
    mprotect(report, sizeof report, PROT_READ | PROT_WRITE);
}

/* The bytes of stack in use from the report's first word on; 0 where none is written. */
static size_t depth_of_writing(uint32_t with) {
    written = false;
    mprotect(report, sizeof report, PROT_READ);
    size_t depth = depth_at(with);
    mprotect(report, sizeof report, PROT_READ | PROT_WRITE);
    return written ? depth : 0;
}

/* Faults are handled on a stack of their own: this one is painted. */
static void catch_first_word(void) {
    static uint8_t aside[1 << 16];
    stack_t other = {.ss_sp = aside, .ss_size = sizeof aside};
    struct sigaction action = {.sa_sigaction = at_first_word, .sa_flags = SA_SIGINFO | SA_ONSTACK};
    if (sigaltstack(&other, NULL) != 0 || sigaction(SIGSEGV, &action, NULL) != 0) abort();
}

static void print_header(void) {
    printf("header");
    for (uint32_t each = 1; each <= SPOREFLASK_MOST_BUDGET; each++) printf(" %zu", SPOREFLASK_CHECK_STACK_BYTES(each));
    printf(" %zu\n", SPOREFLASK_ANSWER_STACK_BYTES);
}

/* The question's words, from a line of them. */
static void read_words(const char *line) {
    char *end;
    for (words = 0;; words++, line = end) {
        question[words] = (uint32_t)strtoul(line, &end, 10);
        if (end == line) return;
    }
}

int main(int count, char **budgets) {
    static char line[MOST_LINE];
    make_stack();
    catch_first_word();
    print_header();
    while (fgets(line, sizeof line, stdin)) {
        size_t name = strcspn(line, " \n");
        printf("%.*s", (int)name, line);
        read_words(line + name);
        for (int i = 1; i < count; i++) printf(" %zu", depth_at((uint32_t)strtoul(budgets[i], NULL, 10)));
        printf(" %zu %zu\n", depth_at(0), depth_of_writing(SPOREFLASK_MOST_BUDGET));
    }
    return 0;
}
