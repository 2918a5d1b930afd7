/* Questions from standard input, each as budget, words of work and of report, how many words, and these, in decimal; asked of
 * sporeflask_check ROUNDS times over. Says how many they are, the nanoseconds of the quickest round, and a sum over all replies' four numbers. See
 * versus. */
#include <stdio.h>
#include <stdlib.h>
#include <time.h>

#include "sporeflask.h"

enum { MOST_QUESTIONS = 1 << 14, MOST_WORDS = 1 << 20, MOST_REPORT = 1 << 20 };

struct asked {
    uint32_t budget, work, room, count, first;
};

static struct asked all[MOST_QUESTIONS];
static uint32_t words[MOST_WORDS], work[SPOREFLASK_WORK_WORDS(SPOREFLASK_MOST_BUDGET)], report[MOST_REPORT];

static int fits(const struct asked *a)
{
    return a->work <= sizeof work / sizeof *work && a->room <= MOST_REPORT && a->first + a->count <= MOST_WORDS;
}

static double now(void)
{
    struct timespec t;
    clock_gettime(CLOCK_MONOTONIC, &t);
    return (double)t.tv_sec * 1e9 + (double)t.tv_nsec;
}

int main(int argc, char **argv)
{
    size_t questions = 0, used = 0;
    struct asked a;
    if (argc != 2)
        return fprintf(stderr, "usage: versus ROUNDS\n"), 2;
    while (questions < MOST_QUESTIONS && scanf("%u %u %u %u", &a.budget, &a.work, &a.room, &a.count) == 4) {
        a.first = (uint32_t)used;
        if (!fits(&a))
            return fprintf(stderr, "versus: question %zu is too large\n", questions), 2;
        for (uint32_t i = 0; i < a.count; i++)
            if (scanf("%u", &words[used++]) != 1)
                return fprintf(stderr, "versus: question %zu ends early\n", questions), 2;
        all[questions++] = a;
    }
    if (questions == MOST_QUESTIONS)
        return fprintf(stderr, "versus: %d questions or more\n", MOST_QUESTIONS), 2;
    double least = 1e18;
    uint32_t numbers[4];
    uint64_t told = 0;
    for (int round = atoi(argv[1]); round > 0; round--) {
        double begun = now();
        for (size_t i = 0; i < questions; i++) {
            sporeflask_check(words + all[i].first, all[i].count, all[i].budget, work, all[i].work, report, all[i].room, numbers);
            told = told * 31 + numbers[0] + numbers[1] * 3 + numbers[2] * 5 + numbers[3] * 7;
        }
        double taken = now() - begun;
        least = taken < least ? taken : least;
    }
    printf("%zu %.0f %llu\n", questions, least, (unsigned long long)told);
    return 0;
}
