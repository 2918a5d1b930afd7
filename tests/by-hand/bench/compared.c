/* One question from standard input, as decimal words, asked of sporeflask_check with the largest budget. See compared. */
#include <stdio.h>

#include "sporeflask.h"

int main(void)
{
    static uint32_t question[SPOREFLASK_MOST_WORDS + 1], work[SPOREFLASK_WORK_WORDS(SPOREFLASK_MOST_BUDGET)], report[1 << 16];
    uint32_t numbers[4];
    size_t words = 0;
    while (words <= SPOREFLASK_MOST_WORDS && scanf("%u", &question[words]) == 1)
        words++;
    printf("%u\n", sporeflask_check(question, words, SPOREFLASK_MOST_BUDGET, work, sizeof work / sizeof *work, report,
                                    sizeof report / sizeof *report, numbers));
    return 0;
}
