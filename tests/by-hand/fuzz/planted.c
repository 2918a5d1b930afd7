/* Defects planted round both functions, by the linker's --wrap: the fuzz target must find each, and tests/host/compare.c two of them
   (tests/steps_fail). FUZZ_PLANTED names the one that is on.
   Compiled without sanitizers, as the archive is. */
#include <stdlib.h>
#include <string.h>

#include "sporeflask.h"

uint32_t __real_sporeflask_check(const uint32_t *, size_t, uint32_t, uint32_t *, size_t, uint32_t *, size_t, uint32_t *);
uint32_t __real_sporeflask_answer(const uint8_t *, size_t, uint8_t *, size_t);

static volatile uint32_t seen;

static int planted(const char *defect) {
    const char *on = getenv("FUZZ_PLANTED");
    return on && strcmp(on, defect) == 0;
}

uint32_t __wrap_sporeflask_check(const uint32_t *question, size_t question_words, uint32_t budget, uint32_t *work, size_t work_words,
                                 uint32_t *report, size_t report_words, uint32_t numbers[4]) {
    uint32_t held = work_words ? work[0] : 0;
    if (planted("question-read-past")) seen = question[question_words];
    if (planted("question-read-before")) seen = question[-1];
    if (planted("work-written-before")) work[-1] = 0;
    if (planted("work-written-past")) work[work_words] = 0;
    if (planted("report-written-past")) memset(report, 0xFF, 4 * report_words + 1);
    if (planted("numbers-written-past")) numbers[4] = 0;
    /* without room nothing is written, and the units are told all the same */
    if (planted("six-at-units") && __real_sporeflask_check(question, question_words, budget, work, work_words, report, 0, numbers) == 7 &&
        numbers[3] == budget) {
        numbers[2] = 0;
        return numbers[0] = 6;
    }
    uint32_t code = __real_sporeflask_check(question, question_words, budget, work, work_words, report, report_words, numbers);
    if (planted("code-unknown") && code == 4) numbers[0] = code = 9;
    if (planted("code-sixteen") && code == 15) numbers[0] = code = 16;
    if (planted("units-by-budget") && code == 0 && budget > 5000) numbers[3] += 1;
    if (planted("numbers-apart")) numbers[0] ^= 1;
    if (planted("units-past-budget") && code == 0) numbers[3] = budget + 1;
    if (planted("units-from-work") && code == 0 && numbers[3] > 1) numbers[3] -= held & 1;
    if (planted("work-left") && code == 0) work[7] = 1;
    if (planted("work-cleared-on-refusal") && code == 4) work[0] = 0;
    if (planted("report-tail") && code == 0 && numbers[2] < report_words) report[numbers[2]] = 0;
    if (planted("report-word") && code == 0) report[numbers[2] - 1] += 1;
    return code;
}

uint32_t __wrap_sporeflask_answer(const uint8_t *question, size_t question_bytes, uint8_t *reply, size_t reply_bytes) {
    uint32_t code = __real_sporeflask_answer(question, question_bytes, reply, reply_bytes);
    if (planted("short-reply-written") && reply_bytes > 0 && code == 8) reply[0] = 0;
    if (planted("reply-tail") && reply_bytes > 16 && code == 4) reply[16] ^= 1;
    if (planted("reply-units") && code == 0) reply[12] ^= 1;
    if (planted("bytes-rounded") && code == 3 && question_bytes % 4 != 0 && reply_bytes >= 16)
        code = __real_sporeflask_answer(question, question_bytes / 4 * 4, reply, reply_bytes);
    return code;
}
