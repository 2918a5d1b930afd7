/* A telephone host: a question's bytes from standard input, one line about the reply. Exit status 0 where the formula is accepted,
   1 where it is refused, 2 where the program was misused. */
#include <stdio.h>

#include "sporeflask.h"

/* One word more than the longest question: whatever follows changes nothing, since all of it is BadLength. */
enum { MOST_READ = 4 * SPOREFLASK_MOST_WORDS + 4 };

static const char *const NAMES[] = {
    [SPOREFLASK_OK] = "accepted",
    [SPOREFLASK_BAD_BUDGET] = "BadBudget",
    [SPOREFLASK_SHORT_WORK] = "ShortWork",
    [SPOREFLASK_BAD_LENGTH] = "BadLength",
    [SPOREFLASK_BAD_SHAPE] = "BadShape",
    [SPOREFLASK_RESERVED_NAME] = "ReservedName",
    [SPOREFLASK_BUDGET] = "Budget",
    [SPOREFLASK_NO_ROOM] = "NoRoom",
    [SPOREFLASK_SHORT_REPLY] = "ShortReply",
    [SPOREFLASK_UNBOUND_VARIABLE] = "UnboundVariable",
    [SPOREFLASK_APPLICATION_TYPE_ERROR] = "ApplicationTypeError",
    [SPOREFLASK_TYPE_APPLICATION_ERROR] = "TypeApplicationError",
    [SPOREFLASK_OCCURS_CHECK] = "OccursCheck",
    [SPOREFLASK_SUBTYPING_ERROR] = "SubtypingError",
    /* 16 has no name: no question draws it (never_16, docs/THEOREMS.md) */
    [SPOREFLASK_PARAMETER_MISMATCH] = "ParameterMismatch",
};

/* The word that begins at a byte of the reply. */
static unsigned long word(const uint8_t *reply, size_t at) {
    return reply[at] | (unsigned long)reply[at + 1] << 8 | (unsigned long)reply[at + 2] << 16 |
           (unsigned long)reply[at + 3] << 24;
}

static void say(uint32_t code, const uint8_t *reply) {
    unsigned long at = word(reply, 4), length = word(reply, 8), units = word(reply, 12);
    if (code == SPOREFLASK_OK) {
        printf("accepted: length %lu, units %lu\n", length, units);
    } else {
        printf("refused: %s (%lu), at %lu, length %lu, units %lu\n", NAMES[code], (unsigned long)code, at, length, units);
    }
}

int main(int argc, char **argv) {
    static uint8_t question[MOST_READ], reply[SPOREFLASK_MOST_REPLY_BYTES];
    if (argc != 1) {
        fprintf(stderr, "usage: %s < QUESTION (little-endian words)\n", argv[0]);
        return 2;
    }
    size_t bytes = fread(question, 1, sizeof question, stdin);
    if (ferror(stdin)) {
        perror("standard input");
        return 2;
    }
    uint32_t code = sporeflask_answer(question, bytes, reply, sizeof reply);
    say(code, reply);
    return code == SPOREFLASK_OK ? 0 : 1;
}
