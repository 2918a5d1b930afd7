/* A report held to its form, and what it shows as features for libFuzzer: which rule stands after which, how large things are. */
#include "fuzz.h"

enum { RULES = 38, SIZES = 33 };

/* libFuzzer takes these as coverage counters. */
__attribute__((section("__libfuzzer_extra_counters"))) static uint8_t follows[RULES][RULES];
__attribute__((section("__libfuzzer_extra_counters"))) static uint8_t units_of[18][SIZES], length_of[18][SIZES];

static unsigned size_of(uint32_t n) { return n == 0 ? 0 : 32 - (unsigned)__builtin_clz(n); }

static void count(uint8_t *counter) {
    if (*counter < 255) ++*counter;
}

/* The place past a section of at most one type. */
static size_t type_section(const uint32_t *report, size_t at, size_t end) {
    HOLD(at < end);
    size_t words = report[at++];
    HOLD(words <= end - at);
    HOLD(words == 0 || past_type(report, at, at + words) == at + words);
    return at + words;
}

static size_t context_section(const uint32_t *report, size_t at, size_t end) {
    HOLD(at < end);
    size_t words = report[at++];
    HOLD(words <= end - at);
    for (end = at + words; at < end;) {
        at = past_entry(report, at, end);
        HOLD(at != 0);
    }
    return end;
}

/* The nodes stand parent first, so that children are outstanding until they come. */
static void tree_section(const uint32_t *report, size_t at, size_t end) {
    HOLD(at < end && report[at] == end - at - 1);
    uint32_t last = 0;
    size_t open = 1;
    for (at++; at < end; open--) {
        HOLD(open > 0 && end - at >= 3);
        uint32_t rule = report[at];
        HOLD(rule >= 1 && rule < RULES);
        open += report[at + 1];
        at = context_section(report, at + 3, end);
        at = type_section(report, at, end);
        at = type_section(report, at, end);
        at = context_section(report, at, end);
        at = type_section(report, at, end);
        count(&follows[last][rule]);
        last = rule;
    }
    HOLD(open == 0);
}

void look_at_report(uint32_t code, uint32_t units, const uint32_t *report, size_t length) {
    count(&units_of[code][size_of(units)]);
    count(&length_of[code][size_of((uint32_t)length)]);
    if (code == SPOREFLASK_OK) {
        size_t at = type_section(report, 0, length);
        at = context_section(report, at, length);
        tree_section(report, at, length);
    } else if (code >= SPOREFLASK_UNBOUND_VARIABLE) {
        HOLD(type_section(report, type_section(report, 0, length), length) == length);
    }
}
