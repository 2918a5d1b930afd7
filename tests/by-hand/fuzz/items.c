/* Where a type, an expression or an entry ends, without recursion: an item is whole when no part is outstanding. */
#include "fuzz.h"

static int is_type(uint32_t code) { return code >= INT && code <= FORALL; }

/* Words of a type's head and how many types follow it. */
static size_t type_head(uint32_t code, size_t *types) {
    *types = code == ARROW ? 2 : code == FORALL;
    return code == INT || code == BOOL || code == ARROW ? 1 : 2;
}

size_t past_type(const uint32_t *words, size_t at, size_t end) {
    for (size_t open = 1; open > 0; open--) {
        size_t types;
        if (at >= end || !is_type(words[at])) return 0;
        at += type_head(words[at], &types);
        open += types;
    }
    return at <= end ? at : 0;
}

/* Words of an expression's head, whether a type stands after it, and how many expressions follow. */
static size_t expr_head(uint32_t code, int *type, size_t *exprs) {
    *type = code == ABS;
    *exprs = code == APP || code == LET || code == BINOP ? 2 : code == IF ? 3 : code == EVAR || code == LITINT || code == LITBOOL ? 0 : 1;
    return code == LITINT ? 3 : code == APP || code == TAPP || code == ANN || code == IF ? 1 : 2;
}

/* TApp and Ann have their type after their expression, so their ends stand on a stack of what is outstanding. */
size_t past_expr(const uint32_t *words, size_t at, size_t end) {
    static uint8_t wanted[1 << 16];
    size_t open = 0;
    wanted[open++] = 'e';
    while (open > 0) {
        if (wanted[--open] == 't') {
            at = past_type(words, at, end);
            if (at == 0) return 0;
            continue;
        }
        if (at >= end || words[at] < EVAR || words[at] > BINOP || open + 4 > sizeof wanted) return 0;
        uint32_t code = words[at];
        int type;
        size_t exprs;
        at += expr_head(code, &type, &exprs);
        if (code == TAPP || code == ANN) wanted[open++] = 't';
        while (exprs-- > 0) wanted[open++] = 'e';
        if (type) wanted[open++] = 't';
    }
    return at <= end ? at : 0;
}

size_t past_entry(const uint32_t *words, size_t at, size_t end) {
    if (at + 2 > end || words[at] < VARBND || words[at] > MARK) return 0;
    return words[at] == VARBND || words[at] == SETVARBND ? past_type(words, at + 2, end) : at + 2;
}
