/* Sporeflask for C: both exported functions, the layout of a question and of its reply, names for their words, sizes.
   docs/FORMAT.md says the same at length, with examples.

   Link with target/staticlib/libhost.a (tests/host/build; x86-64).

   Calls are independent of each other: nothing is allocated, nothing is kept from one call to the next, and there is no
   state outside the slices and the stack. So threads may call at the same time, each with slices of its own (a question
   may be shared, since it is only read). A reply depends on the question, the sizes and the budget alone.

   Slices of one call must not overlap. Those of uint32_t are aligned as uint32_t is, to 4 bytes; bytes lie anywhere. A
   length of 0 allows any non-null, aligned pointer; NULL is not allowed even then. */
#ifndef SPOREFLASK_H
#define SPOREFLASK_H

#include <stddef.h>
#include <stdint.h>

#ifdef __cplusplus
extern "C" {
#endif

/* The version of this header, of the formats that it names and of the replies; it stands nowhere else. A change of
   the first number: some well-formed question gets another reply, or a name, a size or the layout of a slice is
   another or gone, so look at your host (docs/ORDERS.md says what each landing changed); of the second: something is
   added (a code, a mode, a kind, a function), and every question that was well-formed gets the reply that it got; of
   the third: replies, names and layout are as they were. */
#define SPOREFLASK_VERSION_MAJOR 3
#define SPOREFLASK_VERSION_MINOR 0
#define SPOREFLASK_VERSION_PATCH 1
#define SPOREFLASK_VERSION "3.0.1"

/* ---- Sizes, in words of 4 bytes unless their name says otherwise */

enum {
    SPOREFLASK_MOST_WORDS = 2048,         /* of a question */
    SPOREFLASK_MOST_BUDGET = 8192,        /* in units */
    SPOREFLASK_DESK_BUDGET = 384,         /* what sporeflask_answer uses */
    SPOREFLASK_DESK_WORK = 16384,         /* lent by sporeflask_answer itself, on the stack */
    SPOREFLASK_DESK_REPORT = 4096,        /* the most that sporeflask_answer reports */
    SPOREFLASK_REPLY_BYTES = 16,          /* the four numbers before the report */
    SPOREFLASK_MOST_REPLY_BYTES = 16400,  /* with the longest report that sporeflask_answer gives */
    SPOREFLASK_FIRST_FRESH_NAME = 1000000 /* written names are below it */
};

/* The words of work that a budget needs. */
#define SPOREFLASK_WORK_WORDS(budget) (32 * (size_t)(budget) + 4096)

/* The bytes of stack to give to a thread that calls with questions from outside: how deep a call goes depends on the
   question. From the bound of docs/STACK.md, with at least 128 KB for the caller and a signal handler, in steps of
   64 KB; the slices that sporeflask_check is lent are not in it. Let the stack have a guard page, as threads have
   unless told otherwise: then too small a stack ends in SIGSEGV and overwrites nothing. The figures belong to the
   archive that docs/runs/STACK.md names. SPOREFLASK_CHECK_STACK_BYTES evaluates its argument more than once. */
#define SPOREFLASK_ANSWER_STACK_BYTES ((size_t)720896)
#define SPOREFLASK_CHECK_STACK_BYTES(budget)                         \
    ((((size_t)(budget) <= 493    ? (size_t)593024                   \
       : (size_t)(budget) <= 1021 ? 928 * (size_t)(budget) + 135168  \
       : (size_t)(budget) <= 2042 ? 592 * (size_t)(budget) + 478224  \
                                  : 416 * (size_t)(budget) + 837616) \
      + 65535) / 65536 * 65536)

/* ---- The question

   kind, mode, then four sections, each after its count of words: context, expression, left type, right type. Places
   count words, from 0, in bytes too. At most SPOREFLASK_MOST_WORDS words.

       kind             context  expression  left        right
       INFER            any      one         -           -
       CHECK            any      one         -           one
       INFER_APP        any      one         one         -       left is the function's type
       SUBTYPE          any      -           one         one
       INST_L           any      -           one ETVAR   one
       INST_R           any      -           one         one ETVAR
       RUN_BIDIRECTIONAL -       one         -           -

   "-" is count 0. A context is any number of entries, oldest first. Each item is its code and what stands behind it in
   the tables below, parts in order: T a type, e an expression, x a variable's name, a a type's name. Names are below
   SPOREFLASK_FIRST_FRESH_NAME; a variable's and a type's name of one number are two names. Of entries with one name
   the earliest counts, so give every input, let, lambda and Forall a name of its own (docs/DIFFERENCES.md, part S: what
   the checker does not catch).

   The formula `1` without inputs, case (a), is 7 0 0 3 22 1 0 0 0:

       SPOREFLASK_RUN_BIDIRECTIONAL, SPOREFLASK_PLAIN, 0, 3, SPOREFLASK_E_LIT_INT, 1, 0, 0, 0 */

/* The first word of a question. */
enum sporeflask_kind {
    SPOREFLASK_INFER = 1,
    SPOREFLASK_CHECK = 2,
    SPOREFLASK_INFER_APP = 3,
    SPOREFLASK_SUBTYPE = 4,
    SPOREFLASK_INST_L = 5,
    SPOREFLASK_INST_R = 6,
    SPOREFLASK_RUN_BIDIRECTIONAL = 7
};

/* The second word of a question. */
enum sporeflask_mode { SPOREFLASK_PLAIN = 0, SPOREFLASK_STRICT = 1 };

/* Types, in a question and in a report. */
enum sporeflask_type {
    SPOREFLASK_T_INT = 1,
    SPOREFLASK_T_BOOL = 2,
    SPOREFLASK_T_VAR = 3,   /* a */
    SPOREFLASK_T_ETVAR = 4, /* a: an unknown */
    SPOREFLASK_T_ARROW = 5, /* T T: from the first to the second */
    SPOREFLASK_T_FORALL = 6 /* a T */
};

enum sporeflask_expression {
    SPOREFLASK_E_VAR = 16,          /* x */
    SPOREFLASK_E_APP = 17,          /* e e: function, argument */
    SPOREFLASK_E_ABS = 18,          /* x T e: parameter, its type, body */
    SPOREFLASK_E_TAPP = 19,         /* e T */
    SPOREFLASK_E_TABS = 20,         /* a e */
    SPOREFLASK_E_ANN = 21,          /* e T */
    SPOREFLASK_E_LIT_INT = 22,      /* low high: the halves of an int64_t, low one first */
    SPOREFLASK_E_LIT_BOOL = 23,     /* 0 or 1 */
    SPOREFLASK_E_LET = 24,          /* x e e: name, value, body */
    SPOREFLASK_E_IF_THEN_ELSE = 25, /* e e e */
    SPOREFLASK_E_BIN_OP = 26        /* operator e e */
};

/* The word after SPOREFLASK_E_BIN_OP. */
enum sporeflask_operator {
    SPOREFLASK_OP_ADD = 1, /* 1 to 4: Int and Int to Int */
    SPOREFLASK_OP_SUB = 2,
    SPOREFLASK_OP_MUL = 3,
    SPOREFLASK_OP_DIV = 4,
    SPOREFLASK_OP_AND = 5, /* 5 and 6: Bool and Bool to Bool */
    SPOREFLASK_OP_OR = 6,
    SPOREFLASK_OP_EQ = 7, /* 7 and 8: two of one type to Bool */
    SPOREFLASK_OP_NE = 8,
    SPOREFLASK_OP_LT = 9, /* 9 to 12: Int and Int to Bool */
    SPOREFLASK_OP_LE = 10,
    SPOREFLASK_OP_GT = 11,
    SPOREFLASK_OP_GE = 12
};

/* Entries of a context, in a question and in a report. */
enum sporeflask_entry {
    SPOREFLASK_C_VAR_BND = 32,    /* x T: a variable, as an input, and its type */
    SPOREFLASK_C_TVAR_BND = 33,   /* a: a type variable */
    SPOREFLASK_C_ETVAR_BND = 34,  /* a: an unknown */
    SPOREFLASK_C_SETVAR_BND = 35, /* a T: an unknown and its solution */
    SPOREFLASK_C_MARK = 36        /* a */
};

/* ---- The reply

   Four numbers: code, at, length, units; and a report. length is the report's words; on NO_ROOM it is what the report
   needs (4,294,967,295 where it needs more), and no report is written. units is the work that was counted. The report
   has types and entries as above, where SPOREFLASK_FIRST_FRESH_NAME + k is the k-th name that the run made, from 0.

   On OK: three sections, each after its count: type (count 0 for CHECK, SUBTYPE, INST_L and INST_R), context, tree. The
   tree is its nodes, parent first, then each child's nodes. A node:

       rule, number of children, place of its expression in the question (INF_APP_ARR, INF_APP_ETVAR: of the argument;
       0 if none), then five sections, each after its count: input context, left type, right type, output context,
       result type

   On UNBOUND_VARIABLE to PARAMETER_MISMATCH: two type sections, each after its count, empty where there is no type. The
   code's line says which types they hold. Otherwise no report.

   At another budget, from 1 to SPOREFLASK_MOST_BUDGET, with the same room and enough work and stack for it, a reply
   other than BAD_BUDGET, SHORT_WORK and BUDGET is the same where the budget is no less than its units; below them it is
   BUDGET. The budget of sporeflask_answer is SPOREFLASK_DESK_BUDGET. */

/* The first of the four numbers. `at` is 0 unless its line says otherwise. */
enum sporeflask_code {
    SPOREFLASK_OK = 0,
    SPOREFLASK_BAD_BUDGET = 1,              /* 0, or above SPOREFLASK_MOST_BUDGET */
    SPOREFLASK_SHORT_WORK = 2,              /* work is shorter than SPOREFLASK_WORK_WORDS(budget) */
    SPOREFLASK_BAD_LENGTH = 3,              /* no words, more than SPOREFLASK_MOST_WORDS, or no whole words */
    SPOREFLASK_BAD_SHAPE = 4,               /* at: the place in the question */
    SPOREFLASK_RESERVED_NAME = 5,           /* at: the place in the question */
    SPOREFLASK_BUDGET = 6,                  /* the counted work would pass the budget */
    SPOREFLASK_NO_ROOM = 7,                 /* length: what the report needs, as above; no word of it was written */
    SPOREFLASK_SHORT_REPLY = 8,             /* sporeflask_answer alone; nothing was written */
    SPOREFLASK_UNBOUND_VARIABLE = 11,       /* at: the name; no type */
    SPOREFLASK_APPLICATION_TYPE_ERROR = 12, /* what was applied is no function: its type; none */
    SPOREFLASK_TYPE_APPLICATION_ERROR = 13, /* what was given a type is no Forall: its type; none */
    SPOREFLASK_OCCURS_CHECK = 14,           /* at: the name; the type that has it; none */
    SPOREFLASK_SUBTYPING_ERROR = 15,        /* the left type, which is there; the right one, which is wanted */
                                            /* 16: no question draws it (never_16, docs/THEOREMS.md) */
    SPOREFLASK_PARAMETER_MISMATCH = 17      /* strict mode: the parameter's type as written; the one wanted. Only
                                               the names that Forall binds may differ */
};

/* The first word of a node of the tree; behind each rule the number of its children. */
enum sporeflask_rule {
    SPOREFLASK_INF_VAR = 1,         /* 0 */
    SPOREFLASK_INF_LIT_INT = 2,     /* 0 */
    SPOREFLASK_INF_LIT_BOOL = 3,    /* 0 */
    SPOREFLASK_INF_LAM = 4,         /* 1 */
    SPOREFLASK_INF_APP = 5,         /* 2 */
    SPOREFLASK_INF_LET = 6,         /* 2 */
    SPOREFLASK_INF_IF = 7,          /* 4 */
    SPOREFLASK_INF_ARITH = 8,       /* 2 */
    SPOREFLASK_INF_BOOL = 9,        /* 2 */
    SPOREFLASK_INF_CMP = 10,        /* 2 */
    SPOREFLASK_INF_EQ = 11,         /* 2 */
    SPOREFLASK_INF_ANN = 12,        /* 1 */
    SPOREFLASK_INF_T_ABS = 13,      /* 1 */
    SPOREFLASK_INF_T_APP = 14,      /* 1 */
    SPOREFLASK_INF_APP_ARR = 15,    /* 1 */
    SPOREFLASK_INF_APP_ETVAR = 16,  /* 1 */
    SPOREFLASK_CHK_LIT_INT = 17,    /* 0 */
    SPOREFLASK_CHK_LIT_BOOL = 18,   /* 0 */
    SPOREFLASK_CHK_LAM = 19,        /* 1 */
    SPOREFLASK_CHK_ALL = 20,        /* 1 */
    SPOREFLASK_CHK_SUB = 21,        /* 2 */
    SPOREFLASK_SUB_REFL = 22,       /* 0 */
    SPOREFLASK_SUB_REFL_TVAR = 23,  /* 0 */
    SPOREFLASK_SUB_REFL_ETVAR = 24, /* 0 */
    SPOREFLASK_SUB_ARR = 25,        /* 2 */
    SPOREFLASK_SUB_ALL_R = 26,      /* 1 */
    SPOREFLASK_SUB_ALL_L = 27,      /* 1 */
    SPOREFLASK_SUB_INST_L = 28,     /* 1 */
    SPOREFLASK_SUB_INST_R = 29,     /* 1 */
    SPOREFLASK_INST_L_SOLVE = 30,   /* 0 */
    SPOREFLASK_INST_L_REACH = 31,   /* 0 */
    SPOREFLASK_INST_L_ARR = 32,     /* 2 */
    SPOREFLASK_INST_L_ALL_R = 33,   /* 1 */
    SPOREFLASK_INST_R_SOLVE = 34,   /* 0 */
    SPOREFLASK_INST_R_REACH = 35,   /* 0 */
    SPOREFLASK_INST_R_ARR = 36,     /* 2 */
    SPOREFLASK_INST_R_ALL_L = 37    /* 1 */
};

/* ---- The functions */

/* The telephone host's function, with the desk's sizes. question: little-endian words. reply: code, at, length and
   units in its first 16 bytes, then the report, all little-endian; bytes past the report stay as they were. Returns the
   code. With reply_bytes below 16 it returns SPOREFLASK_SHORT_REPLY before all else and writes nothing. */
uint32_t sporeflask_answer(const uint8_t *question, size_t question_bytes, uint8_t *reply, size_t reply_bytes);

/* The same checker with every size free. numbers takes code, at, length and units: it is written on every code, and
   must not overlap the others. Returns the code. Work needs SPOREFLASK_WORK_WORDS(budget) words, may hold anything, and
   ends as 0 there; on 1 to 5 it is not touched. The report has `length` words on 0 and 11 to 17, and is not touched on
   1 to 7.

   Work may be uninitialised: what it holds changes nothing. But its words are read when it is cleared, and blocks that
   are all 0 already are not written. So a memory checker reports the reads of a slice from malloc (valgrind:
   "Conditional jump or move depends on uninitialised value(s)", in entry::check), and takes words of it for
   uninitialised even after the call. A slice from calloc, or cleared once, draws no report. MemorySanitizer does not
   see into the archive: unpoison what a call of either function writes. */
uint32_t sporeflask_check(const uint32_t *question, size_t question_words, uint32_t budget, uint32_t *work,
                          size_t work_words, uint32_t *report, size_t report_words, uint32_t numbers[4]);

#ifdef __cplusplus
}
#endif

#endif
