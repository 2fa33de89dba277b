/* The meal plan walker, for C.

   Slices. Every slice is a pointer and a length in bytes; that of rows is a pointer to
   the first and their number. A pointer is never null, also where the length is 0. A
   slice that is written (out, work, answers, the cursor of plan_walk) lies apart from
   every other slice of the call, and until the call returns nobody else reads or writes
   it. Slices that are only read (plan, words, letters, first, second, rows, the cursor of
   plan_reason) may overlap each other or be one, and until the call returns nobody writes
   them either. Rows are aligned as C
   has it. Words of 16 bits are two bytes, low first; an odd last byte isn't counted.
   Answers are words of 32 bits, four bytes, low first; a rest of one to three isn't
   counted.

   Formats. A plan is narrow or wide, as its mark says; plan_seal is told which by the
   record length, and plan_unseal gives that. In a narrow plan a rule is four words, 8
   bytes, and a label 0 to 255; in a wide plan a rule is five words, 10 bytes, and a
   label 0 to 16,777,215, its low 16 bits in word 1 and its high part in the fifth. All
   else is the same in both: counts, places, letters and answers.

   Numbers. The numbers behind pointers lie apart from each other and from all
   slices, are aligned as C has it, and are the call's alone until it returns.

   Calls. The caller owns all memory; nothing beyond the lengths given is read or
   written. Nothing is kept between calls: there are no globals and nothing is
   allocated. So calls are re-entrant: any number may run at a time, each on written
   slices and numbers of its own.

   Results. Each function returns 0 when it accepts, else the refusal's number, and
   tests in the order in which the refusals stand in its comment: 12 after 6, before
   7. *position is the rule for 4 to 6, the lowest rule that reaches itself for 12, the
   letter's place for 9, the row for 13 to 15, and else 0; it is 0 when accepted. The
   other numbers are written only when accepted.

   The library is for x86-64, where size_t has 64 bits. What it takes of a device is
   at the end of this file. */
#ifndef MEALPLAN_H
#define MEALPLAN_H

#include <stddef.h>
#include <stdint.h>

#if defined SIZE_MAX && SIZE_MAX < 0xffffffffffffffff
#error "libmealplan is proved and compiled for a size_t of 64 bits"
#endif

#ifdef __cplusplus
extern "C" {
#endif

/* The record lengths: bytes of a rule, narrow or wide. That of a plan which was
   accepted is told by its last byte, the second of its mark. */
#define MEALPLAN_NARROW 8u /* mark 6D 70 */
#define MEALPLAN_WIDE 10u  /* mark 6D 71 */
#define MEALPLAN_RECORD_LENGTH(plan, plan_len) \
    ((plan)[(plan_len) - 1] == 0x71 ? MEALPLAN_WIDE : MEALPLAN_NARROW)

/* Limits: the rules of a plan, those of a plan of few rules, which takes less work for
   each and less stack, those of a plan that is copied, and the labels. */
#define MEALPLAN_MOST_RULES 16384u
#define MEALPLAN_FEW_RULES 1024u
#define MEALPLAN_MOST_COPIED 4096u
#define MEALPLAN_MOST_LABEL(record_length) ((record_length) == MEALPLAN_WIDE ? 16777215u : 255u)

/* What a plan's end says before any call: whether its mark is one of the two (1), and
   its number of rules, for a plan that has one. So a device that is laid out for few
   rules, or has little stack, can turn down larger plans where the functions test n. */
#define MEALPLAN_MARKED(plan, plan_len)                        \
    ((plan_len) >= 10 && (plan)[(plan_len) - 2] == 0x6D &&     \
     ((plan)[(plan_len) - 1] == 0x70 || (plan)[(plan_len) - 1] == 0x71))
#define MEALPLAN_RULES(plan, plan_len) \
    ((uint32_t)((plan)[(plan_len) - 10] | (plan)[(plan_len) - 9] << 8))

/* Lengths in bytes, for n rules, m letters and so many nodes. Each is the least that
   is accepted; tests/interface.c holds them to the library. What is to serve for plans
   of both formats goes by MEALPLAN_WIDE, what is to serve for plans of up to n rules by
   n: no length falls where n grows. */
#define MEALPLAN_WORK_BYTES(n) \
    ((size_t)((n) > MEALPLAN_FEW_RULES ? 80 : 64) * (n)) /* work, of each function that takes it */
#define MEALPLAN_CURSOR_BYTES(n) ((size_t)32 * (n) + 32) /* a cursor */
#define MEALPLAN_ANSWERS_BYTES(m) ((size_t)4 * (m))      /* answers to m letters */
#define MEALPLAN_COPY_BYTES(n) ((size_t)40 * (n) + 10)   /* out of plan_copy */

/* A plan without cover: out of plan_seal. */
#define MEALPLAN_PLAN_BYTES(n, record_length) ((size_t)(record_length) * (n) + 10)

/* Its rule words: out of plan_unseal. */
#define MEALPLAN_WORDS_BYTES(n, record_length) ((size_t)(record_length) * (n))

/* The text: out of plan_spread. */
#define MEALPLAN_TEXT_BYTES(nodes, record_length) \
    ((size_t)((record_length) == MEALPLAN_WIDE ? 5 : 3) * (nodes))

/* Answer number i of answers, from 0: a label, or nowhere, whatever the format. */
#define MEALPLAN_ANSWER(answers, i)                                         \
    ((uint32_t)(answers)[4 * (i)] | (uint32_t)(answers)[4 * (i) + 1] << 8 | \
     (uint32_t)(answers)[4 * (i) + 2] << 16 | (uint32_t)(answers)[4 * (i) + 3] << 24)
#define MEALPLAN_NOWHERE 4294967295u

/* The label of a divider line, whatever the format. */
#define MEALPLAN_DIVIDER 0u

/* The used cells of a cursor, and the bytes at its front that hold the place: these
   alone have to be stored. Whatever stands behind them isn't looked at. */
#define MEALPLAN_CELLS(cursor) ((size_t)((cursor)[0] | (cursor)[1] << 8))
#define MEALPLAN_PLACE_BYTES(cursor) (8 * (MEALPLAN_CELLS(cursor) + 1))

/* The rule whose forest a cursor walks, as word 1 of its cell 0 names it: 0 for the start
   rule, else the number of a rule plus one. Any closed rule may be named, the start, one
   that nothing reaches and an empty one, too: one day of a plan is walked by its rule.
   The word is part of the stored place and stays through every call. A cursor from before
   there was such a word has 0 there, and goes on. MEALPLAN_RULE_WORD is the word for a
   number of 16 bits; that for 65,535 is 65,535 too, and as far beyond the rules. */
#define MEALPLAN_WORD(cursor) ((uint16_t)((cursor)[2] | (cursor)[3] << 8))
#define MEALPLAN_RULE_WORD(rule) \
    ((uint16_t)((uint16_t)(rule) + 1 - (((uint16_t)(rule) + 1) >> 16)))

/* Puts a cursor above the forest of the rule that a word names, as the first walk wants it:
   mealplan_above(cursor, MEALPLAN_RULE_WORD(3)) for rule 3 alone, mealplan_above(cursor, 0)
   for the start, which 8 bytes of zeros are too. Whether there is such a rule to walk is
   judged by the walk, which may be one of no letters. */
static inline void mealplan_above(uint8_t *cursor, uint16_t word) {
    cursor[0] = cursor[1] = 0;
    cursor[2] = (uint8_t)word, cursor[3] = (uint8_t)(word >> 8);
    cursor[4] = cursor[5] = cursor[6] = cursor[7] = 0;
}

/* The refusals. */
enum mealplan_refusal {
    MEALPLAN_ACCEPTED = 0,
    MEALPLAN_MAGIC = 1,      /* fewer than 10 bytes, or a mark that is neither; a record
                                length that is neither 8 nor 10 */
    MEALPLAN_COUNT = 2,      /* n is 0 or above 16,384; the words aren't four to a rule, or
                                in a wide plan five */
    MEALPLAN_DISTANCE = 3,   /* the distance isn't 8 * n, or in a wide plan 10 * n, or goes
                                back before the first byte */
    MEALPLAN_MALFORMED = 4,  /* kind above 5, unused word not 0; in a narrow plan label
                                above 255; in a wide plan fifth word above 255, or not 0
                                in a kind without a label; of plan_class, a label above
                                16,777,215, at 0 */
    MEALPLAN_NOT_BELOW = 5,  /* names a rule not below n */
    MEALPLAN_WRONG_SORT = 6, /* names one of the wrong sort, as one of kind above 5 is */
    MEALPLAN_START = 7,      /* start isn't below n or isn't closed */
    MEALPLAN_LENT = 8,       /* work or a cursor too short, or fewer answers than letters; of
                                plan_copy, output too short */
    MEALPLAN_LETTER = 9,     /* a byte outside a z f l n p u s */
    MEALPLAN_PLACE = 10,     /* word 1 of cell 0 names a rule that isn't below n or isn't
                                closed; no letters lead from a place above its forest to
                                these used cells; word 2 or 3 of cell 0 isn't 0; where
                                places are compared, one above the forest */
    MEALPLAN_ROOM = 11,      /* output too short; over 2^64 - 1 nodes; of plan_grams, over
                                2^64 - 1 grams */
    MEALPLAN_CYCLE = 12,     /* some rule reaches itself through the rules it names */
    MEALPLAN_ROW = 13,       /* a row's lowest label is above its highest, its highest above
                                16,777,215, or its class above 3; of plan_copy, the
                                client's class above 3, at 0 */
    MEALPLAN_GAP = 14,       /* labels that no row covers, at the row after them or at the
                                number of rows */
    MEALPLAN_OVERLAP = 15,   /* a row covers labels that are already covered */
    MEALPLAN_TOO_MANY = 16   /* a plan of more than 4,096 rules isn't copied */
};

/* Check a plan: 1 to 6, 12, 7. Accepted: *n is the number of rules, *start the start
   rule. A rule may name lower rules and higher ones. */
uint32_t plan_check(const uint8_t *plan, size_t plan_len,
                    uint16_t *n, uint16_t *start, uint64_t *position);

/* Seal rule words as a plan without cover at the front of out: 1, 2, 4 to 6, 12, 7,
   11. The record length is MEALPLAN_NARROW, for four words to a rule, or
   MEALPLAN_WIDE, for five; any other is 1, whatever the rest. Accepted: *written is
   the plan's length and later bytes of out stay. Refused: out is untouched. */
uint32_t plan_seal(const uint8_t *words, size_t words_len,
                   uint16_t record_length, uint16_t start,
                   uint8_t *out, size_t out_len,
                   uint64_t *written, uint64_t *position);

/* Unseal a plan, its rule words at the front of out: 1 to 6, 12, 7, 11. Accepted:
   *record_length is that of the plan, *n and *start are as plan_check gives them, and
   later words stay. Refused: out is untouched. */
uint32_t plan_unseal(const uint8_t *plan, size_t plan_len,
                     uint8_t *out, size_t out_len,
                     uint16_t *record_length, uint16_t *n, uint16_t *start,
                     uint64_t *position);

/* Measure a plan's forest, *trees, *entries and *levels: 1 to 6, 12, 7, 8, and 11 if it
   has more than 2^64 - 1 nodes. A node with label MEALPLAN_DIVIDER is a divider line and
   not an entry: trees, levels and 11 count it, entries don't. To all other functions it
   is a node as any other; by one row of 1 gram plan_grams counts all nodes. Unless 1 to
   8 or 12 refuses, the needed bytes of work end as zeros; those past them never change. */
uint32_t plan_measure(const uint8_t *plan, size_t plan_len,
                      uint8_t *work, size_t work_len,
                      uint64_t *trees, uint64_t *entries, uint64_t *levels,
                      uint64_t *position);

/* Spread a plan's forest as text, "(", the label, the children, ")" for each node in
   reading order, at the front of out: 1 to 6, 12, 7, 8, 11. The label is a byte, in a
   wide plan three, low first. work as for plan_measure. Accepted: *written is the
   text's length and later bytes of out stay. Refused: out is untouched. */
uint32_t plan_spread(const uint8_t *plan, size_t plan_len,
                     uint8_t *work, size_t work_len,
                     uint8_t *out, size_t out_len,
                     uint64_t *written, uint64_t *position);

/* Walk from the place in cursor, a letter at a time: 1 to 6, 12, 7 to 10. a, z: to the
   root of the first, last tree; f, l: first, last child; n, p: next, previous sibling;
   u: parent; s: stay. Each letter gives an answer: the label of the node arrived at,
   or nowhere, and then the place is kept. The forest is that of the rule which
   MEALPLAN_WORD(cursor) names, whatever the start is. A cursor as mealplan_above leaves it
   is above that forest, from where only a and z lead. work as for plan_measure. Accepted:
   cursor holds the new place and, in the needed bytes, zeros after it; its MEALPLAN_WORD,
   its later bytes and those of answers stay. Refused: cursor and answers are untouched. */
uint32_t plan_walk(const uint8_t *plan, size_t plan_len,
                   uint8_t *work, size_t work_len,
                   uint8_t *cursor, size_t cursor_len,
                   const uint8_t *letters, size_t letters_len,
                   uint8_t *answers, size_t answers_len,
                   uint64_t *position);

/* What plan_compare finds of two places. */
enum mealplan_verdict {
    MEALPLAN_SAME = 0,   /* the same subtrees, tops included: the same labels at the same
                            levels */
    MEALPLAN_DIFFER = 1, /* not the same */
    MEALPLAN_SPENT = 2   /* the budget was spent before that was known */
};

/* Compare the subtrees at the places in first and second: 1 to 6, 12, 7, 8, 10. All
   nodes of each, in reading order with label and level below its top, stand against
   each other pair by pair. Accepted: *verdict is as above, *count the place, from 1, of
   the first pair that differs, a node against an ended list included, or their common
   length. Spent comes where that number is above the budget, and then always, and
   *count is the budget: a larger budget changes no same and no differ. Each place is one
   of the rule that its own cursor names, so that two days are compared as two rules. 10 is
   the first place's, then the second's. work as for plan_measure; first and second are
   only read. */
uint32_t plan_compare(const uint8_t *plan, size_t plan_len,
                      uint8_t *work, size_t work_len,
                      const uint8_t *first, size_t first_len,
                      const uint8_t *second, size_t second_len,
                      uint32_t budget, uint32_t *verdict, uint32_t *count,
                      uint64_t *position);

/* A row of a list of who may read which label, and of what an entry weighs: the labels
   from lowest to highest have the class, and so many grams per entry, 0 to 65,535; so
   has the label of a divider line. The grams are looked at by plan_grams alone. */
struct plan_row {
    uint32_t lowest, highest;
    uint16_t class_;
    uint16_t grams;
};

/* Limits of a row. */
#define MEALPLAN_LAST_LABEL 16777215u
#define MEALPLAN_LAST_CLASS 3u

/* The class of a label by a list of rows in label order, which together cover 0 to
   MEALPLAN_LAST_LABEL once: 13 to 15 at the first row at fault, 13 first in each row,
   then 4 at 0 for a label above MEALPLAN_LAST_LABEL. Accepted: *class_ is the class of
   the row that covers the label. */
uint32_t plan_class(const struct plan_row *rows, size_t rows_len, uint32_t label,
                    uint16_t *class_, uint64_t *position);

/* Copy a plan for a client of a class, by a list of rows as in plan_class: 1 to 6, 12,
   7; then 13 at 0 for a class above MEALPLAN_LAST_CLASS, before the list is read; 13 to
   15 for the list; 16 above MEALPLAN_MOST_COPIED rules; 8 for work as in plan_measure or
   for an out of less than MEALPLAN_COPY_BYTES, even where the copy is shorter. A forest
   of any size is copied, and an empty one too. Accepted: at the front of out stands a
   wide plan without cover; its forest is the plan's with every node of a higher class
   gone and all below it, order kept. *written is its length, and later bytes of out
   stay; the needed bytes of work end as zeros, and later ones stay. Which rules the copy
   has is left open, but plan_check accepts it, each rule is the start or reached from it,
   each names lower ones only, there are at most three for each of the plan's, and none
   has the label of a higher class. Refused: out and work are untouched. */
uint32_t plan_copy(const uint8_t *plan, size_t plan_len,
                   const struct plan_row *rows, size_t rows_len, uint16_t class_,
                   uint8_t *work, size_t work_len,
                   uint8_t *out, size_t out_len,
                   uint64_t *written, uint64_t *position);

/* Weigh a plan's forest by a list of rows as in plan_class: 1 to 6, 12, 7; then 13 to 15
   for the list; 8 for work as in plan_measure; and 11 if the sum is above 2^64 - 1.
   Accepted: *grams is the sum over all nodes of the grams of the row that covers the
   node's label, whatever its class; an empty forest weighs 0. The sum is all that 11
   looks at: a forest of more than 2^64 - 1 nodes is weighed if its grams fit. By one row
   of 1 gram for all labels the sum is the number of nodes. Unless 1 to 8 or 12 to 15
   refuses, the needed bytes of work end as zeros; those past them never change. */
uint32_t plan_grams(const uint8_t *plan, size_t plan_len,
                    const struct plan_row *rows, size_t rows_len,
                    uint8_t *work, size_t work_len,
                    uint64_t *grams, uint64_t *position);

/* Why a letter moves or doesn't, as plan_reason answers. Exactly one holds for each letter
   at each place. */
enum mealplan_reason {
    MEALPLAN_MOVES = 0,         /* the letter moves: at a node s does, and where there are
                                   trees a and z do from anywhere, also to where one stands */
    MEALPLAN_ABOVE = 1,         /* above a forest with trees, and neither a nor z */
    MEALPLAN_NO_TREES = 2,      /* the forest is empty, whichever the letter */
    MEALPLAN_NO_CHILDREN = 3,   /* f or l at a node without children */
    MEALPLAN_LAST_SIBLING = 4,  /* n at the last of its siblings */
    MEALPLAN_FIRST_SIBLING = 5, /* p at the first of its siblings */
    MEALPLAN_ROOT = 6           /* u at a root */
};

/* Why a letter moves or doesn't from the place in cursor: 1 to 6, 12, 7; 8 for work or the
   cursor; 9 at 0 for a byte that is no letter; 10. So it is refused exactly where plan_walk
   of that one letter is, with room for its answer. Accepted: *reason is as above, of the
   forest of the rule that MEALPLAN_WORD(cursor) names, and it is MEALPLAN_MOVES exactly
   where that walk doesn't answer nowhere. work as for plan_measure; the cursor is only
   read. */
uint32_t plan_reason(const uint8_t *plan, size_t plan_len,
                     uint8_t *work, size_t work_len,
                     const uint8_t *cursor, size_t cursor_len,
                     uint8_t letter, uint32_t *reason, uint64_t *position);

/* What the library takes of a device, in bytes, at most; tests/stack.sh measures it.

   Code with its constants, of all eleven functions, and of plan_check and plan_walk
   alone where the linker drops what isn't used (--gc-sections). There are no data and
   no bss, and the one function that the library calls is memset. */
#define MEALPLAN_CODE_BYTES 28672
#define MEALPLAN_CODE_BYTES_CHECK_WALK 13312

/* Stack: the deepest chain of calls (there is no recursion) with the return address,
   without the arguments that the caller puts on the stack and without what memset takes
   beyond its own return address. The code uses the red zone of the x86-64 ABI: an
   interrupt on the same stack leaves 128 bytes below the stack pointer alone. Most of
   it is the room in which a plan's rules are ordered, to see that none reaches itself:
   four bytes a rule, for MEALPLAN_FEW_RULES or for MEALPLAN_MOST_RULES.

   By the function, for plans that aren't MEALPLAN_MARKED or whose MEALPLAN_RULES are at
   most MEALPLAN_FEW_RULES, and for the words of so many rules, accepted or refused: */
#define MEALPLAN_STACK_CHECK 5120
#define MEALPLAN_STACK_SEAL 5120
#define MEALPLAN_STACK_UNSEAL 5120
#define MEALPLAN_STACK_MEASURE 5120
#define MEALPLAN_STACK_SPREAD 5120
#define MEALPLAN_STACK_WALK 5120
#define MEALPLAN_STACK_COMPARE 5120
#define MEALPLAN_STACK_COPY 5120
#define MEALPLAN_STACK_GRAMS 5120
#define MEALPLAN_STACK_REASON 5120

/* For each of these, whatever the plan or the words: */
#define MEALPLAN_STACK_MANY 73728

/* Of plan_class, whatever the rows: */
#define MEALPLAN_STACK_CLASS 48

/* Time isn't bounded by a proof. A plan that is refused with 12 may take the square of
   its rules in each function that checks it, at worst some 2 milliseconds at 1,024 rules
   and half a second, beside other work two, at 16,384, on a server's processor. */

#ifdef __cplusplus
}
#endif

#endif
