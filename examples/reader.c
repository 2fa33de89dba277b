/* The shell of a table-top reader: it lends the buffers, takes keys from standard input and shows labels.

       reader PLAN [RULE]

   With a rule, say that of one day, its forest alone is walked. Keys are the letters of plan_walk (a z f l n p u s), m, which remembers the
   place, =, which asks whether the node and all below it is the same there and here, and q, which ends; blanks and line ends are passed over.
   A key that leads nowhere says why.
   All memory is laid out here, once, for the largest plan of either format that this reader takes: the walker keeps nothing and asks for
   nothing. A table-top reader takes few rules, and turns down a plan of more before any call, so that it needs the smaller stack alone. */
#include "mealplan.h"
#include <ctype.h>
#include <stdio.h>
#include <stdlib.h>
#include <string.h>

enum { BUDGET = 100000 /* pairs of nodes that a reader waits for */ };
enum { MOST_PLAN = 16384 /* bytes, with its cover */, MOST_RULES = MEALPLAN_FEW_RULES };

static uint8_t plan[MOST_PLAN + 1];
static uint8_t work[MEALPLAN_WORK_BYTES(MOST_RULES)];
static uint8_t cursor[MEALPLAN_CURSOR_BYTES(MOST_RULES)]; /* zeros: above the forest */
static uint8_t remembered[MEALPLAN_CURSOR_BYTES(MOST_RULES)];
static size_t plan_len;

static int refused(uint32_t number, uint64_t position) {
    printf("refused %u at %llu\n", (unsigned)number, (unsigned long long)position);
    return 1;
}

/* Reads the plan; one that is absent counts as empty, one too long as refused with 8. One of too many rules is refused with 2, where check
   tests their number: behind the mark, before all else. */
static int read_plan(const char *name) {
    FILE *file = fopen(name, "rb");
    if (file) {
        plan_len = fread(plan, 1, sizeof plan, file);
        fclose(file);
    }
    if (plan_len > MOST_PLAN) return refused(MEALPLAN_LENT, 0);
    if (MEALPLAN_MARKED(plan, plan_len) && MEALPLAN_RULES(plan, plan_len) > MOST_RULES) return refused(MEALPLAN_COUNT, 0);
    return 0;
}

/* Says of what format and how large the plan is. */
static int greet(void) {
    uint16_t n, start;
    uint64_t trees, entries, levels, position;
    uint32_t number = plan_check(plan, plan_len, &n, &start, &position);
    if (number) return refused(number, position);
    int wide = MEALPLAN_RECORD_LENGTH(plan, plan_len) == MEALPLAN_WIDE;
    printf("%u %srules, start %u: ", n, wide ? "wide " : "", start);
    number = plan_measure(plan, plan_len, work, sizeof work, &trees, &entries, &levels, &position);
    if (number == MEALPLAN_ROOM) return printf("more than 2^64 - 1 nodes\n"), 0;
    if (number) return refused(number, position);
    printf("%llu trees, %llu entries, %llu levels\n", (unsigned long long)trees, (unsigned long long)entries,
           (unsigned long long)levels);
    return 0;
}

/* Shows the label that a key led to: up to eight digits, and the character if it is one. */
static int show(int key, uint32_t label) {
    if (label < 256 && isprint((int)label)) return printf("%c  %u %c\n", key, (unsigned)label, (int)label), 0;
    return printf("%c  %u\n", key, (unsigned)label), 0;
}

/* Says why a key led nowhere: it kept the place, so the reason is asked of the cursor as it is now. */
static int explain(int key) {
    static const char *const reasons[] = {"it moves",    "above the forest",         "the forest is empty",
                                          "no children", "the last of its siblings", "the first of its siblings",
                                          "a root"};
    uint32_t reason;
    uint64_t position;
    uint32_t number = plan_reason(plan, plan_len, work, sizeof work, cursor, sizeof cursor, (uint8_t)key, &reason, &position);
    if (number) return refused(number, position);
    return printf("%c  nowhere: %s\n", key, reasons[reason]), 0;
}

/* One key is one call: the place is in the cursor between calls, and nowhere else. */
static int press(int key) {
    uint8_t letter = (uint8_t)key, answers[MEALPLAN_ANSWERS_BYTES(1)];
    uint64_t position;
    uint32_t number = plan_walk(plan, plan_len, work, sizeof work, cursor, sizeof cursor, &letter, 1, answers,
                                sizeof answers, &position);
    if (number == MEALPLAN_LETTER) return printf("%c  no such key\n", isprint(key) ? key : '?'), 0;
    if (number) return refused(number, position);
    uint32_t label = MEALPLAN_ANSWER(answers, 0);
    return label == MEALPLAN_NOWHERE ? explain(key) : show(key, label);
}

/* Stands above the forest of one rule, by its number; a walk of no letters tells whether there is such a rule and it is closed. */
static int walk_alone(const char *text) {
    char *end;
    unsigned long rule = strtoul(text, &end, 10);
    if (!isdigit((unsigned char)*text) || *end) return fprintf(stderr, "reader: %s is no number\n", text), 2;
    if (rule >= MOST_RULES) return refused(MEALPLAN_PLACE, 0);
    mealplan_above(cursor, MEALPLAN_RULE_WORD(rule));
    uint64_t position;
    uint8_t none[1];
    uint32_t number = plan_walk(plan, plan_len, work, sizeof work, cursor, sizeof cursor, none, 0, none, 0, &position);
    if (number) return refused(number, position);
    return printf("rule %lu alone\n", rule), 0;
}

/* Remembers the place: its used cells are enough. */
static int remember(void) {
    memcpy(remembered, cursor, MEALPLAN_PLACE_BYTES(cursor));
    return printf("m  remembered\n"), 0;
}

/* Compares the place with the one remembered; neither is changed. */
static int compare(void) {
    uint32_t verdict, count;
    uint64_t position;
    uint32_t number = plan_compare(plan, plan_len, work, sizeof work, remembered, sizeof remembered, cursor, sizeof cursor, BUDGET,
                                   &verdict, &count, &position);
    if (number == MEALPLAN_PLACE) return printf("=  above the forest\n"), 0;
    if (number) return refused(number, position);
    switch (verdict) {
    case MEALPLAN_SAME: return printf("=  the same, %lu in all\n", (unsigned long)count), 0;
    case MEALPLAN_DIFFER: return printf("=  another at %lu\n", (unsigned long)count), 0;
    default: return printf("=  the same up to %lu\n", (unsigned long)count), 0;
    }
}

int main(int argc, char **argv) {
    if (argc < 2 || argc > 3) return fprintf(stderr, "usage: reader PLAN [RULE]\n"), 2;
    if (read_plan(argv[1]) || greet()) return 1;
    int status = argc == 3 ? walk_alone(argv[2]) : 0;
    if (status) return status;
    for (int key; (key = getchar()) != EOF && key != 'q';) {
        if (isspace(key)) continue;
        if (key == 'm' ? remember() : key == '=' ? compare() : press(key)) return 1;
    }
    /* The place could be kept in a file now: it is the first MEALPLAN_PLACE_BYTES(cursor) bytes. */
    printf("stopped with %u cells\n", (unsigned)MEALPLAN_CELLS(cursor));
    return 0;
}
