/* The desk where a client's copy is made: it copies a plan for a client of a class, and shows the plan and the copy side by side.

       copy PLAN CLASS [LETTERS]

   Without letters it shows all nodes in reading order, dividers too, each below its parent by two columns, and beside those that the copy has
   these; with letters it shows where each leads, in the plan and in the copy, both from above the forest. Whatever the copy's rules are, a node
   that it has must be the plan's next one that the client may see, at the same level: if not, it says so.
   All memory is laid out here, once. A copy has at most three rules for each of the plan's. */
#include "mealplan.h"
#include <ctype.h>
#include <stdio.h>
#include <stdlib.h>
#include <string.h>

enum { MOST_PLAN = 16384 /* bytes, with its cover */, MOST_RULES = MEALPLAN_FEW_RULES, MOST_SHOWN = 200, COLUMN = 20 };

/* The clinic's list: who may read which label. */
static const struct plan_row list[] = {
    {0, 97, 0, 0},
    {98, 98, 2, 0},
    {99, MEALPLAN_LAST_LABEL, 1, 0},
};
enum { ROWS = sizeof list / sizeof *list };

static uint8_t plan[MOST_PLAN + 1], copy[MEALPLAN_COPY_BYTES(MOST_RULES)];
static uint8_t work[MEALPLAN_WORK_BYTES(3 * MOST_RULES)];
static uint8_t cursors[2][MEALPLAN_CURSOR_BYTES(3 * MOST_RULES)]; /* zeros: above the forest */

/* A plan that is walked, and the level of the node where the walk stands; above the forest that is 0. */
static struct walk {
    const uint8_t *plan;
    size_t length;
    uint8_t *cursor;
    unsigned level;
} whole = {plan, 0, cursors[0], 0}, seen = {copy, 0, cursors[1], 0};

static int refused(uint32_t number, uint64_t position) {
    printf("refused %u at %llu\n", (unsigned)number, (unsigned long long)position);
    return 1;
}

/* Reads the plan; one that is absent counts as empty, one too long as refused with 8, one of too many rules for this desk with 2. */
static int read_plan(const char *name) {
    FILE *file = fopen(name, "rb");
    if (file) {
        whole.length = fread(plan, 1, sizeof plan, file);
        fclose(file);
    }
    if (whole.length > MOST_PLAN) return refused(MEALPLAN_LENT, 0);
    if (MEALPLAN_MARKED(plan, whole.length) && MEALPLAN_RULES(plan, whole.length) > MOST_RULES) return refused(MEALPLAN_COUNT, 0);
    return 0;
}

/* One letter: the label that it leads to, or nowhere. A byte that is no letter ends the program. */
static uint32_t go(struct walk *w, char letter) {
    uint8_t answer[MEALPLAN_ANSWERS_BYTES(1)];
    uint64_t position;
    uint32_t number = plan_walk(w->plan, w->length, work, sizeof work, w->cursor, sizeof cursors[0], (const uint8_t *)&letter, 1, answer,
                                sizeof answer, &position);
    if (number) exit(refused(number, position));
    return MEALPLAN_ANSWER(answer, 0);
}

/* To the next node in reading order: the first root, the first child, else the next sibling of the node or of the nearest one above it. */
static uint32_t next(struct walk *w) {
    uint32_t label = go(w, w->level ? 'f' : 'a');
    if (label != MEALPLAN_NOWHERE) return w->level++, label;
    for (; w->level; w->level--) {
        if ((label = go(w, 'n')) != MEALPLAN_NOWHERE) return label;
        go(w, 'u');
    }
    return MEALPLAN_NOWHERE;
}

/* Whether a client of a class may see a label. */
static int may_see(uint16_t class_, uint32_t label) {
    uint16_t of_label;
    uint64_t position;
    return plan_class(list, ROWS, label, &of_label, &position) == MEALPLAN_ACCEPTED && of_label <= class_;
}

/* A label as text: the character, if it is one, else the number. */
static const char *name(uint32_t label, char *text, size_t length) {
    if (label == MEALPLAN_NOWHERE)
        snprintf(text, length, "nowhere");
    else if (label < 256 && isprint((int)label))
        snprintf(text, length, "%c", (int)label);
    else
        snprintf(text, length, "%lu", (unsigned long)label);
    return text;
}

/* A line of both columns; where the second is empty there are no blanks before it. */
static void line(const char *first, const char *second) {
    if (*second)
        printf("%-*s%s\n", COLUMN, first, second);
    else
        printf("%s\n", first);
}

/* A node, below its parent by two columns. */
static const char *node(unsigned level, uint32_t label, char *text, size_t length) {
    char of[16];
    snprintf(text, length, "%*s%s", 2 * ((int)level - 1), "", name(label, of, sizeof of));
    return text;
}

/* All nodes, and beside them those of the copy. */
static int outline(uint16_t class_) {
    unsigned nodes = 0, copied = 0, gone = 0; /* gone: the level of a node that the client may not see, and so for all below it */
    for (uint32_t label; nodes < MOST_SHOWN && (label = next(&whole)) != MEALPLAN_NOWHERE; nodes++) {
        char first[80], second[80] = "";
        if (!gone || whole.level <= gone) gone = may_see(class_, label) ? 0 : whole.level;
        if (!gone) {
            uint32_t there = next(&seen);
            if (there != label || seen.level != whole.level) return printf("the copy has something else\n"), 1;
            node(seen.level, there, second, sizeof second), copied++;
        }
        line(node(whole.level, label, first, sizeof first), second);
    }
    char first[80], second[80];
    snprintf(first, sizeof first, "nodes: %u", nodes), snprintf(second, sizeof second, "nodes: %u", copied);
    line(first, second);
    if (nodes < MOST_SHOWN && next(&seen) != MEALPLAN_NOWHERE) return printf("the copy has more\n"), 1;
    return 0;
}

/* Where letters lead. */
static int keys(const char *letters) {
    for (; *letters; letters++) {
        char first[80], of[16];
        snprintf(first, sizeof first, "%c  %s", *letters, name(go(&whole, *letters), of, sizeof of));
        line(first, name(go(&seen, *letters), of, sizeof of));
    }
    return 0;
}

int main(int argc, char **argv) {
    if (argc != 3 && argc != 4) return fprintf(stderr, "usage: copy PLAN CLASS [LETTERS]\n"), 2;
    unsigned long class_ = strtoul(argv[2], 0, 10);
    uint64_t written, position;
    if (read_plan(argv[1])) return 1;
    uint32_t number = plan_copy(plan, whole.length, list, ROWS, class_ > 65535 ? 65535 : (uint16_t)class_, work, sizeof work, copy,
                                sizeof copy, &written, &position);
    if (number) return refused(number, position);
    /* The copy could be handed to the client now: it is the first so many bytes. */
    seen.length = (size_t)written;
    char second[80];
    snprintf(second, sizeof second, "class %lu", class_);
    line("the plan", second);
    return argc == 4 ? keys(argv[3]) : outline((uint16_t)class_);
}
