/* How much stack each function of the library takes on plans of several shapes, in several orders and in both formats, held to the bounds of
   include/mealplan.h: those for few rules on plans of 1,024 rules, that for any plan on plans of 16,384, for plan_copy also on plans of 4,096, the
   most that it copies, and that of plan_class on lists of rows, accepted and refused.
   Each call runs on a stack of its own that was painted before: what is no longer paint, below where the function was called, was used.
   A bound that is exceeded, or that is more than twice what was used, ends the run with status 1. */
#include "mealplan.h"
#include <stdio.h>
#include <stdlib.h>
#include <string.h>
#include <ucontext.h>

enum { MOST = MEALPLAN_MOST_RULES, LETTERS = 4096, TEXT = 1 << 20, BUDGET = 1 << 16, ROWS = 1 << 16, FUNCTIONS = 10 };

static uint8_t words[MEALPLAN_WORDS_BYTES(MOST, MEALPLAN_WIDE)], plan[MEALPLAN_PLAN_BYTES(MOST, MEALPLAN_WIDE)];
static uint8_t work[MEALPLAN_WORK_BYTES(MOST)], cursor[MEALPLAN_CURSOR_BYTES(MOST)], root[MEALPLAN_CURSOR_BYTES(MOST)];
static uint8_t letters[LETTERS], answers[MEALPLAN_ANSWERS_BYTES(LETTERS)], out[TEXT];
static uint16_t record, n, start;
static uint16_t rules, format, first; /* of the plan that is tried: its rules, the record length, and the start that is lent to seal */
static size_t words_len, plan_len;
static uint64_t trees, entries, levels, written, grams, position;
static uint32_t verdict, pairs, reason, result;

/* The library's memset is this one, which takes no stack but its return address: so the figures are the library's own. */
__asm__(".text\n.globl memset\n.type memset, @function\n"
        "memset: mov %rdi, %r8\n mov %esi, %eax\n mov %rdx, %rcx\n rep stosb\n mov %r8, %rax\n ret\n"
        ".size memset, .-memset\n");

/* Notes the stack pointer where it is called. */
static uint8_t *called;
static uint32_t note(void) {
    called = __builtin_dwarf_cfa();
    return 0;
}

/* Calls a function, and before it, from the same place, the one that notes the stack pointer. */
#define CALL(function, ...)                                                         \
    __typeof__(&function) callee = (__typeof__(&function))(void (*)(void))note;     \
    for (int i = 0; i < 2; i++, callee = function) result = callee(__VA_ARGS__)

static void check(void) { CALL(plan_check, plan, plan_len, &n, &start, &position); }
static void seal(void) { CALL(plan_seal, words, words_len, format, first, plan, sizeof plan, &written, &position); }
static void unseal(void) { CALL(plan_unseal, plan, plan_len, words, sizeof words, &record, &n, &start, &position); }
static void measure(void) { CALL(plan_measure, plan, plan_len, work, sizeof work, &trees, &entries, &levels, &position); }
static void spread(void) { CALL(plan_spread, plan, plan_len, work, sizeof work, out, sizeof out, &written, &position); }
static void walk(void) {
    CALL(plan_walk, plan, plan_len, work, sizeof work, cursor, sizeof cursor, letters, LETTERS, answers, sizeof answers, &position);
}

/* The place where the walk ended, and the first tree. */
static void compare(void) {
    CALL(plan_compare, plan, plan_len, work, sizeof work, cursor, sizeof cursor, root, sizeof root, BUDGET, &verdict, &pairs, &position);
}

/* Every letter from where the walk ended. */
static void ask(void) {
    for (const char *letter = "azflnpus"; *letter; letter++) {
        CALL(plan_reason, plan, plan_len, work, sizeof work, cursor, sizeof cursor, (uint8_t)*letter, &reason, &position);
    }
}

/* For a client who sees a part of the labels, all of which weigh something. */
static const struct plan_row classes[] = {{0, 97, 0, 120}, {98, 200, 1, 30}, {201, MEALPLAN_LAST_LABEL, 2, 65535}};
static void copy(void) {
    CALL(plan_copy, plan, plan_len, classes, 3, 1, work, sizeof work, out, sizeof out, &written, &position);
}
static void weigh(void) { CALL(plan_grams, plan, plan_len, classes, 3, work, sizeof work, &grams, &position); }

/* A list of rows of 256 labels each, of which so many are lent, and the label asked for. */
static struct plan_row rows[ROWS];
static size_t rows_len;
static uint32_t label;
static uint16_t class_;
static void classed(void) { CALL(plan_class, rows, rows_len, label, &class_, &position); }

/* The bytes of stack that a call used, the deeper of two stacks painted differently. */
static size_t used(void (*call)(void)) {
    static uint8_t area[1 << 17] __attribute__((aligned(16)));
    static ucontext_t outside, inside;
    size_t most = 0;
    for (int paint = 0x5a; paint <= 0xa5; paint += 0x4b) {
        memset(area, paint, sizeof area);
        getcontext(&inside);
        inside.uc_stack.ss_sp = area;
        inside.uc_stack.ss_size = sizeof area;
        inside.uc_link = &outside;
        makecontext(&inside, call, 0);
        swapcontext(&outside, &inside);
        uint8_t *lowest = area;
        while (*lowest == paint) lowest++;
        if (most < (size_t)(called - lowest)) most = (size_t)(called - lowest);
    }
    return most;
}

/* The functions, what the header says of each on plans of few rules, and the most that was used on the plans tried; plan_copy is the last. */
static struct function {
    const char *name;
    void (*call)(void);
    size_t bound, most;
} functions[FUNCTIONS] = {
    {"plan_seal", seal, MEALPLAN_STACK_SEAL, 0},          {"plan_check", check, MEALPLAN_STACK_CHECK, 0},
    {"plan_unseal", unseal, MEALPLAN_STACK_UNSEAL, 0},    {"plan_measure", measure, MEALPLAN_STACK_MEASURE, 0},
    {"plan_spread", spread, MEALPLAN_STACK_SPREAD, 0},    {"plan_walk", walk, MEALPLAN_STACK_WALK, 0},
    {"plan_compare", compare, MEALPLAN_STACK_COMPARE, 0}, {"plan_reason", ask, MEALPLAN_STACK_REASON, 0},
    {"plan_grams", weigh, MEALPLAN_STACK_GRAMS, 0},       {"plan_copy", copy, MEALPLAN_STACK_COPY, 0},
};

/* Any number below a bound: xorshift, the same at every run. */
static uint32_t below(uint32_t bound) {
    static uint32_t x = 2463534242u;
    x ^= x << 13, x ^= x >> 17, x ^= x << 5;
    return x % bound;
}

/* Writes a rule; in a wide plan the high part of a label is as its low one. */
static void rule(size_t r, unsigned kind, unsigned a, unsigned b, unsigned c) {
    unsigned word[5] = {kind, a, b, c, kind == 2 || kind == 4 ? a : 0};
    uint8_t *to = words + format * r;
    for (size_t i = 0; i < format / 2u; i++) to[2 * i] = (uint8_t)word[i], to[2 * i + 1] = (uint8_t)(word[i] >> 8);
}

/* The shapes. Rules 0 to 2 are empty, a node and a node with a hole between two; the last rule, the start, closes or ends what stands
   below it. */
static void left_row(unsigned r) { rule(r, 1, r - 1, 1, 0); }
static void right_row(unsigned r) { rule(r, 1, 1, r - 1, 0); }
static void zigzag_row(unsigned r) { r % 2 ? left_row(r) : right_row(r); }
static void one_sided(unsigned r) { rule(r, 1, r % 2 ? r - 1 : 0, r % 2 ? 0 : r - 1, 0); }
static void nodes(unsigned r) { rule(r, 2, r % 256, r - 1, 0); }
static void doubled(unsigned r) { rule(r, 1, r - 1, r - 1, 0); }
static void left_spine(unsigned r) { rule(r, 5, r - 1, 2, 0); }
static void right_spine(unsigned r) { rule(r, 5, 2, r - 1, 0); }
static void zigzag_spine(unsigned r) { r % 2 ? left_spine(r) : right_spine(r); }

/* Rows in spines in rows: of four rules, the first closes the spine, the second sets it in a row, the third opens one beside it. */
static void nested(unsigned r) {
    switch (r % 4) {
    case 0: rule(r, 4, r % 256, r - 1, 1 + below(2) * (r - 2)); break;
    case 1: rule(r, 5, r - 1, r - 1, 0); break;
    case 2: rule(r, 3, r - 1, 1, 0); break;
    default: below(2) ? left_row(r) : right_row(r);
    }
}

static const struct shape {
    const char *name;
    void (*made)(unsigned r);
    int holed; /* the rules below the start are holed */
} shapes[] = {
    {"a left row", left_row, 0},         {"a right row", right_row, 0},       {"a zigzag row", zigzag_row, 0},
    {"one-sided pairs", one_sided, 0},   {"nodes in nodes", nodes, 0},        {"doubled", doubled, 0},
    {"a left spine", left_spine, 1},     {"a right spine", right_spine, 1},   {"a zigzag spine", zigzag_spine, 1},
    {"nested", nested, 0},
};

/* The orders of a plan's rules: as they are made, naming lower ones only; backwards, naming higher ones only; any. In two more orders the
   rule that all others reach, which is made first and comes last backwards, is a pair of itself, and the plan is refused. */
static void as_made(uint16_t *number) {
    for (unsigned r = 0; r < rules; r++) number[r] = (uint16_t)r;
}
static void backwards(uint16_t *number) {
    for (unsigned r = 0; r < rules; r++) number[r] = (uint16_t)(rules - 1 - r);
}
static void any(uint16_t *number) {
    as_made(number);
    for (unsigned r = rules - 1; r; r--) {
        unsigned other = below(r + 1);
        uint16_t kept = number[r];
        number[r] = number[other], number[other] = kept;
    }
}

static const struct order {
    const char *name;
    void (*made)(uint16_t *number);
    int cycle; /* the rule made first reaches itself */
} orders[] = {
    {"as made", as_made, 0},
    {"backwards", backwards, 0},
    {"in any order", any, 0},
    {"backwards into a cycle", backwards, 1},
    {"in any order into a cycle", any, 1},
};

/* Renumbers the rules; gives the number of the one made first. */
static uint64_t renumber(const struct order *o) {
    static uint8_t made[sizeof words];
    static uint16_t number[MOST];
    memcpy(made, words, words_len);
    o->made(number);
    for (unsigned r = 0; r < rules; r++) {
        const uint8_t *from = made + format * r;
        unsigned word[4];
        for (size_t i = 0; i < 4; i++) word[i] = from[2 * i] | (unsigned)from[2 * i + 1] << 8;
        int labelled = word[0] == 2 || word[0] == 4;
        if (word[0] && !labelled) word[1] = number[word[1]];
        if (word[0]) word[2] = number[word[2]];
        if (word[0] == 4) word[3] = number[word[3]];
        rule(number[r], word[0], word[1], word[2], word[3]);
    }
    if (o->cycle) rule(number[0], 1, number[0], number[0], 0);
    first = number[rules - 1];
    return number[0];
}

/* The plan that seal would write of the words, which it doesn't where it refuses. */
static void lay_out(void) {
    memcpy(plan, words, words_len);
    unsigned trailer[4] = {rules, first, (unsigned)words_len & 65535, (unsigned)(words_len >> 16)};
    uint8_t *to = plan + words_len;
    for (size_t i = 0; i < 4; i++) to[2 * i] = (uint8_t)trailer[i], to[2 * i + 1] = (uint8_t)(trailer[i] >> 8);
    memcpy(to + 8, format == MEALPLAN_WIDE ? "mq" : "mp", 2);
}

static void build(const struct shape *s) {
    rule(0, 0, 0, 0, 0);
    rule(1, 2, 97, 0, 0);
    rule(2, 4, 98, 1, 1);
    unsigned from = s->holed ? 3 : 2;
    if (s->made == nested) rule(2, 2, 98, 1, 0), rule(3, 1, 2, 1, 0), from = 4;
    for (unsigned r = from; r < rules; r++) s->made(r);
    if (s->holed) rule(rules - 1, 3, rules - 2, 1, 0);
    for (size_t i = 0; i < LETTERS; i++) letters[i] = (uint8_t)"azfflnnnnppppus"[below(15)];
    memset(cursor, 0, sizeof cursor);
    memset(root, 0, sizeof root);
}

static const struct format {
    const char *name;
    uint16_t length;
} formats[] = {{"narrow", MEALPLAN_NARROW}, {"wide", MEALPLAN_WIDE}};

/* Every function from one on, on a shape in an order and a format; gives how many went otherwise than they are to. */
static int tried(struct function *from, const struct shape *s, const struct order *o, const struct format *as) {
    int wrong = 0;
    format = as->length;
    words_len = MEALPLAN_WORDS_BYTES(rules, format), plan_len = MEALPLAN_PLAN_BYTES(rules, format);
    build(s);
    uint64_t lowest = renumber(o);
    lay_out();
    /* The start by its number, for the first tree in either format and for the walk in the wide one. */
    mealplan_above(root, MEALPLAN_RULE_WORD(first));
    if (format == MEALPLAN_WIDE) mealplan_above(cursor, MEALPLAN_RULE_WORD(first));
    plan_walk(plan, plan_len, work, sizeof work, root, sizeof root, (const uint8_t *)"a", 1, answers, sizeof answers, &position);
    for (struct function *f = from; f < functions + FUNCTIONS; f++) {
        size_t bytes = used(f->call);
        if (f->most < bytes) f->most = bytes;
        int large = (f->call == measure || f->call == spread || f->call == weigh) && result == MEALPLAN_ROOM;
        int many = f->call == copy && rules > MEALPLAN_MOST_COPIED && result == MEALPLAN_TOO_MANY;
        int fine = o->cycle ? result == MEALPLAN_CYCLE && position == lowest : !result || large || many;
        if (fine) continue;
        printf("%s on %u rules, %s, %s, %s: %u at %u\n", f->name, rules, s->name, o->name, as->name, result, (unsigned)position), wrong++;
    }
    if (o->cycle || from != functions) return wrong;
    size_t moved = 0;
    for (size_t i = 0; i < LETTERS; i++) moved += MEALPLAN_ANSWER(answers, i) != MEALPLAN_NOWHERE;
    printf("%u rules, %s, %s, %s: %zu of %d letters lead to a node\n", rules, s->name, o->name, as->name, moved, LETTERS);
    return wrong;
}

/* Every shape, order and format on plans of so many rules, by every function from one on, and what was used held to its bound: one for all, or, if
   that is 0, the one of each; gives whether anything failed. A cycle that all of many rules reach is searched for long, so it is tried with one
   shape alone. */
static int measured(struct function *from, uint16_t count, size_t bound) {
    int failed = 0;
    rules = count;
    for (struct function *f = from; f < functions + FUNCTIONS; f++) f->most = 0;
    for (size_t s = 0; s < sizeof shapes / sizeof *shapes; s++)
        for (size_t o = 0; o < sizeof orders / sizeof *orders; o++)
            for (size_t f = 0; f < sizeof formats / sizeof *formats; f++)
                if (rules <= MEALPLAN_FEW_RULES || !orders[o].cycle || (s == 0 && f == 0))
                    failed |= tried(from, &shapes[s], &orders[o], &formats[f]) != 0;
    for (struct function *f = from; f < functions + FUNCTIONS; f++) {
        size_t stated = bound ? bound : f->bound;
        int bad = stated < f->most || 2 * f->most < stated;
        printf("%s, painted, on plans of %u rules: %zu bytes of stack used, %zu stated%s\n", f->name, rules, f->most, stated,
               bad ? ": FAILED" : "");
        failed |= bad;
    }
    return failed;
}

/* plan_class on the whole list, at labels of several rows and above all, and on lists with a fault; gives whether anything failed. */
static int on_rows(void) {
    size_t most = 0;
    int failed = 0;
    for (uint32_t i = 0; i < ROWS; i++) rows[i] = (struct plan_row){256 * i, 256 * i + 255, i % 4, 0};
    for (unsigned way = 0; way < 8; way++) {
        static const uint32_t wanted[] = {0, 0, 0, 0, MEALPLAN_MALFORMED, MEALPLAN_GAP, MEALPLAN_OVERLAP, MEALPLAN_ROW};
        static const uint32_t labels[] = {0, 255, 256 * 12345, MEALPLAN_LAST_LABEL, MEALPLAN_LAST_LABEL + 1, 7, 7, 7};
        label = labels[way], rows_len = way == 5 ? ROWS - 1 : ROWS;
        if (way == 6) rows[40000].lowest--;
        if (way == 7) rows[30000].class_ = 4;
        size_t bytes = used(classed);
        if (most < bytes) most = bytes;
        if (result != wanted[way] || (!result && class_ != label / 256 % 4)) printf("plan_class, way %u: %u\n", way, result), failed = 1;
    }
    int bad = MEALPLAN_STACK_CLASS < most || 2 * most < MEALPLAN_STACK_CLASS;
    printf("plan_class, painted: %zu bytes of stack used, %d stated%s\n", most, MEALPLAN_STACK_CLASS, bad ? ": FAILED" : "");
    return failed | bad;
}

/* With a word behind its name it tries plans of few rules alone, which takes a second. */
int main(int argc, char **argv) {
    (void)argv;
    int few = measured(functions, MEALPLAN_FEW_RULES, 0);
    if (argc > 1) return few | on_rows();
    int many = measured(functions, MEALPLAN_MOST_RULES, MEALPLAN_STACK_MANY);
    int copied = measured(functions + FUNCTIONS - 1, MEALPLAN_MOST_COPIED, MEALPLAN_STACK_MANY);
    return few | many | copied | on_rows();
}
