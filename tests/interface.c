/* Holds include/mealplan.h to the static library, and calls each function on the sample plans as the reader's shell would. For each length of
   the header a call with exactly that length is accepted and one with a byte less is refused; each refusal of its enum is provoked. Any
   difference from what documents 01 and 02 and the header say ends the run with status 1. */
#include "mealplan.h"
#include <stdio.h>
#include <stdlib.h>
#include <string.h>

enum { MOST = MEALPLAN_MOST_RULES, FEW = MEALPLAN_FEW_RULES, COPIED = MEALPLAN_MOST_COPIED };
enum { NARROW = MEALPLAN_NARROW, WIDE = MEALPLAN_WIDE, TEXT = 33 };

/* The sample plan, and the same as a wide plan with labels of its own; what is lent serves for both formats. */
static uint8_t sample[74], wide[90];
static uint8_t plan[MEALPLAN_PLAN_BYTES(MOST + 1, WIDE)], words[MEALPLAN_WORDS_BYTES(MOST + 1, WIDE)];
static uint8_t out[MEALPLAN_PLAN_BYTES(MOST, WIDE) + MEALPLAN_COPY_BYTES(COPIED)], work[MEALPLAN_WORK_BYTES(MOST) + 1];
static uint8_t cursor[MEALPLAN_CURSOR_BYTES(MOST) + 1], second[MEALPLAN_CURSOR_BYTES(MOST) + 1], answers[MEALPLAN_ANSWERS_BYTES(8)];
static uint16_t record_length, n, start;
static uint64_t trees, entries, levels, written, grams, position;
static uint32_t verdict, count, reason;
static unsigned calls, seen, reasons_seen;

/* What came is what was to come. */
static void want(const char *what, uint64_t came, uint64_t expected) {
    if (came == expected) return;
    printf("%s: %llu, expected %llu\n", what, (unsigned long long)came, (unsigned long long)expected);
    exit(1);
}

/* The result and the position of a call. */
static void gives(const char *what, uint32_t result, uint32_t expected, uint64_t at) {
    want(what, result, expected);
    want(what, position, at);
    calls++;
    seen |= 1u << result;
}

/* A call on a length of exactly so many bytes, and on one less, which this refusal turns down. LENGTH stands for the length. */
#define NEEDS(bytes, refusal, call)                                              \
    do {                                                                         \
        size_t LENGTH = (bytes);                                                 \
        gives(#call " with " #bytes, call, MEALPLAN_ACCEPTED, 0);                \
        LENGTH--;                                                                \
        gives(#call " with less than " #bytes, call, refusal, 0);                \
    } while (0)

static uint32_t check(const uint8_t *bytes, size_t length) { return plan_check(bytes, length, &n, &start, &position); }

/* A walk with just enough lent for the number of rules that check gave. */
static uint32_t walk(const uint8_t *bytes, size_t length, const char *letters) {
    return plan_walk(bytes, length, work, MEALPLAN_WORK_BYTES(n), cursor, MEALPLAN_CURSOR_BYTES(n), (const uint8_t *)letters,
                     strlen(letters), answers, MEALPLAN_ANSWERS_BYTES(strlen(letters)), &position);
}

/* A comparison of the places in cursor and second, likewise. */
static uint32_t compare(const uint8_t *bytes, size_t length, uint32_t budget) {
    return plan_compare(bytes, length, work, MEALPLAN_WORK_BYTES(n), cursor, MEALPLAN_CURSOR_BYTES(n), second,
                        MEALPLAN_CURSOR_BYTES(n), budget, &verdict, &count, &position);
}

/* The reason of a letter from the place in cursor, likewise. */
static uint32_t ask(const uint8_t *bytes, size_t length, uint8_t letter) {
    return plan_reason(bytes, length, work, MEALPLAN_WORK_BYTES(n), cursor, MEALPLAN_CURSOR_BYTES(n), letter, &reason, &position);
}

/* A copy for a client of a class, likewise. */
static uint32_t copy(const uint8_t *bytes, size_t length, const struct plan_row *rows, size_t count, uint16_t class_) {
    return plan_copy(bytes, length, rows, count, class_, work, MEALPLAN_WORK_BYTES(n), out, MEALPLAN_COPY_BYTES(n), &written, &position);
}

/* The grams by a list, likewise. */
static uint32_t weigh(const uint8_t *bytes, size_t length, const struct plan_row *rows, size_t count) {
    return plan_grams(bytes, length, rows, count, work, MEALPLAN_WORK_BYTES(n), &grams, &position);
}

static uint32_t seal(size_t length, uint16_t record, size_t room) {
    return plan_seal(words, length, record, start, out, room, &written, &position);
}

/* Every length of the header that goes by the number of rules and the format. */
static void lengths(const uint8_t *bytes, size_t length) {
    uint16_t record = MEALPLAN_RECORD_LENGTH(bytes, length);
    gives("check", check(bytes, length), MEALPLAN_ACCEPTED, 0);
    want("MEALPLAN_PLAN_BYTES", length, MEALPLAN_PLAN_BYTES(n, record));
    record_length = 9999;
    NEEDS(MEALPLAN_WORDS_BYTES(n, record), MEALPLAN_ROOM,
          plan_unseal(bytes, length, words, LENGTH, &record_length, &n, &start, &position));
    want("MEALPLAN_RECORD_LENGTH", record_length, record);
    NEEDS(MEALPLAN_PLAN_BYTES(n, record), MEALPLAN_ROOM, seal(MEALPLAN_WORDS_BYTES(n, record), record, LENGTH));
    want("the length written", written, length);
    want("the same bytes", memcmp(out, bytes, length) == 0, 1);
    NEEDS(MEALPLAN_WORK_BYTES(n), MEALPLAN_LENT, plan_measure(bytes, length, work, LENGTH, &trees, &entries, &levels, &position));
    NEEDS(MEALPLAN_WORK_BYTES(n), MEALPLAN_LENT,
          plan_spread(bytes, length, work, LENGTH, out, sizeof out, &written, &position));
    static const struct plan_row all = {0, MEALPLAN_LAST_LABEL, 0, 1}; /* a gram for each node */
    NEEDS(MEALPLAN_WORK_BYTES(n), MEALPLAN_LENT, plan_grams(bytes, length, &all, 1, work, LENGTH, &grams, &position));
    want("MEALPLAN_TEXT_BYTES", written, MEALPLAN_TEXT_BYTES(grams, record));
    const uint8_t *az = (const uint8_t *)"az";
    size_t w = MEALPLAN_WORK_BYTES(n), c = MEALPLAN_CURSOR_BYTES(n), a = MEALPLAN_ANSWERS_BYTES(2);
    NEEDS(w, MEALPLAN_LENT, plan_walk(bytes, length, work, LENGTH, cursor, c, az, 2, answers, a, &position));
    NEEDS(c, MEALPLAN_LENT, plan_walk(bytes, length, work, w, cursor, LENGTH, az, 2, answers, a, &position));
    NEEDS(a, MEALPLAN_LENT, plan_walk(bytes, length, work, w, cursor, c, az, 2, answers, LENGTH, &position));
    for (int less = 0; less < 4; less++) /* with nothing less a place above the forest is refused */
        gives("compare above the forest", plan_compare(bytes, length, work, w - (less == 1), cursor, c - (less == 2), second,
              c - (less == 3), 9, &verdict, &count, &position), less ? MEALPLAN_LENT : MEALPLAN_PLACE, 0);
    NEEDS(w, MEALPLAN_LENT, plan_reason(bytes, length, work, LENGTH, cursor, c, 'a', &reason, &position));
    NEEDS(c, MEALPLAN_LENT, plan_reason(bytes, length, work, w, cursor, LENGTH, 'a', &reason, &position));
    memset(cursor, 0, sizeof cursor);
    if (n > COPIED) {
        gives("a copy of too many rules", plan_copy(bytes, length, &all, 1, 0, work, 0, out, 0, &written, &position), MEALPLAN_TOO_MANY, 0);
        return;
    }
    size_t o = MEALPLAN_COPY_BYTES(n);
    NEEDS(w, MEALPLAN_LENT, plan_copy(bytes, length, &all, 1, 0, work, LENGTH, out, o, &written, &position));
    NEEDS(o, MEALPLAN_LENT, plan_copy(bytes, length, &all, 1, 0, work, w, out, LENGTH, &written, &position));
    want("the copy is no longer", written <= MEALPLAN_COPY_BYTES(n), 1);
}

/* So many empty rules of a format, which are zeros before their trailer. */
static size_t empty_rules(size_t count, uint16_t record) {
    memset(plan, 0, sizeof plan);
    uint8_t *trailer = plan + record * count;
    trailer[0] = (uint8_t)count, trailer[1] = (uint8_t)(count >> 8);
    for (size_t i = 0; i < 4; i++) trailer[4 + i] = (uint8_t)(record * count >> 8 * i);
    memcpy(trailer + 8, record == WIDE ? "mq" : "mp", 2);
    return MEALPLAN_PLAN_BYTES(count, record);
}

/* The wide sample is the other one sealed with 65,535 for label 97, a label of three different bytes for 98, and the last one for 99. */
static void widened(void) {
    static const uint8_t labels[3][3] = {{255, 255, 0}, {3, 2, 1}, {255, 255, 255}};
    memset(words, 0, sizeof words);
    for (size_t r = 0; r < 8; r++) {
        uint8_t *rule = words + WIDE * r;
        memcpy(rule, sample + NARROW * r, NARROW);
        if (rule[0] != 2 && rule[0] != 4) continue;
        const uint8_t *label = labels[rule[2] - 97];
        rule[2] = label[0], rule[3] = label[1], rule[8] = label[2];
    }
    start = 7;
    gives("seal of the wide sample", seal(MEALPLAN_WORDS_BYTES(8, WIDE), WIDE, sizeof out), MEALPLAN_ACCEPTED, 0);
    want("its length", written, sizeof wide);
    want("its bytes", memcmp(out, wide, sizeof wide) == 0, 1);
}

/* The sample plan with one byte changed. */
static uint32_t changed(size_t at, uint8_t byte) {
    memcpy(plan, sample, sizeof sample);
    plan[at] = byte;
    return check(plan, sizeof sample);
}

/* The wide one with a word of a rule changed. */
static uint32_t changed_word(size_t rule, size_t word, unsigned value) {
    memcpy(plan, wide, sizeof wide);
    plan[WIDE * rule + 2 * word] = (uint8_t)value, plan[WIDE * rule + 2 * word + 1] = (uint8_t)(value >> 8);
    return check(plan, sizeof wide);
}

/* The work that a measure of so many empty rules needs and clears: these bytes, and none behind them. */
static void worked(size_t count, uint16_t record, size_t bytes) {
    size_t length = empty_rules(count, record);
    want("MEALPLAN_MARKED", MEALPLAN_MARKED(plan, length), 1);
    want("MEALPLAN_RULES", MEALPLAN_RULES(plan, length), count);
    want("MEALPLAN_WORK_BYTES", MEALPLAN_WORK_BYTES(count), bytes);
    memset(work, 3, sizeof work);
    gives("measure with a byte less", plan_measure(plan, length, work, bytes - 1, &trees, &entries, &levels, &position),
          MEALPLAN_LENT, 0);
    want("work is untouched", work[0], 3);
    gives("measure", plan_measure(plan, length, work, sizeof work, &trees, &entries, &levels, &position), MEALPLAN_ACCEPTED, 0);
    for (size_t i = 0; i < sizeof work; i++) want("work", work[i], i < bytes ? 0 : 3);
}

/* The limits, and the lengths of the smallest plan, of the sample, of the largest, and of those on both sides of MEALPLAN_FEW_RULES and of
   MEALPLAN_MOST_COPIED, in either format. */
static void limits(void) {
    lengths(sample, sizeof sample);
    lengths(wide, sizeof wide);
    static const uint16_t records[] = {NARROW, WIDE};
    for (int i = 0; i < 2; i++) {
        uint16_t record = records[i];
        static const size_t counts[] = {1, FEW - 1, FEW, FEW + 1, COPIED - 1, COPIED, COPIED + 1, MOST - 1, MOST};
        for (size_t c = 0; c < sizeof counts / sizeof *counts; c++) lengths(plan, empty_rules(counts[c], record));
        worked(FEW, record, 32 * 2 * (size_t)FEW);
        worked(FEW + 1, record, 40 * 2 * (size_t)(FEW + 1));
        worked(MOST, record, 40 * 2 * (size_t)MOST);
        gives("n above MEALPLAN_MOST_RULES", check(plan, empty_rules(MOST + 1, record)), MEALPLAN_COUNT, 0);
        memset(words, 0, sizeof words);
        gives("seal of more rules", seal(MEALPLAN_WORDS_BYTES(MOST + 1, record), record, sizeof out), MEALPLAN_COUNT, 0);
    }
}

/* Each refusal, but 8 and 11, which the lengths provoke. */
static void refusals(void) {
    gives("nine bytes", check(sample + 65, 9), MEALPLAN_MAGIC, 0);
    want("and MEALPLAN_MARKED", MEALPLAN_MARKED(sample + 65, 9), 0);
    gives("a mark that is neither", changed(73, 'r'), MEALPLAN_MAGIC, 0);
    want("and MEALPLAN_MARKED", MEALPLAN_MARKED(plan, sizeof sample), 0);
    gives("another first byte of the mark", changed(72, 'n'), MEALPLAN_MAGIC, 0);
    want("and MEALPLAN_MARKED", MEALPLAN_MARKED(plan, sizeof sample), 0);
    gives("n = 0", changed(64, 0), MEALPLAN_COUNT, 0);
    gives("n = 16,392", changed(65, 64), MEALPLAN_COUNT, 0);
    want("MEALPLAN_RULES", MEALPLAN_RULES(plan, sizeof sample), 16392);
    gives("n = 16,136, and so a wrong distance", changed(65, 63), MEALPLAN_DISTANCE, 0);
    gives("words that aren't four to a rule", seal(14, NARROW, sizeof out), MEALPLAN_COUNT, 0);
    gives("a distance that isn't 8 * n", changed(68, 63), MEALPLAN_DISTANCE, 0);
    gives("label 256", changed(11, 1), MEALPLAN_MALFORMED, 1);
    gives("kind 6 in rule 3", changed(24, 6), MEALPLAN_MALFORMED, 3);
    gives("rule 3 names rule 8 of 8", changed(28, 8), MEALPLAN_NOT_BELOW, 3);
    gives("rule 3 names rule 255 of 8", changed(28, 255), MEALPLAN_NOT_BELOW, 3);
    gives("rule 6 fills rule 3", changed(50, 3), MEALPLAN_WRONG_SORT, 6);
    gives("a holed start", changed(66, 5), MEALPLAN_START, 0);
    gives("the sample", check(sample, sizeof sample), MEALPLAN_ACCEPTED, 0);
    gives("x among the letters", walk(sample, sizeof sample, "afx"), MEALPLAN_LETTER, 2);
    cursor[0] = 1;
    gives("a cell that leads nowhere", walk(sample, sizeof sample, "a"), MEALPLAN_PLACE, 0);
    for (int word = 2; word < 4; word++) {
        mealplan_above(cursor, 0);
        cursor[2 * word] = 1;
        gives("word 2 or 3 of cell 0", walk(sample, sizeof sample, "a"), MEALPLAN_PLACE, 0);
        mealplan_above(cursor, 0);
        cursor[2 * word + 1] = 1;
        gives("word 2 or 3 of cell 0", walk(sample, sizeof sample, "a"), MEALPLAN_PLACE, 0);
    }
    mealplan_above(cursor, 0);
}

/* Rules in any order: 12, and what comes before it and after it. */
static void orders(void) {
    static const struct plan_row no_row;
    gives("rule 1 over rule 2", changed(12, 2), MEALPLAN_ACCEPTED, 0);
    gives("rule 2 over rule 1", changed(20, 1), MEALPLAN_ACCEPTED, 0);
    gives("rule 3 names itself", changed(28, 3), MEALPLAN_CYCLE, 3);
    plan[66] = 5;
    gives("and a holed start", check(plan, sizeof sample), MEALPLAN_CYCLE, 3);
    plan[24] = 6;
    gives("and kind 6 in rule 3", check(plan, sizeof sample), MEALPLAN_MALFORMED, 3);
    gives("rule 3 names rule 7, which reaches it", changed(28, 7), MEALPLAN_CYCLE, 3);
    gives("rule 2 over rule 3, which names it", changed(20, 3), MEALPLAN_CYCLE, 2);
    plan[58] = 9;
    gives("and rule 7 names rule 9", check(plan, sizeof sample), MEALPLAN_NOT_BELOW, 7);
    gives("rule 7 names itself", changed(58, 7), MEALPLAN_CYCLE, 7);
    plan[66] = 6;
    gives("and the start doesn't reach it", check(plan, sizeof sample), MEALPLAN_CYCLE, 7);
    plan[38] = 7;
    gives("and rules 4 to 6 only reach it", check(plan, sizeof sample), MEALPLAN_CYCLE, 7);
    gives("and sealed", plan_seal(plan, 64, NARROW, 6, out, 0, &written, &position), MEALPLAN_CYCLE, 7);
    gives("and unsealed", plan_unseal(plan, sizeof sample, words, 0, &record_length, &n, &start, &position), MEALPLAN_CYCLE, 7);
    gives("and measured", plan_measure(plan, sizeof sample, work, 0, &trees, &entries, &levels, &position), MEALPLAN_CYCLE, 7);
    gives("and spread", plan_spread(plan, sizeof sample, work, 0, out, 0, &written, &position), MEALPLAN_CYCLE, 7);
    gives("and walked", walk(plan, sizeof sample, "x"), MEALPLAN_CYCLE, 7);
    gives("and compared", compare(plan, sizeof sample, 0), MEALPLAN_CYCLE, 7);
    gives("and copied", copy(plan, sizeof sample, &no_row, 0, 4), MEALPLAN_CYCLE, 7);
    gives("and weighed", weigh(plan, sizeof sample, &no_row, 0), MEALPLAN_CYCLE, 7);
    gives("and asked about", ask(plan, sizeof sample, 'x'), MEALPLAN_CYCLE, 7);
}

/* The two formats: record lengths, marks, and what a wide plan's words may be. */
static void formats(void) {
    for (unsigned record = 0; record <= 65535; record++)
        if (record != NARROW && record != WIDE) want("seal with any other record length", seal(20, (uint16_t)record, 30), MEALPLAN_MAGIC);
    gives("record length 9, and no words and no room", seal(0, 9, 0), MEALPLAN_MAGIC, 0);
    gives("words that aren't five to a rule", seal(18, WIDE, sizeof out), MEALPLAN_COUNT, 0);
    gives("four words where five are asked for", seal(8, WIDE, sizeof out), MEALPLAN_COUNT, 0);
    gives("the other mark, and so a wrong distance", changed(73, 'q'), MEALPLAN_DISTANCE, 0);
    gives("the wide sample", check(wide, sizeof wide), MEALPLAN_ACCEPTED, 0);
    gives("word 1 of a node is free", changed_word(1, 1, 65534), MEALPLAN_ACCEPTED, 0);
    gives("word 1 of a part is free", changed_word(4, 1, 256), MEALPLAN_ACCEPTED, 0);
    gives("fifth word of a node", changed_word(1, 4, 255), MEALPLAN_ACCEPTED, 0);
    gives("fifth word of a node above 255", changed_word(1, 4, 256), MEALPLAN_MALFORMED, 1);
    gives("fifth word of a part above 255", changed_word(4, 4, 65535), MEALPLAN_MALFORMED, 4);
    gives("fifth word of an empty rule", changed_word(0, 4, 1), MEALPLAN_MALFORMED, 0);
    gives("fifth word of a pair", changed_word(3, 4, 255), MEALPLAN_MALFORMED, 3);
    gives("fifth word of a fill", changed_word(6, 4, 256), MEALPLAN_MALFORMED, 6);
    gives("fifth word of a join", changed_word(5, 4, 1), MEALPLAN_MALFORMED, 5);
    plan[89] = 'p';
    gives("the old mark, and so a wrong distance", check(plan, sizeof wide), MEALPLAN_DISTANCE, 0);
    plan[89] = 'o';
    record_length = n = start = 77;
    gives("a mark that is neither", plan_unseal(plan, sizeof wide, words, sizeof words, &record_length, &n, &start, &position),
          MEALPLAN_MAGIC, 0);
    want("the numbers are left alone", record_length == 77 && n == 77 && start == 77, 1);
}

/* The wide sample: labels up to the header's last, nowhere beside 65,535, and the text. */
static void widely(void) {
    static const uint8_t text[] = "(\xff\xff\xff(\xff\xff\0)(\3\2\1)(";
    check(wide, sizeof wide);
    memset(cursor, 0, sizeof cursor);
    gives("afnff", walk(wide, sizeof wide, "afnff"), MEALPLAN_ACCEPTED, 0);
    want("the last label", MEALPLAN_ANSWER(answers, 0), MEALPLAN_MOST_LABEL(WIDE));
    want("65,535 is a food", MEALPLAN_ANSWER(answers, 1), 65535);
    want("three different bytes", MEALPLAN_ANSWER(answers, 2), 0x010203);
    want("nowhere", MEALPLAN_ANSWER(answers, 3), MEALPLAN_NOWHERE);
    NEEDS(MEALPLAN_TEXT_BYTES(11, WIDE), MEALPLAN_ROOM,
          plan_spread(wide, sizeof wide, work, sizeof work, out, LENGTH, &written, &position));
    want("the text's first bytes", memcmp(out, text, sizeof text - 1) == 0, 1);
    gives("a rest of three bytes isn't an answer", plan_walk(wide, sizeof wide, work, sizeof work, cursor, sizeof cursor,
          (const uint8_t *)"ss", 2, answers, MEALPLAN_ANSWERS_BYTES(1) + 3, &position), MEALPLAN_LENT, 0);
    memset(cursor, 0, sizeof cursor);
    gives("label 255", changed(10, (uint8_t)MEALPLAN_MOST_LABEL(NARROW)), MEALPLAN_ACCEPTED, 0);
    gives("zp", walk(plan, sizeof sample, "zp"), MEALPLAN_ACCEPTED, 0);
    want("the last label of a narrow plan", MEALPLAN_ANSWER(answers, 1), MEALPLAN_MOST_LABEL(NARROW));
    memset(cursor, 0, sizeof cursor);
}

/* The sample plan by document 01, and what calls leave. */
static void sampled(void) {
    const char *text = "(c(a)(b)(c(a)(b)(a)(b))(b))(a)(b)";
    n = start = 9999;
    gives("check", check(sample, sizeof sample), MEALPLAN_ACCEPTED, 0);
    want("rules", n, 8);
    want("start", start, 7);
    memset(work, 3, sizeof work);
    gives("measure", plan_measure(sample, sizeof sample, work, sizeof work, &trees, &entries, &levels, &position), MEALPLAN_ACCEPTED, 0);
    want("trees", trees, 3);
    want("entries", entries, 11);
    want("levels", levels, 3);
    for (size_t i = 0; i < sizeof work; i++) want("work", work[i], i < MEALPLAN_WORK_BYTES(8) ? 0 : 3);
    memset(out, 2, sizeof out);
    NEEDS(MEALPLAN_TEXT_BYTES(11, NARROW), MEALPLAN_ROOM,
          plan_spread(sample, sizeof sample, work, sizeof work, out, LENGTH, &written, &position));
    want("text length", written, TEXT);
    want("the text", memcmp(out, text, TEXT) == 0, 1);
    want("the byte after it", out[TEXT], 2);
    n = 77;
    gives("a mark that is neither", changed(73, 'r'), MEALPLAN_MAGIC, 0);
    want("n is left alone", n, 77);
}

/* Dividers: the sample plan with their label in place of 98, a divider alone, and labels of a wide plan whose low words are 0. */
static void divided(void) {
    const char text[] = "(c(a)(\0)(c(a)(\0)(a)(\0))(\0))(a)(\0)";
    gives("label 0 in place of 98", changed(18, MEALPLAN_DIVIDER), MEALPLAN_ACCEPTED, 0);
    gives("measure", plan_measure(plan, sizeof sample, work, sizeof work, &trees, &entries, &levels, &position), MEALPLAN_ACCEPTED, 0);
    want("trees, dividers too", trees, 3);
    want("entries", entries, 6);
    want("levels", levels, 3);
    NEEDS(MEALPLAN_TEXT_BYTES(11, NARROW), MEALPLAN_ROOM,
          plan_spread(plan, sizeof sample, work, sizeof work, out, LENGTH, &written, &position));
    want("the text has every node", written == sizeof text - 1 && memcmp(out, text, sizeof text - 1) == 0, 1);
    memset(cursor, 0, sizeof cursor);
    gives("zlafn", walk(plan, sizeof sample, "zlafn"), MEALPLAN_ACCEPTED, 0);
    want("the last tree", MEALPLAN_ANSWER(answers, 0), MEALPLAN_DIVIDER);
    want("the second child of the first", MEALPLAN_ANSWER(answers, 4), MEALPLAN_DIVIDER);
    memset(cursor, 0, sizeof cursor);
    plan[66] = 2;
    gives("a divider alone", plan_measure(plan, sizeof sample, work, sizeof work, &trees, &entries, &levels, &position), MEALPLAN_ACCEPTED, 0);
    want("is a tree of one level, and no entry", trees == 1 && entries == 0 && levels == 1, 1);
    gives("label 65,536 in place of 98", changed_word(2, 1, 0), MEALPLAN_ACCEPTED, 0);
    gives("measure", plan_measure(plan, sizeof wide, work, sizeof work, &trees, &entries, &levels, &position), MEALPLAN_ACCEPTED, 0);
    want("it is the whole label that counts", entries, 11);
    plan[WIDE * 2 + 8] = 0;
    gives("label 0 there", plan_measure(plan, sizeof wide, work, sizeof work, &trees, &entries, &levels, &position), MEALPLAN_ACCEPTED, 0);
    want("entries", entries, 6);
}

/* The answers, the word for nowhere, and the bytes that hold a place. */
static void places(void) {
    static uint8_t stored[MEALPLAN_CURSOR_BYTES(8)];
    check(sample, sizeof sample);
    gives("na", walk(sample, sizeof sample, "na"), MEALPLAN_ACCEPTED, 0);
    want("n from above the forest", MEALPLAN_ANSWER(answers, 0), MEALPLAN_NOWHERE);
    want("a", MEALPLAN_ANSWER(answers, 1), 99);
    want("used cells after a", MEALPLAN_CELLS(cursor), 4);
    want("bytes of the place", MEALPLAN_PLACE_BYTES(cursor), 40);
    memcpy(stored, cursor, MEALPLAN_PLACE_BYTES(cursor));
    memset(cursor, 255, sizeof cursor);
    memcpy(cursor, stored, MEALPLAN_PLACE_BYTES(stored) - 1);
    gives("a place with a byte missing", walk(sample, sizeof sample, "f"), MEALPLAN_PLACE, 0);
    memcpy(cursor, stored, MEALPLAN_PLACE_BYTES(stored));
    gives("the place again", walk(sample, sizeof sample, "f"), MEALPLAN_ACCEPTED, 0);
    want("f", MEALPLAN_ANSWER(answers, 0), 97);
    want("the byte past the cursor", cursor[MEALPLAN_CURSOR_BYTES(8)], 255);
}

/* Takes the place in cursor for the second, and letters from above the forest of the rule that a word names for the first. */
static void stand_in(const uint8_t *bytes, size_t length, uint16_t word, const char *letters) {
    memcpy(second, cursor, sizeof second);
    memset(cursor, 0, sizeof cursor);
    mealplan_above(cursor, word);
    gives(letters, walk(bytes, length, letters), MEALPLAN_ACCEPTED, 0);
}

/* The same in the start rule's. */
static void stand(const uint8_t *bytes, size_t length, const char *letters) { stand_in(bytes, length, 0, letters); }

/* What a comparison finds, at a budget. */
static void finds(const char *what, const uint8_t *bytes, size_t length, uint32_t budget, uint32_t found, uint32_t number) {
    static uint8_t first_before[sizeof cursor], second_before[sizeof second];
    memcpy(first_before, cursor, sizeof cursor), memcpy(second_before, second, sizeof second);
    memset(work, 3, sizeof work);
    gives(what, compare(bytes, length, budget), MEALPLAN_ACCEPTED, 0);
    want(what, verdict, found);
    want(what, count, number);
    want("both cursors are only read", !memcmp(first_before, cursor, sizeof cursor) && !memcmp(second_before, second, sizeof second), 1);
    for (size_t i = 0; i <= MEALPLAN_WORK_BYTES(n); i++) want("work", work[i], i < MEALPLAN_WORK_BYTES(n) ? 0 : 3);
}

/* A comparison that is refused, and leaves the numbers alone. */
static void turned_down(const char *what, uint32_t refusal) {
    verdict = count = 77;
    gives(what, compare(sample, sizeof sample, 9), refusal, 0);
    want("the numbers are left alone", verdict == 77 && count == 77, 1);
}

/* Two places of the sample plans: each verdict, each refusal, the lengths. */
static void compared(void) {
    static const struct { const uint8_t *bytes; size_t length; } plans[] = {{sample, sizeof sample}, {wide, sizeof wide}};
    for (int i = 0; i < 2; i++) {
        const uint8_t *bytes = plans[i].bytes;
        size_t length = plans[i].length;
        check(bytes, length);
        stand(bytes, length, "a"), stand(bytes, length, "a");
        finds("the first tree and itself", bytes, length, 4294967295u, MEALPLAN_SAME, 9);
        finds("as many pairs as the budget", bytes, length, 9, MEALPLAN_SAME, 9);
        finds("more pairs than the budget", bytes, length, 8, MEALPLAN_SPENT, 8);
        finds("a budget of 0", bytes, length, 0, MEALPLAN_SPENT, 0);
        gives("one cursor twice", plan_compare(bytes, length, work, sizeof work, cursor, sizeof cursor, cursor, sizeof cursor, 9,
              &verdict, &count, &position), MEALPLAN_ACCEPTED, 0);
        want("is the same", verdict == MEALPLAN_SAME && count == 9, 1);
        stand(bytes, length, "afnn");
        finds("the tree in its hole", bytes, length, 4294967295u, MEALPLAN_DIFFER, 4);
        finds("the fourth pair", bytes, length, 4, MEALPLAN_DIFFER, 4);
        finds("three pairs", bytes, length, 3, MEALPLAN_SPENT, 3);
        stand(bytes, length, "afn"), stand(bytes, length, "z");
        finds("two leaves", bytes, length, 1, MEALPLAN_SAME, 1);
        size_t w = MEALPLAN_WORK_BYTES(n), c = MEALPLAN_CURSOR_BYTES(n);
        NEEDS(w, MEALPLAN_LENT, plan_compare(bytes, length, work, LENGTH, cursor, c, second, c, 9, &verdict, &count, &position));
        NEEDS(c, MEALPLAN_LENT, plan_compare(bytes, length, work, w, cursor, LENGTH, second, c, 9, &verdict, &count, &position));
        NEEDS(c, MEALPLAN_LENT, plan_compare(bytes, length, work, w, cursor, c, second, LENGTH, 9, &verdict, &count, &position));
    }
    check(sample, sizeof sample);
    cursor[4] = 1;
    turned_down("word 2 of the first cell 0", MEALPLAN_PLACE);
    memset(cursor, 0, sizeof cursor);
    turned_down("the first above the forest", MEALPLAN_PLACE);
    stand(sample, sizeof sample, "a");
    turned_down("the second above the forest", MEALPLAN_PLACE);
    second[0] = 1;
    turned_down("a cell that leads nowhere", MEALPLAN_PLACE);
    verdict = count = 77;
    gives("a plan cut short", compare(sample, sizeof sample - 1, 9), MEALPLAN_MAGIC, 0);
    want("the numbers are left alone", verdict == 77 && count == 77, 1);
    memset(cursor, 0, sizeof cursor);
}

/* The used cells and cell 0 are these words, and behind them the needed bytes are zeros. */
static void holds(const uint16_t *cells, size_t words) {
    for (size_t i = 0; i < MEALPLAN_CURSOR_BYTES(n) / 2; i++)
        want("a word of the cursor", (uint64_t)(cursor[2 * i] | cursor[2 * i + 1] << 8), i < words ? cells[i] : 0);
}

/* A walk from above the forest of the rule that a word names, refused with 10: nothing moves. */
static void not_walked(const char *what, uint16_t word) {
    static uint8_t before[sizeof cursor];
    memset(cursor, 7, sizeof cursor), memset(answers, 7, sizeof answers), memset(work, 3, sizeof work);
    mealplan_above(cursor, word);
    memcpy(before, cursor, sizeof cursor);
    gives(what, walk(sample, sizeof sample, "ax"), MEALPLAN_LETTER, 1);
    gives(what, walk(sample, sizeof sample, "a"), MEALPLAN_PLACE, 0);
    gives(what, walk(sample, sizeof sample, ""), MEALPLAN_PLACE, 0);
    want("the cursor is untouched", memcmp(before, cursor, sizeof cursor) == 0, 1);
    want("the word stays", MEALPLAN_WORD(cursor), word);
    for (size_t i = 0; i < sizeof answers; i++) want("answers", answers[i], 7);
    for (size_t i = 0; i <= MEALPLAN_WORK_BYTES(8); i++) want("work", work[i], i < MEALPLAN_WORK_BYTES(8) ? 0 : 3);
}

/* One rule alone, named by number: a day of the sample plan, its start, its empty rule, the words that name none, and two places of two rules. */
static void days(void) {
    static const uint16_t first[] = {3, 4, 0, 0, 1, 0, 3, 0, 3, 3, 1, 0, 2, 1, 0, 0};
    static const uint16_t second_tree[] = {3, 4, 0, 0, 1, 0, 3, 0, 4, 3, 2, 0, 2, 2, 0, 0};
    static const uint16_t above[] = {0, 1, 0, 0};
    static const uint16_t words_of_rules[] = {0, MEALPLAN_RULE_WORD(7)}, labels[] = {99, 97, 98, 99, 97, 98, 97};
    static uint8_t by_zero[MEALPLAN_CURSOR_BYTES(8)];
    check(sample, sizeof sample);
    want("the word of rule 3", MEALPLAN_RULE_WORD(3), 4);
    want("the word of the last rule", MEALPLAN_RULE_WORD(MOST - 1), MOST);
    for (unsigned rule = 0; rule < 65535; rule++) want("the word of a rule", MEALPLAN_RULE_WORD(rule), rule + 1);
    want("the word of a number that has none", MEALPLAN_RULE_WORD(65535), 65535);
    memset(cursor, 255, sizeof cursor);
    mealplan_above(cursor, MEALPLAN_RULE_WORD(3));
    gives("a in rule 3", walk(sample, sizeof sample, "a"), MEALPLAN_ACCEPTED, 0);
    want("its first tree", MEALPLAN_ANSWER(answers, 0), 97);
    holds(first, 16);
    want("MEALPLAN_WORD", MEALPLAN_WORD(cursor), 4);
    want("MEALPLAN_CELLS", MEALPLAN_CELLS(cursor), 3);
    want("the byte past the cursor", cursor[MEALPLAN_CURSOR_BYTES(8)], 255);
    mealplan_above(cursor, MEALPLAN_RULE_WORD(3));
    gives("annu in rule 3", walk(sample, sizeof sample, "annu"), MEALPLAN_ACCEPTED, 0);
    want("its first tree", MEALPLAN_ANSWER(answers, 0), 97);
    want("its second", MEALPLAN_ANSWER(answers, 1), 98);
    want("there is no third", MEALPLAN_ANSWER(answers, 2), MEALPLAN_NOWHERE);
    want("and no parent", MEALPLAN_ANSWER(answers, 3), MEALPLAN_NOWHERE);
    holds(second_tree, 16);
    gives("nx", walk(sample, sizeof sample, "nx"), MEALPLAN_LETTER, 1);
    holds(second_tree, 16);
    memcpy(second, cursor, sizeof second);
    second[2] = 0;
    turned_down("its place as one of the start", MEALPLAN_PLACE);

    /* The start by number gives the same, and its cursor differs in the word alone. */
    for (int i = 0; i < 2; i++) {
        mealplan_above(cursor, words_of_rules[i]);
        gives("afnnfnn", walk(sample, sizeof sample, "afnnfnn"), MEALPLAN_ACCEPTED, 0);
        for (size_t a = 0; a < 7; a++) want("its answers", MEALPLAN_ANSWER(answers, a), labels[a]);
        if (i == 0) memcpy(by_zero, cursor, sizeof by_zero);
    }
    want("MEALPLAN_WORD", MEALPLAN_WORD(cursor), 8);
    for (size_t b = 0; b < sizeof by_zero; b++) want("a byte of the cursor", cursor[b], b == 2 ? 8 : by_zero[b]);

    /* The empty rule is closed; a part, a join and numbers beyond the rules aren't walked. */
    mealplan_above(cursor, MEALPLAN_RULE_WORD(0));
    gives("az in the empty rule", walk(sample, sizeof sample, "az"), MEALPLAN_ACCEPTED, 0);
    want("a", MEALPLAN_ANSWER(answers, 0), MEALPLAN_NOWHERE);
    want("z", MEALPLAN_ANSWER(answers, 1), MEALPLAN_NOWHERE);
    holds(above, 4);
    not_walked("a part", MEALPLAN_RULE_WORD(4));
    not_walked("a join", MEALPLAN_RULE_WORD(5));
    not_walked("a number beyond the rules", MEALPLAN_RULE_WORD(8));
    not_walked("a number with another high byte", 256 + MEALPLAN_RULE_WORD(3));
    not_walked("the last word", 65535);

    /* A place of rule 3 with one of the start rule: each cursor has its own word. */
    stand(sample, sizeof sample, "an"), stand_in(sample, sizeof sample, MEALPLAN_RULE_WORD(3), "a");
    finds("97 of rule 3 and 97 of the start", sample, sizeof sample, 9, MEALPLAN_SAME, 1);
    gives("n in rule 3", walk(sample, sizeof sample, "n"), MEALPLAN_ACCEPTED, 0);
    finds("98 of rule 3 and 97 of the start", sample, sizeof sample, 9, MEALPLAN_DIFFER, 1);
    stand_in(sample, sizeof sample, MEALPLAN_RULE_WORD(6), "a");
    finds("99 of rule 6 and 98 of rule 3", sample, sizeof sample, 9, MEALPLAN_DIFFER, 1);
    stand(sample, sizeof sample, "a");
    finds("the first tree and the same by rule 6", sample, sizeof sample, 9, MEALPLAN_SAME, 9);
    second[2] = MEALPLAN_RULE_WORD(5);
    turned_down("a join in the second cursor", MEALPLAN_PLACE);
    second[2] = MEALPLAN_RULE_WORD(6), cursor[2] = MEALPLAN_RULE_WORD(8);
    turned_down("a number beyond the rules in the first", MEALPLAN_PLACE);
    memset(cursor, 0, sizeof cursor);
}

/* The reasons of the eight letters from the place in cursor, a digit each. Each is MEALPLAN_MOVES exactly where a walk of that letter from there doesn't
   answer nowhere; the cursor is only read, and the needed work ends as zeros. */
static void because(const char *what, const uint8_t *bytes, size_t length, const char *reasons) {
    static const char letters[] = "azflnpus";
    static uint8_t before[sizeof cursor];
    memcpy(before, cursor, sizeof cursor);
    want("a reason for each letter", strlen(reasons), strlen(letters));
    for (size_t i = 0; letters[i]; i++) {
        char letter[] = {letters[i], 0};
        reason = 77;
        memset(work, 3, sizeof work);
        gives(what, ask(bytes, length, (uint8_t)letters[i]), MEALPLAN_ACCEPTED, 0);
        want(what, reason, (uint64_t)(reasons[i] - '0'));
        reasons_seen |= 1u << reason;
        want("the cursor is only read", memcmp(before, cursor, sizeof cursor) == 0, 1);
        for (size_t b = 0; b <= MEALPLAN_WORK_BYTES(n); b++) want("work", work[b], b < MEALPLAN_WORK_BYTES(n) ? 0 : 3);
        gives(letter, walk(bytes, length, letter), MEALPLAN_ACCEPTED, 0);
        want("0 exactly where a walk doesn't answer nowhere", reason == MEALPLAN_MOVES, MEALPLAN_ANSWER(answers, 0) != MEALPLAN_NOWHERE);
        memcpy(cursor, before, sizeof cursor);
    }
}

/* A letter whose reason is refused: the number is left alone and the cursor as it was, the needed work zeros past 8 and else as it was. */
static void no_reason(const char *what, uint32_t result, uint32_t refusal, size_t cleared) {
    gives(what, result, refusal, 0);
    want("the reason is left alone", reason, 77);
    want("the cursor is only read", cursor[MEALPLAN_CURSOR_BYTES(8)], 7);
    for (size_t i = 0; i <= MEALPLAN_WORK_BYTES(8); i++) want("work", work[i], i < cleared ? 0 : 3);
    memset(work, 3, sizeof work);
}

/* Why a letter moves or doesn't: each reason on the sample plans and by rules of theirs, and each refusal in its turn. */
static void reasoned(void) {
    static const struct { const uint8_t *bytes; size_t length; } plans[] = {{sample, sizeof sample}, {wide, sizeof wide}};
    static const unsigned numbers[] = {MEALPLAN_MOVES, MEALPLAN_ABOVE, MEALPLAN_NO_TREES, MEALPLAN_NO_CHILDREN, MEALPLAN_LAST_SIBLING,
                                       MEALPLAN_FIRST_SIBLING, MEALPLAN_ROOT};
    /* Letters from above the forest of the rule that a word names, and the reasons of a z f l n p u s there. */
    static const struct { uint16_t word; const char *letters, *reasons; } cases[] = {
        {0, "", "00111111"},        {0, "a", "00000560"},    {0, "an", "00330060"},   {0, "z", "00334060"},
        {0, "af", "00330500"},      {0, "afnn", "00000000"}, {0, "al", "00334000"},   {0, "afnnfnn", "00330000"},
        {0, "afnnfnnn", "00334000"},
        {MEALPLAN_RULE_WORD(7), "a", "00000560"},            {MEALPLAN_RULE_WORD(6), "a", "00004560"},
        {MEALPLAN_RULE_WORD(3), "", "00111111"},             {MEALPLAN_RULE_WORD(3), "z", "00334060"},
        {MEALPLAN_RULE_WORD(1), "a", "00334560"},            {MEALPLAN_RULE_WORD(0), "", "22222222"},
    };
    for (unsigned i = 0; i < sizeof numbers / sizeof *numbers; i++) want("the number of a reason", numbers[i], i);
    for (int i = 0; i < 2; i++) {
        check(plans[i].bytes, plans[i].length);
        for (size_t c = 0; c < sizeof cases / sizeof *cases; c++) {
            stand_in(plans[i].bytes, plans[i].length, cases[c].word, cases[c].letters);
            because(cases[c].letters, plans[i].bytes, plans[i].length, cases[c].reasons);
        }
    }
    size_t length = empty_rules(1, NARROW);
    check(plan, length);
    mealplan_above(cursor, 0);
    because("an empty forest", plan, length, "22222222");
    want("every reason came, as bits", reasons_seen, (1u << (MEALPLAN_ROOT + 1)) - 1);

    /* The check before 8, that before 9 at 0, and that before 10. */
    check(sample, sizeof sample);
    memset(cursor, 7, sizeof cursor), memset(work, 3, sizeof work), reason = 77;
    size_t w = MEALPLAN_WORK_BYTES(8), c = MEALPLAN_CURSOR_BYTES(8);
    no_reason("a plan cut short, and nothing lent", plan_reason(sample, sizeof sample - 1, work, 0, cursor, 0, 'x', &reason, &position),
              MEALPLAN_MAGIC, 0);
    no_reason("too little work", plan_reason(sample, sizeof sample, work, w - 1, cursor, c, 'x', &reason, &position), MEALPLAN_LENT, 0);
    no_reason("too little cursor", plan_reason(sample, sizeof sample, work, w, cursor, c - 1, 'x', &reason, &position), MEALPLAN_LENT, 0);
    for (unsigned byte = 0; byte <= 255; byte++)
        if (!byte || !strchr("azflnpus", (int)byte)) no_reason("a byte that is no letter", ask(sample, sizeof sample, (uint8_t)byte), MEALPLAN_LETTER, w);
    no_reason("cells that lead nowhere", ask(sample, sizeof sample, 's'), MEALPLAN_PLACE, w);
    mealplan_above(cursor, MEALPLAN_RULE_WORD(4));
    no_reason("a part", ask(sample, sizeof sample, 'a'), MEALPLAN_PLACE, w);
    mealplan_above(cursor, MEALPLAN_RULE_WORD(8));
    no_reason("a number beyond the rules", ask(sample, sizeof sample, 'a'), MEALPLAN_PLACE, w);
    mealplan_above(cursor, 0);
    cursor[6] = 1;
    no_reason("word 3 of cell 0", ask(sample, sizeof sample, 'a'), MEALPLAN_PLACE, w);
    memset(cursor, 0, sizeof cursor);
}

/* The class of a label by so many rows; refused, the class is left alone. */
static uint32_t class_of(const struct plan_row *rows, size_t count, uint32_t label, unsigned expected) {
    uint16_t class_ = 999;
    uint32_t result = plan_class(rows, count, label, &class_, &position);
    want("the class", class_, result == MEALPLAN_ACCEPTED ? expected : 999);
    return result;
}

/* Lists of rows: the classes at the ends of rows, each refusal, and rows as C lays them out. */
static void classes(void) {
    enum { LAST = MEALPLAN_LAST_LABEL, CLASS = MEALPLAN_LAST_CLASS };
    want("bytes of a row", sizeof(struct plan_row), 12);
    struct plan_row rows[] = {{0, 99, 0, 1}, {100, 100, 1, 2}, {101, 65535, 2, 65535}, {65536, LAST, CLASS, 0}};
    gives("the first label", class_of(rows, 4, 0, 0), MEALPLAN_ACCEPTED, 0);
    gives("the last of row 0", class_of(rows, 4, 99, 0), MEALPLAN_ACCEPTED, 0);
    gives("a row of one label", class_of(rows, 4, 100, 1), MEALPLAN_ACCEPTED, 0);
    gives("the first of row 2", class_of(rows, 4, 101, 2), MEALPLAN_ACCEPTED, 0);
    gives("the last of row 2", class_of(rows, 4, 65535, 2), MEALPLAN_ACCEPTED, 0);
    gives("the last label", class_of(rows, 4, LAST, CLASS), MEALPLAN_ACCEPTED, 0);
    gives("a label above it", class_of(rows, 4, LAST + 1, 0), MEALPLAN_MALFORMED, 0);
    gives("no rows", class_of(rows, 0, 0, 0), MEALPLAN_GAP, 0);
    gives("a row missing at the end", class_of(rows, 3, 0, 0), MEALPLAN_GAP, 3);
    gives("a row missing at the front", class_of(rows + 1, 3, 0, 0), MEALPLAN_GAP, 0);
    rows[3].class_ = CLASS + 1;
    gives("class above MEALPLAN_LAST_CLASS", class_of(rows, 4, LAST + 1, 0), MEALPLAN_ROW, 3);
    rows[3].class_ = CLASS, rows[3].highest = LAST + 1;
    gives("highest above MEALPLAN_LAST_LABEL", class_of(rows, 4, 0, 0), MEALPLAN_ROW, 3);
    rows[3].highest = LAST, rows[2].lowest = 65536;
    gives("lowest above highest", class_of(rows, 4, 0, 0), MEALPLAN_ROW, 2);
    rows[2].lowest = 102;
    gives("a gap", class_of(rows, 4, 0, 0), MEALPLAN_GAP, 2);
    rows[2].lowest = 100;
    gives("an overlap", class_of(rows, 4, 0, 0), MEALPLAN_OVERLAP, 2);
}

/* A copy that is refused: output and work are untouched, and the length is left alone. */
static void not_copied(const char *what, uint32_t result, uint32_t refusal, uint64_t at) {
    gives(what, result, refusal, at);
    want("the length is left alone", written, 77);
    for (size_t i = 0; i < sizeof out; i++) want("output", out[i], 2);
    for (size_t i = 0; i < sizeof work; i++) want("work", work[i], 3);
}

/* The forest of the plan in plan, which is wide, as the text of a narrow one has it. */
static void tells(size_t length, const char *text) {
    gives("spread of a copy", plan_spread(plan, length, work, sizeof work, out, sizeof out, &written, &position), MEALPLAN_ACCEPTED, 0);
    want("its length", written, MEALPLAN_TEXT_BYTES(strlen(text) / 3, WIDE));
    const uint8_t *came = out;
    for (const char *t = text; *t; t++) {
        want(text, *came++, (uint8_t)*t);
        if (t != text && t[-1] == '(') want("a label's high part", *came++, 0), want("a label's high part", *came++, 0);
    }
}

/* Copies of the sample plan for clients of every class, whose answers are of what they see, and each refusal in its turn. */
static void copied(void) {
    enum { LAST = MEALPLAN_LAST_LABEL, CLASS = MEALPLAN_LAST_CLASS };
    struct plan_row rows[] = {{0, 97, 0, 1}, {98, 98, 2, 65535}, {99, LAST, 1, 0}};
    static const char *texts[] = {"(a)", "(c(a)(c(a)(a)))(a)", "(c(a)(b)(c(a)(b)(a)(b))(b))(a)(b)", "(c(a)(b)(c(a)(b)(a)(b))(b))(a)(b)"};
    static const uint32_t second_child[] = {MEALPLAN_NOWHERE, 99, 98, 98};
    for (uint16_t class_ = 0; class_ <= CLASS; class_++) {
        memset(out, 2, sizeof out), memset(work, 3, sizeof work), written = 77;
        check(sample, sizeof sample);
        gives("copy", copy(sample, sizeof sample, rows, 3, class_), MEALPLAN_ACCEPTED, 0);
        for (size_t i = 0; i < sizeof work; i++) want("work", work[i], i < MEALPLAN_WORK_BYTES(8) ? 0 : 3);
        for (size_t i = written; i < sizeof out; i++) want("output past the copy", out[i], 2);
        size_t length = written;
        memcpy(plan, out, length);
        gives("check of a copy", check(plan, length), MEALPLAN_ACCEPTED, 0);
        want("a wide plan without cover", MEALPLAN_PLAN_BYTES(n, MEALPLAN_RECORD_LENGTH(plan, length)), length);
        want("a wide plan", MEALPLAN_RECORD_LENGTH(plan, length), WIDE);
        want("at most three rules for each", n <= 24, 1);
        tells(length, texts[class_]);
        memset(cursor, 0, sizeof cursor);
        gives("afn", walk(plan, length, "afn"), MEALPLAN_ACCEPTED, 0);
        want("the second child of the first tree, or its next", MEALPLAN_ANSWER(answers, 2), second_child[class_]);
    }
    memset(cursor, 0, sizeof cursor);
    memset(out, 2, sizeof out), memset(work, 3, sizeof work), written = 77;
    check(sample, sizeof sample);
    not_copied("a plan cut short", copy(sample, sizeof sample - 1, rows, 0, CLASS + 1), MEALPLAN_MAGIC, 0);
    not_copied("class above MEALPLAN_LAST_CLASS, and no rows", copy(sample, sizeof sample, rows, 0, CLASS + 1), MEALPLAN_ROW, 0);
    not_copied("class 65,535", copy(sample, sizeof sample, rows, 3, 65535), MEALPLAN_ROW, 0);
    not_copied("no rows", copy(sample, sizeof sample, rows, 0, CLASS), MEALPLAN_GAP, 0);
    not_copied("a row missing", copy(sample, sizeof sample, rows, 2, CLASS), MEALPLAN_GAP, 2);
    rows[2].lowest = 98;
    not_copied("an overlap", copy(sample, sizeof sample, rows, 3, 0), MEALPLAN_OVERLAP, 2);
    rows[2].lowest = 99, rows[2].class_ = CLASS + 1;
    not_copied("a row's class", copy(sample, sizeof sample, rows, 3, 0), MEALPLAN_ROW, 2);
    size_t length = empty_rules(COPIED + 1, NARROW);
    not_copied("a row's class, and too many rules", plan_copy(plan, length, rows, 3, 0, work, 0, out, 0, &written, &position), MEALPLAN_ROW, 2);
    rows[2].class_ = 1;
    not_copied("too many rules, and nothing lent", plan_copy(plan, length, rows, 3, 0, work, 0, out, 0, &written, &position),
               MEALPLAN_TOO_MANY, 0);
    not_copied("too many rules", plan_copy(plan, length, rows, 3, 0, work, sizeof work, out, sizeof out, &written, &position),
               MEALPLAN_TOO_MANY, 0);
    not_copied("too little output", plan_copy(sample, sizeof sample, rows, 3, 0, work, sizeof work, out, MEALPLAN_COPY_BYTES(8) - 1,
               &written, &position), MEALPLAN_LENT, 0);
    not_copied("too little work", plan_copy(sample, sizeof sample, rows, 3, 0, work, MEALPLAN_WORK_BYTES(8) - 1, out, sizeof out,
               &written, &position), MEALPLAN_LENT, 0);
}

/* Grams that are refused before 11: work is untouched, and the number is left alone. */
static void not_weighed(const char *what, uint32_t result, uint32_t refusal, uint64_t at) {
    gives(what, result, refusal, at);
    want("the grams are left alone", grams, 77);
    for (size_t i = 0; i < sizeof work; i++) want("work", work[i], 3);
}

/* A leaf doubled so often, and a node above them all, as a narrow plan of so many rules and three; gives its length. */
static size_t doubled(size_t doublings) {
    size_t count = doublings + 3, length = empty_rules(count, NARROW);
    for (size_t r = 1; r < count; r++) {
        uint8_t *rule = plan + NARROW * r;
        int leaf = r == 1, top = r == count - 1;
        rule[0] = leaf || top ? 2 : 1;
        rule[2] = (uint8_t)(leaf ? 97 : top ? 98 : r - 1);
        rule[4] = (uint8_t)(leaf ? 0 : r - 1);
    }
    plan[NARROW * count + 2] = (uint8_t)(count - 1);
    gives("check of a doubled leaf", check(plan, length), MEALPLAN_ACCEPTED, 0);
    want("its rules", n, count);
    return length;
}

/* The grams of the sample plans and of their copies, sums on both sides of 2^64 - 1, and each refusal in its turn. */
static void weighed(void) {
    enum { LAST = MEALPLAN_LAST_LABEL, CLASS = MEALPLAN_LAST_CLASS };
    struct plan_row rows[] = {{0, 97, 0, 120}, {98, 98, 2, 30}, {99, LAST, 1, 250}};
    static const uint64_t seen[] = {120, 980, 1130, 1130};
    check(sample, sizeof sample);
    memset(work, 3, sizeof work);
    gives("grams", weigh(sample, sizeof sample, rows, 3), MEALPLAN_ACCEPTED, 0);
    want("4 * 120 + 5 * 30 + 2 * 250", grams, 1130);
    for (size_t i = 0; i < sizeof work; i++) want("work", work[i], i < MEALPLAN_WORK_BYTES(8) ? 0 : 3);
    gives("grams of the wide sample", weigh(wide, sizeof wide, rows, 3), MEALPLAN_ACCEPTED, 0);
    want("11 * 250", grams, 2750);
    for (uint16_t class_ = 0; class_ <= CLASS; class_++) {
        check(sample, sizeof sample);
        gives("copy", copy(sample, sizeof sample, rows, 3, class_), MEALPLAN_ACCEPTED, 0);
        size_t length = written;
        memcpy(plan, out, length);
        check(plan, length);
        gives("grams of a copy", weigh(plan, length, rows, 3), MEALPLAN_ACCEPTED, 0);
        want("of what is seen", grams, seen[class_]);
    }
    size_t length = empty_rules(1, WIDE);
    check(plan, length);
    grams = 77;
    gives("grams of an empty forest", weigh(plan, length, rows, 3), MEALPLAN_ACCEPTED, 0);
    want("nothing", grams, 0);

    /* 2^63 leaves of 1 gram and one node of 65,535; with 2 grams each they are too many, and 2^70 leaves weigh nothing by a row of 0 grams. */
    rows[0].grams = 1, rows[1].grams = 65535;
    length = doubled(63);
    gives("2^63 + 65,535 grams", weigh(plan, length, rows, 3), MEALPLAN_ACCEPTED, 0);
    want("their sum", grams, (1ull << 63) + 65535);
    rows[0].grams = 2, grams = 77;
    memset(work, 3, sizeof work);
    gives("2^64 + 65,535 grams", weigh(plan, length, rows, 3), MEALPLAN_ROOM, 0);
    want("the grams are left alone", grams, 77);
    for (size_t i = 0; i < sizeof work; i++) want("work", work[i], i < MEALPLAN_WORK_BYTES(66) ? 0 : 3);
    memset(work, 3, sizeof work);
    not_weighed("2^64 + 65,535 grams, and too little work", plan_grams(plan, length, rows, 3, work, MEALPLAN_WORK_BYTES(66) - 1, &grams,
                &position), MEALPLAN_LENT, 0);
    not_weighed("2^64 + 65,535 grams, and a row missing", weigh(plan, length, rows, 2), MEALPLAN_GAP, 2);
    rows[0].grams = 0;
    length = doubled(70);
    gives("2^70 leaves of no grams", weigh(plan, length, rows, 3), MEALPLAN_ACCEPTED, 0);
    want("and a node", grams, 65535);
    rows[0].grams = 1, grams = 77;
    gives("2^70 leaves of a gram", weigh(plan, length, rows, 3), MEALPLAN_ROOM, 0);
    want("the grams are left alone", grams, 77);

    /* The plan before the list, and that before work. */
    check(sample, sizeof sample);
    memset(work, 3, sizeof work);
    size_t less = MEALPLAN_WORK_BYTES(8) - 1;
    not_weighed("a plan cut short, no rows and no work", plan_grams(sample, sizeof sample - 1, rows, 0, work, 0, &grams, &position),
                MEALPLAN_MAGIC, 0);
    not_weighed("no rows", weigh(sample, sizeof sample, rows, 0), MEALPLAN_GAP, 0);
    not_weighed("a row missing, and no work", plan_grams(sample, sizeof sample, rows, 2, work, 0, &grams, &position), MEALPLAN_GAP, 2);
    rows[2].lowest = 98;
    not_weighed("an overlap, and too little work", plan_grams(sample, sizeof sample, rows, 3, work, less, &grams, &position),
                MEALPLAN_OVERLAP, 2);
    rows[2].lowest = 99, rows[2].class_ = CLASS + 1;
    not_weighed("a row's class, and too little work", plan_grams(sample, sizeof sample, rows, 3, work, less, &grams, &position), MEALPLAN_ROW, 2);
    rows[2].class_ = CLASS;
    not_weighed("too little work", plan_grams(sample, sizeof sample, rows, 3, work, less, &grams, &position), MEALPLAN_LENT, 0);
}

/* Reads a plan of so many bytes from a file; says whether it is there. */
static int read_plan(const char *name, uint8_t *bytes, size_t length) {
    FILE *file = fopen(name, "rb");
    if (!file) return 0;
    size_t came = fread(bytes, 1, length, file);
    fclose(file);
    return came == length;
}

int main(int argc, char **argv) {
    if (argc != 3 || !read_plan(argv[1], sample, sizeof sample) || !read_plan(argv[2], wide, sizeof wide))
        return printf("usage: interface PLAN WIDE\n"), 1;
    widened();
    limits();
    refusals();
    orders();
    formats();
    widely();
    sampled();
    divided();
    places();
    compared();
    days();
    reasoned();
    classes();
    copied();
    weighed();
    want("0 and every refusal came, as bits", seen, (1u << (MEALPLAN_TOO_MANY + 1)) - 1);
    printf("interface: %u calls as the header and documents 01 and 02 say\n", calls);
    return 0;
}
