/* A host in C: every call of pressbadger.h, on questions with known answers, with what is lent watched on both sides. */
#include "pressbadger.h"

#include <stdio.h>
#include <string.h>

static int passed, failed;

static void check(int holds, const char *what) {
    if (holds) {
        passed++;
    } else {
        failed++;
        printf("FAILED: %s\n", what);
    }
}

/* The patterns of the scope, §11.1. */
static const uint64_t A[] = {2, 1, 4};
static const uint64_t B[] = {2, 4, 3, 48, 32, 8};
static const uint64_t C[] = {3, 4, 0, 8};
static const uint64_t D[] = {0, 2, 0, 0};

typedef struct {
    const char *name;
    size_t states, letters;
    uint64_t finals;
    const uint64_t *rows;
    uint64_t x, y;
    size_t room;
    pb_compared answer;
    pb_record records[3];
    uint8_t sequence[1];
} question;

static const question known[] = {
    {"A, 1 and 4, room 1", 3, 1, 5, A, 1, 4, 1, {PB_DIFFERENT, 1, 2, 1}, {{1, 4, 0, 0}}, {0}},
    {"A, 1 and 4, room 0", 3, 1, 5, A, 1, 4, 0, {PB_FULL, 0, 1, 0}, {{0, 0, 0, 0}}, {0}},
    {"A, 2 and 4, room 0", 3, 1, 5, A, 2, 4, 0, {PB_DIFFERENT, 0, 1, 0}, {{0, 0, 0, 0}}, {0}},
    {"A, 3 and 4, room 1", 3, 1, 5, A, 3, 4, 1, {PB_SAME, 1, 2, 0}, {{3, 4, 0, 0}}, {0}},
    {"A, 0 and 0, room 0", 3, 1, 5, A, 0, 0, 0, {PB_SAME, 0, 1, 0}, {{0, 0, 0, 0}}, {0}},
    {"B, 1 and 8, room 3", 6, 1, 18, B, 1, 8, 3, {PB_SAME, 3, 4, 0}, {{1, 8, 0, 0}, {2, 48, 0, 0}, {4, 40, 1, 0}}, {0}},
    {"B, 1 and 8, room 2", 6, 1, 18, B, 1, 8, 2, {PB_FULL, 2, 3, 0}, {{1, 8, 0, 0}, {2, 48, 0, 0}}, {0}},
    {"C, 1 and 8, room 3", 4, 1, 9, C, 1, 8, 3, {PB_SAME, 3, 4, 0}, {{1, 8, 0, 0}, {3, 8, 0, 0}, {7, 8, 1, 0}}, {0}},
    {"D, 1 and 0, room 1", 2, 2, 2, D, 1, 0, 1, {PB_DIFFERENT, 1, 3, 1}, {{1, 0, 0, 0}}, {1}},
};

/* What is lent stands between guards, and starts with a value that no answer has. */
enum { GUARD = 4, LENT = 8 };
static const pb_record UNTOUCHED = {0xAAAA, 0xBBBB, 0xCCCC, 0xDD};
static const uint8_t UNTOUCHED_BYTE = 0xEE;

static int same_record(pb_record a, pb_record b) {
    return a.left == b.left && a.right == b.right && a.parent == b.parent && a.letter == b.letter;
}

static int same_compared(pb_compared a, pb_compared b) {
    return a.answer == b.answer && a.kept == b.kept && a.examined == b.examined && a.length == b.length;
}

static void compares(const question *q) {
    pb_record records[GUARD + LENT + GUARD];
    uint8_t sequence[GUARD + LENT + GUARD];
    for (size_t i = 0; i < GUARD + LENT + GUARD; i++) {
        records[i] = UNTOUCHED;
        sequence[i] = UNTOUCHED_BYTE;
    }
    pb_compared c = pb_compare(q->states, q->letters, q->finals, q->rows, q->states * q->letters, q->x, q->y,
                               q->room, records + GUARD, LENT, sequence + GUARD, LENT);
    check(same_compared(c, q->answer), q->name);
    for (size_t i = 0; i < GUARD + LENT + GUARD; i++) {
        int written = i >= GUARD && i < GUARD + q->answer.kept;
        check(same_record(records[i], written ? q->records[i - GUARD] : UNTOUCHED), q->name);
        written = i >= GUARD && i < GUARD + q->answer.length;
        check(sequence[i] == (written ? q->sequence[i - GUARD] : UNTOUCHED_BYTE), q->name);
    }
    if (c.answer == PB_SAME) {
        pb_checked p = pb_check_records(q->states, q->letters, q->finals, q->rows, q->states * q->letters, q->x, q->y,
                                        records + GUARD, c.kept);
        check(p.answer == PB_PROVED && p.place == 0, "the records of SAME are evidence");
    }
    uint64_t lefts[LENT], rights[LENT];
    uint16_t parents[LENT];
    uint8_t taken[LENT], letters[LENT];
    pb_compared l = pb_compare_lists(q->states, q->letters, q->finals, q->rows, q->states * q->letters, q->x, q->y,
                                     q->room, lefts, LENT, rights, LENT, parents, LENT, taken, LENT, letters, LENT);
    check(same_compared(l, c), "lists answer as records do");
    if (l.answer == PB_SAME) {
        pb_checked p = pb_check(q->states, q->letters, q->finals, q->rows, q->states * q->letters, q->x, q->y,
                                lefts, l.kept, rights, l.kept);
        check(p.answer == PB_PROVED && p.place == 0, "the lists of SAME are evidence");
    }
    for (size_t i = 0; i < l.kept; i++) {
        pb_record r = {lefts[i], rights[i], parents[i], taken[i]};
        check(same_record(r, records[GUARD + i]), "lists hold what records hold");
    }
}

static void refuses(void) {
    pb_record records[1] = {UNTOUCHED};
    uint8_t sequence[1] = {UNTOUCHED_BYTE};
    const pb_compared bad_size = {PB_BAD_SIZE, 0, 0, 0}, bad_table = {PB_BAD_TABLE, 0, 0, 0},
                      bad_room = {PB_BAD_ROOM, 0, 0, 0}, bad_set = {PB_BAD_SET, 0, 0, 0};
    check(same_compared(pb_compare(0, 1, 5, A, 3, 1, 4, 1, records, 1, sequence, 1), bad_size), "no states");
    check(same_compared(pb_compare(SIZE_MAX, SIZE_MAX, 5, A, 3, 1, 4, 1, records, 1, sequence, 1), bad_size), "2^64-1 states");
    check(same_compared(pb_compare(3, 33, 5, A, 3, 1, 4, 1, records, 1, sequence, 1), bad_size), "33 letters");
    check(same_compared(pb_compare(3, 1, 5, A, 2, 1, 4, 1, records, 1, sequence, 1), bad_table), "a row short");
    check(same_compared(pb_compare(3, 1, 5, A, 3, 1, 4, 1025, records, 1, sequence, 1), bad_room), "room 1025");
    check(same_compared(pb_compare(3, 1, 5, A, 3, 1, 4, 2, records, 1, sequence, 1), bad_room), "a list of one record");
    check(same_compared(pb_compare(3, 1, 5, A, 3, 8, 4, 2, records, 1, sequence, 1), bad_room), "13 before 12");
    check(same_compared(pb_compare(3, 1, 5, A, 3, 8, 4, 1, records, 1, sequence, 1), bad_set), "state 3 of 3");
    check(same_compared(pb_compare_default(3, 1, 5, A, 3, 1, 4, records, 1, sequence, 1), bad_room), "a short form, a short list");
    check(same_record(records[0], UNTOUCHED) && sequence[0] == UNTOUCHED_BYTE, "a refusal changes nothing");
}

static void takes_the_default(void) {
    static pb_record records[PB_DEFAULT_ROOM];
    static uint8_t sequence[PB_DEFAULT_ROOM];
    const pb_compared same = {PB_SAME, 3, 4, 0};
    check(same_compared(pb_compare_default(6, 1, 18, B, 6, 1, 8, records, PB_DEFAULT_ROOM, sequence, PB_DEFAULT_ROOM), same),
          "the short form");
}

/* The one-way question of A, with what it leaves: each way, in a room that is too small, and refused. */
static void asks_one_way(void) {
    const pb_compared within = {PB_WITHIN, 2, 3, 0}, not_within = {PB_NOT_WITHIN, 1, 2, 1}, full = {PB_FULL, 1, 2, 0},
                      bad_room = {PB_BAD_ROOM, 0, 0, 0}, bad_set = {PB_BAD_SET, 0, 0, 0};
    const pb_record left[] = {{5, 4, 0, 0}, {6, 4, 0, 0}};
    pb_record records[GUARD + LENT + GUARD];
    uint8_t sequence[GUARD + LENT + GUARD];
    for (size_t i = 0; i < GUARD + LENT + GUARD; i++) {
        records[i] = UNTOUCHED;
        sequence[i] = UNTOUCHED_BYTE;
    }
    check(same_compared(pb_within(3, 1, 5, A, 3, 1, 4, 3, records + GUARD, 2, sequence + GUARD, LENT), bad_room), "a short list");
    check(same_compared(pb_within(3, 1, 5, A, 3, 8, 4, 2, records + GUARD, 2, sequence + GUARD, LENT), bad_set), "state 3 in x");
    check(same_compared(pb_within(3, 1, 5, A, 3, 1, 8, 2, records + GUARD, 2, sequence + GUARD, LENT), bad_set), "state 3 in y");
    check(same_record(records[GUARD], UNTOUCHED), "a refusal changes nothing");
    pb_compared c = pb_within(3, 1, 5, A, 3, 1, 4, 2, records + GUARD, LENT, sequence + GUARD, LENT);
    check(same_compared(c, within), "all that 1 accepts, 4 accepts");
    for (size_t i = 0; i < GUARD + LENT + GUARD; i++) {
        int written = i >= GUARD && i < GUARD + c.kept;
        check(same_record(records[i], written ? left[i - GUARD] : UNTOUCHED), "its records, and no other place");
        check(sequence[i] == UNTOUCHED_BYTE, "and no sequence");
    }
    check(pb_check_records(3, 1, 5, A, 3, 1 | 4, 4, records + GUARD, c.kept).answer == PB_PROVED, "they are evidence of both and 4");
    check(pb_check_records(3, 1, 5, A, 3, 1, 4, records + GUARD, c.kept).answer == PB_NOT_PROVED, "and not of 1 and 4");
    check(same_compared(pb_within(3, 1, 5, A, 3, 1, 4, 1, records + GUARD, LENT, sequence + GUARD, LENT), full), "one place is too few");
    c = pb_within(3, 1, 5, A, 3, 4, 1, 2, records + GUARD, LENT, sequence + GUARD, LENT);
    check(same_compared(c, not_within) && sequence[GUARD] == 0 && sequence[GUARD + 1] == UNTOUCHED_BYTE, "4 accepts one letter, and 1 does not");
    check(pb_judge(3, 1, 5, A, 3, 4, sequence + GUARD, c.length).answer == PB_ACCEPT, "its sequence from 4");
    check(pb_judge(3, 1, 5, A, 3, 1, sequence + GUARD, c.length).answer == PB_REJECT, "and from 1");
    uint64_t lefts[2], rights[2];
    uint16_t parents[2];
    uint8_t taken[2], letters[2];
    c = pb_within_lists(3, 1, 5, A, 3, 1, 4, 2, lefts, 2, rights, 2, parents, 2, taken, 2, letters, 2);
    check(same_compared(c, within), "lists answer as records do");
    for (size_t i = 0; i < c.kept; i++) {
        pb_record r = {lefts[i], rights[i], parents[i], taken[i]};
        check(same_record(r, left[i]), "lists hold what records hold");
    }
    check(pb_check(3, 1, 5, A, 3, 1 | 4, 4, lefts, c.kept, rights, c.kept).answer == PB_PROVED, "and they are evidence too");
}

/* Seven switches: 128 pairs, more than the small tables of the calls over records hold. */
static void keeps_128(void) {
    enum { SWITCHES = 7, STATES = 2 * SWITCHES + 1, ROWS = STATES * SWITCHES, KEPT = 128 };
    uint64_t rows[ROWS], x = 0, y = 1 << (STATES - 1);
    for (size_t a = 0; a < SWITCHES; a++) {
        x |= 1 << (2 * a);
        for (size_t s = 0; s < STATES; s++)
            rows[s * SWITCHES + a] = s < 2 * SWITCHES && s / 2 == a ? 1 << (2 * a + 1) : 1 << s;
    }
    pb_record records[KEPT + 1], fewer[KEPT + 1];
    uint8_t sequence[KEPT + 1];
    for (size_t i = 0; i <= KEPT; i++) {
        records[i] = fewer[i] = UNTOUCHED;
        sequence[i] = UNTOUCHED_BYTE;
    }
    const pb_compared same = {PB_SAME, KEPT, 1 + SWITCHES * KEPT, 0};
    check(same_compared(pb_compare(STATES, SWITCHES, 0, rows, ROWS, x, y, KEPT, records, KEPT, sequence, KEPT), same), "seven switches");
    check(same_record(records[KEPT], UNTOUCHED), "seven switches: a record more");
    pb_checked p = pb_check_records(STATES, SWITCHES, 0, rows, ROWS, x, y, records, KEPT);
    check(p.answer == PB_PROVED && p.place == 0, "their records are evidence");
    p = pb_check_records(STATES, SWITCHES, 0, rows, ROWS, x, y, records, KEPT - 1);
    check(p.answer == PB_NOT_PROVED, "and without the last they are not");
    for (size_t room = 63; room <= 66; room++) {
        pb_compared c = pb_compare(STATES, SWITCHES, 0, rows, ROWS, x, y, room, fewer, KEPT, sequence, KEPT);
        check(c.answer == PB_FULL && c.kept == room && c.length == 0, "seven switches in a smaller room");
        for (size_t i = 0; i <= KEPT; i++)
            check(same_record(fewer[i], i < room ? records[i] : UNTOUCHED), "the first records, and no other");
    }
    for (size_t i = 0; i <= KEPT; i++)
        check(sequence[i] == UNTOUCHED_BYTE, "SAME and FULL write no sequence");
}

static void judges(void) {
    const uint8_t read[] = {0}, worse[] = {0, 1};
    check(pb_judge(3, 1, 5, A, 3, 1, read, 0).answer == PB_ACCEPT, "the empty sequence from 1");
    check(pb_judge(3, 1, 5, A, 3, 1, read, 1).answer == PB_REJECT, "one letter from 1");
    check(pb_judge(3, 1, 5, A, 3, 4, read, 1).answer == PB_ACCEPT, "one letter from 4");
    check(pb_judge(3, 1, 5, A, 3, 1, worse, 2).answer == PB_BAD_LETTER, "letter 1 of 1");
    check(pb_judge(3, 1, 8, A, 3, 1, worse, 2).answer == PB_BAD_SET, "12 before 15");
}

static void checks(void) {
    const uint64_t lefts[] = {1, 2, 4}, rights[] = {8, 48, 40};
    pb_checked p = pb_check(6, 1, 18, B, 6, 1, 8, lefts, 3, rights, 3);
    check(p.answer == PB_PROVED && p.place == 0, "B's pairs are evidence");
    p = pb_check(6, 1, 18, B, 6, 1, 8, lefts, 2, rights, 2);
    check(p.answer == PB_NOT_PROVED && p.place == 1, "without the last pair the second fails");
    p = pb_check(6, 1, 18, B, 6, 8, 1, lefts, 3, rights, 3);
    check(p.answer == PB_PROVED && p.place == 0, "(8,1) follows from (1,8)");
    p = pb_check(6, 1, 18, B, 6, 7, 56, lefts, 3, rights, 3);
    check(p.answer == PB_PROVED && p.place == 0, "(7,56) is the union of the three");
    p = pb_check(6, 1, 18, B, 6, 1, 1, lefts, 0, rights, 0);
    check(p.answer == PB_PROVED && p.place == 0, "a set against itself needs no pairs");
    p = pb_check(6, 1, 18, B, 6, 1, 48, lefts, 3, rights, 3);
    check(p.answer == PB_NOT_PROVED && p.place == 3, "(1,48) does not follow");
    p = pb_check(6, 1, 18, B, 6, 1, 8, lefts, 3, rights, 2);
    check(p.answer == PB_BAD_LIST && p.place == 0, "sides of different length");
}

static void files(void) {
    const uint8_t file[] = {0x03, 0x01, 0x05, 0x02, 0x01, 0x04, 0x01, 0x04};
    uint64_t rows[4] = {9, 9, 9, 9};
    uint8_t bytes[10];
    pb_pattern p = pb_read_pattern(file, sizeof file, rows, 4);
    check(p.answer == PB_DONE && p.states == 3 && p.letters == 1 && p.finals == 5 && p.x == 1 && p.y == 4 && p.place == 0,
          "the example of the scope is read");
    check(memcmp(rows, A, sizeof A) == 0 && rows[3] == 9, "its rows are written, and no other");
    memset(bytes, 0xEE, sizeof bytes);
    pb_written w = pb_write_pattern(p.states, p.letters, p.finals, rows, 3, p.x, p.y, bytes, sizeof bytes);
    check(w.answer == PB_DONE && w.count == sizeof file && memcmp(bytes, file, sizeof file) == 0, "it is written back");
    check(bytes[8] == 0xEE && bytes[9] == 0xEE, "and nothing after it");
    w = pb_write_pattern(p.states, p.letters, p.finals, rows, 3, p.x, p.y, bytes, 7);
    check(w.answer == PB_NO_ROOM && w.count == 0, "seven bytes are too few");
    p = pb_read_pattern(file, 7, rows, 4);
    check(p.answer == PB_CUT && p.states == 0 && p.place == 7, "without its last byte it is cut at 7");
    p = pb_read_pattern(file, sizeof file, rows, 2);
    check(p.answer == PB_NO_ROOM && p.place == 2, "two rows are too few");
    const uint8_t padded[] = {0x03, 0x01, 0x85, 0x00};
    p = pb_read_pattern(padded, sizeof padded, rows, 4);
    check(p.answer == PB_PADDED && p.states == 0 && p.place == 2, "5 in two bytes is padded");
    const uint8_t too_big[] = {0x03, 0x01, 0x80, 0x80, 0x80, 0x80, 0x80, 0x80, 0x80, 0x80, 0x80, 0x02};
    p = pb_read_pattern(too_big, sizeof too_big, rows, 4);
    check(p.answer == PB_TOO_BIG && p.states == 0 && p.place == 2, "2^64 is too big");
}

static pb_expressed expressed(const char *one, const char *two, uint64_t *rows, size_t rows_count) {
    return pb_expressions((const uint8_t *)one, strlen(one), (const uint8_t *)two, strlen(two), rows, rows_count);
}

static void refuses_text(const char *one, const char *two, uint8_t answer, uint8_t text, size_t place, const char *what) {
    uint64_t rows[4 * PB_MAX_LETTERS] = {9, 9};
    pb_expressed e = expressed(one, two, rows, 4 * PB_MAX_LETTERS);
    check(e.answer == answer && e.text == text && e.place == place, what);
    check(e.states == 0 && e.letters == 0 && e.finals == 0 && e.x == 0 && e.y == 0, "a refused text returns no pattern");
    check(rows[0] == 9 && rows[1] == 9 && rows[2] == 0, "a refused text changes no row");
}

/* Catches texts or rows that are taken in another's place, and a pattern that other calls do not take. */
static void makes_patterns(void) {
    static pb_record records[PB_DEFAULT_ROOM];
    static uint8_t sequence[PB_DEFAULT_ROOM];
    static uint64_t rows[GUARD + PB_MAX_ROWS + GUARD];
    for (size_t i = 0; i < sizeof rows / sizeof rows[0]; i++)
        rows[i] = 0xAAAA + i;
    pb_expressed e = expressed("READ STABLE* CAP", "READ (STABLE | CLOCKBACK READ)* CAP", rows + GUARD, PB_MAX_ROWS);
    check(e.answer == PB_DONE && e.states == 10 && e.letters == PB_MAX_LETTERS && e.place == 0 && e.text == 0, "two texts become a pattern");
    check(e.finals == (1 << 3 | 1 << 9) && e.x == 1 && e.y == 1 << 4, "their starts and their finals");
    int quiet = 1;
    for (size_t i = 0; i < sizeof rows / sizeof rows[0]; i++)
        quiet &= (i >= GUARD && i < GUARD + 10 * PB_MAX_LETTERS) || rows[i] == 0xAAAA + i;
    check(quiet, "its rows are written, and no other");
    pb_compared c = pb_compare_default(e.states, e.letters, e.finals, rows + GUARD, e.states * e.letters, e.x, e.y,
                                       records, PB_DEFAULT_ROOM, sequence, PB_DEFAULT_ROOM);
    check(c.answer == PB_DIFFERENT && c.length == 4, "they differ after four events");
    check(sequence[0] == 0 && sequence[1] == 10 && sequence[2] == 0 && sequence[3] == 6, "READ CLOCKBACK READ CAP");
    refuses_text("READ CAPS", "1", PB_SYNTAX, 1, 5, "an unknown name");
    refuses_text("READ", "CAP |", PB_SYNTAX, 2, 5, "an unfinished text");
    refuses_text("", "", PB_SYNTAX, 1, 0, "an empty text");
    refuses_text("READ CAP", "1 | DROP", PB_NO_ROOM, 0, 0, "four states of five");
    refuses_text("1", "((((((((((((((((((((((((((((((((1", PB_SYNTAX, 2, 33, "32 parentheses that are not closed");
    refuses_text("1", "(((((((((((((((((((((((((((((((((1", PB_TOO_DEEP, 2, 32, "33 parentheses");
    char many[64 * 4 + 1] = "";
    for (size_t i = 0; i < 64; i++)
        strcat(many, "CAP ");
    refuses_text(many, "1", PB_TOO_MANY, 1, 63 * 4, "64 names");
    many[63 * 4] = '\0';
    refuses_text(many, "1", PB_TOO_MANY, 2, 0, "63 names and a second start");
}

/* Catches a number that is taken for a refusal because it is high, and a refusal that is not taken for one. */
static void tells_refusals(void) {
    static const uint8_t refusals[] = {PB_BAD_SIZE, PB_BAD_TABLE, PB_BAD_SET, PB_BAD_ROOM, PB_NO_ROOM,
                                       PB_BAD_LETTER, PB_BAD_LIST, PB_CUT, PB_PADDED, PB_TAIL, PB_TOO_BIG,
                                       PB_SYNTAX, PB_TOO_MANY, PB_TOO_DEEP};
    for (unsigned answer = 0; answer < 256; answer++)
        check(pb_is_refusal((uint8_t)answer) == (memchr(refusals, (int)answer, sizeof refusals) != NULL), "a refusal by its number");
}

int main(void) {
    check(sizeof(pb_record) == 24, "a record has 24 bytes");
    check(pb_version() == PB_VERSION, "the header is that of the library");
    for (size_t i = 0; i < sizeof known / sizeof known[0]; i++)
        compares(&known[i]);
    refuses();
    takes_the_default();
    asks_one_way();
    keeps_128();
    judges();
    checks();
    files();
    makes_patterns();
    tells_refusals();
    printf("%d passed, %d failed\n", passed, failed);
    return failed == 0 ? 0 : 1;
}
