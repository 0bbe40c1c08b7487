/* How much stack each export needs, on a small question and on the largest: the call is made on a painted stack of its own, and the
 * paint that is gone is counted. It fails where a call needs more than its tables and 512 bytes. The largest question is written as a
 * pattern file, for the program. */
#define _XOPEN_SOURCE 700
#include "pressbadger.h"

#include <stdio.h>
#include <stdlib.h>
#include <string.h>
#include <ucontext.h>

enum { STACK = 1 << 20, PAINT = 0x5A, BESIDE = 512, ROWS = PB_MAX_ROWS };

static ucontext_t here, there;
static unsigned char *stack;
static void (*call)(void);

/* The question: so many switches, of which the walk keeps 2 to their number. Six are 64 pairs, ten the 1,024 that the room allows. */
static size_t states, letters, rows_count;
static uint64_t rows[21 * 10], lefts[PB_MAX_ROOM], rights[PB_MAX_ROOM], read_rows[ROWS], x, y;
static uint16_t parents[PB_MAX_ROOM];
static uint8_t taken[PB_MAX_ROOM], sequence[PB_MAX_ROOM], bytes[PB_LONGEST_FILE];
static pb_record records[PB_MAX_ROOM];
static size_t length, kept;

static void make_question(size_t count) {
    letters = count;
    states = 2 * count + 1;
    rows_count = states * letters;
    x = 0;
    y = 1ULL << (states - 1);
    for (size_t a = 0; a < letters; a++) {
        x |= 1ULL << (2 * a);
        for (size_t s = 0; s < states; s++)
            rows[s * letters + a] = s < 2 * count && s / 2 == a ? 1ULL << (2 * a + 1) : 1ULL << s;
    }
}

static void nothing(void) {}
static void compare(void) { kept = pb_compare(states, letters, 0, rows, rows_count, x, y, PB_MAX_ROOM, records, PB_MAX_ROOM, sequence, PB_MAX_ROOM).kept; }
static void compare_default(void) { kept = pb_compare_default(states, letters, 0, rows, rows_count, x, y, records, PB_MAX_ROOM, sequence, PB_MAX_ROOM).kept; }
static void compare_lists(void) {
    kept = pb_compare_lists(states, letters, 0, rows, rows_count, x, y, PB_MAX_ROOM, lefts, PB_MAX_ROOM, rights, PB_MAX_ROOM, parents, PB_MAX_ROOM,
                            taken, PB_MAX_ROOM, sequence, PB_MAX_ROOM).kept;
}
static void within(void) { kept = pb_within(states, letters, 0, rows, rows_count, x, y, PB_MAX_ROOM, records, PB_MAX_ROOM, sequence, PB_MAX_ROOM).kept; }
static void within_lists(void) {
    kept = pb_within_lists(states, letters, 0, rows, rows_count, x, y, PB_MAX_ROOM, lefts, PB_MAX_ROOM, rights, PB_MAX_ROOM, parents, PB_MAX_ROOM,
                           taken, PB_MAX_ROOM, sequence, PB_MAX_ROOM).kept;
}
static void judge(void) { pb_judge(states, letters, 0, rows, rows_count, x, taken, PB_MAX_ROOM); }
static void check(void) { pb_check(states, letters, 0, rows, rows_count, x, y, lefts, kept, rights, kept); }
static void check_records(void) { pb_check_records(states, letters, 0, rows, rows_count, x, y, records, kept); }
static void write_pattern(void) { length = pb_write_pattern(states, letters, 0, rows, rows_count, x, y, bytes, sizeof bytes).count; }
static void read_pattern(void) { pb_read_pattern(bytes, length, read_rows, ROWS); }

/* Two texts of 32 open parentheses each and 62 names together. */
enum { DEPTH = 32 };
static uint8_t text[DEPTH * 8];
static size_t text_length;

static void make_text(void) {
    for (size_t open = 0; open < DEPTH; open++) {
        const char *opens = open < DEPTH - 1 ? "E31 (" : "(1";
        memcpy(text + text_length, opens, strlen(opens));
        text_length += strlen(opens);
    }
    for (size_t open = 0; open < DEPTH; open++) {
        text[text_length++] = ')';
        text[text_length++] = '*';
    }
}

static void expressions(void) { length = pb_expressions(text, text_length, text, text_length, read_rows, ROWS).states; }

/* What a reader would need that fills a table of its own and then copies it. */
static void read_into_a_table(void) {
    uint64_t table[ROWS];
    pb_pattern read = pb_read_pattern(bytes, length, table, ROWS);
    if (read.answer == PB_DONE)
        memcpy(read_rows, table, read.states * read.letters * sizeof *table);
}

static void on_its_own_stack(void) { call(); }

static size_t used(void (*which)(void)) {
    memset(stack, PAINT, STACK);
    call = which;
    getcontext(&there);
    there.uc_stack.ss_sp = stack;
    there.uc_stack.ss_size = STACK;
    there.uc_link = &here;
    makecontext(&there, on_its_own_stack, 0);
    swapcontext(&here, &there);
    size_t clean = 0;
    while (clean < STACK && stack[clean] == PAINT)
        clean++;
    return STACK - clean;
}

static int write_file(const char *name) {
    FILE *file = fopen(name, "wb");
    return file != NULL && fwrite(bytes, 1, length, file) == length && fclose(file) == 0;
}

int main(int count, char **arguments) {
    static const struct {
        const char *name;
        void (*which)(void);
        size_t small, large; /* its tables, in bytes: for 64 pairs, and for 1,024 */
    } calls[] = {
        {"`pb_compare`", compare, 64 * 19, 1024 * 19},
        {"`pb_compare_default`", compare_default, 64 * 19, 1024 * 19},
        {"`pb_compare_lists`", compare_lists, 0, 0},
        {"`pb_judge`", judge, 0, 0},
        {"`pb_check`", check, 0, 0},
        {"`pb_check_records`", check_records, 64 * 16, 1025 * 16},
        {"`pb_write_pattern`", write_pattern, 0, 0},
        {"`pb_read_pattern`", read_pattern, 0, 0},
        {"`pb_read_pattern` into a table on the stack, which is then copied", read_into_a_table, ROWS * 8, ROWS * 8},
        {"`pb_expressions`", expressions, 768 + 33 * 752, 768 + 33 * 752}, /* and a frame for each level of parentheses */
        {"`pb_within`", within, 64 * 19, 1024 * 19},
        {"`pb_within_lists`", within_lists, 0, 0},
    };
    enum { CALLS = sizeof calls / sizeof calls[0] };
    size_t small[CALLS], large[CALLS];
    stack = malloc(STACK);
    if (stack == NULL || count != 2)
        return 1;
    make_text();
    size_t none = used(nothing);
    make_question(6);
    for (size_t i = 0; i < CALLS; i++)
        small[i] = used(calls[i].which) - none;
    make_question(10);
    for (size_t i = 0; i < CALLS; i++)
        large[i] = used(calls[i].which) - none;
    int right = write_file(arguments[1]);
    for (size_t i = 0; i < CALLS; i++) {
        printf("| %s | %zu | %zu |\n", calls[i].name, small[i], large[i]);
        right = right && small[i] <= calls[i].small + BESIDE && large[i] <= calls[i].large + BESIDE;
    }
    return right ? 0 : 1;
}
