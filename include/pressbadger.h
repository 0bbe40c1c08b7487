/* Pressbadger: do two sets of states of one pattern accept the same event sequences?
 *
 * This header is the manual for programs in C99 and C++.
 *
 * LINKING. `bin/build pressbadger` writes target/staticlib/libpressbadger.a. A host is linked by
 *     gcc host.c -I include -L target/staticlib -lpressbadger
 * The library is for x86-64 and calls nothing but memcpy and memset. This header and the .a can be
 * copied to a machine without the kit, and so can the program target/bin/compare.
 *
 * THE PROMISES, for every call and every input:
 *   - it answers, it ends, and it touches nothing but what it is lent;
 *   - it keeps no pointer, allocates nothing, has no state of its own, and may be called from
 *     several threads at once on different memory;
 *   - a refusal (an answer 10 to 16, 20 to 23 or 30 to 32) changes no byte of what is lent, and every
 *     number returned with it is 0, but for the place of pb_read_pattern, and the place and the text of
 *     pb_expressions;
 *   - after any other answer, everything lent and not named below as written is unchanged.
 *
 * THE HOST'S DUTIES, on which the promises rest:
 *   - each pointer is aligned for its type and points to as many elements as the count beside it says;
 *   - no pointer is NULL, not even where its count is 0: for an empty std::vector, whose data() may be
 *     NULL, pass the address of any object of the element's type;
 *   - the buffers of one call do not overlap;
 *   - during the call nobody else writes to what is lent, or reads what the call writes;
 *   - there is as much stack as is said beside the call. A shorter one ends the program at its guard
 *     page, since the library touches every page of its frames in turn;
 *   - pb_version() is PB_VERSION, or header and library do not go together.
 *
 * PATTERNS. A pattern has `states` states, 1 to 64, and `letters` letters, 1 to 32. A set of states is
 * a mask: bit s for state s, bits `states` and above 0. `finals` is the set of final states. `rows` has
 * states * letters masks: rows[s * letters + a] is the set reached from state s by letter a. A set
 * accepts a sequence of letters where following it leads to a set that has a final state in it.
 */
#ifndef PRESSBADGER_H
#define PRESSBADGER_H

#if !defined(__x86_64__) || defined(__ILP32__) || defined(_WIN32)
#error "libpressbadger.a is for x86-64: pointers of 64 bits and the System V calling convention"
#endif

#include <stddef.h>
#include <stdint.h>

#ifdef __cplusplus
extern "C" {
#endif

/* The version of this interface. */
#define PB_VERSION 2

/* The largest room that may be asked for, and the room of pb_compare_default. */
#define PB_MAX_ROOM 1024
#define PB_DEFAULT_ROOM 1024

/* The most rows of a pattern, and the bytes of the longest pattern file. */
#define PB_MAX_ROWS 2048
#define PB_LONGEST_FILE 20512

/* The letters of a pattern made by pb_expressions, and the most parentheses open at once in a text. */
#define PB_MAX_LETTERS 32
#define PB_MAX_OPEN 32

/* Answers. 10 to 16, 20 to 23 and 30 to 32 are refusals; where several apply, the order is 10, 11, 13, 16,
 * 12, 14, 15, and for pb_read_pattern the first fault by place. pb_expressions has its own order. */
enum {
    PB_SAME = 0,
    PB_DIFFERENT = 1,
    PB_FULL = 2,
    PB_ACCEPT = 3,
    PB_REJECT = 4,
    PB_PROVED = 5,
    PB_NOT_PROVED = 6,
    PB_DONE = 7,
    PB_WITHIN = 8,
    PB_NOT_WITHIN = 9,
    PB_BAD_SIZE = 10,   /* states or letters outside its range */
    PB_BAD_TABLE = 11,  /* rows_count is not states * letters */
    PB_BAD_SET = 12,    /* a mask has a bit `states` or above: finals, a row, or a set that is given */
    PB_BAD_ROOM = 13,   /* room over 1024, or records or sequence bytes fewer than the room */
    PB_NO_ROOM = 14,    /* row buffer or byte buffer too short */
    PB_BAD_LETTER = 15, /* a sequence has a letter `letters` or above */
    PB_BAD_LIST = 16,   /* evidence of over 1024 pairs, or two sides of different length */
    PB_CUT = 20,        /* the file ends before or within a number */
    PB_PADDED = 21,     /* a number ends with a needless group of zero: what wrote the file pads */
    PB_TAIL = 22,       /* bytes after the last number */
    PB_TOO_BIG = 23,    /* a number has a tenth byte other than 00 or 01: it is 2^64 or more, or has no end in ten bytes */
    PB_SYNTAX = 30,     /* a name or a byte that no right text has there, or an unfinished text */
    PB_TOO_MANY = 31,   /* no state is left for a name or for a start */
    PB_TOO_DEEP = 32    /* a parenthesis opens, and 32 are open */
};

/* Whether an answer is a refusal. A number that a later version adds is not one for being high. */
static inline int pb_is_refusal(uint8_t answer) {
    return (answer >= PB_BAD_SIZE && answer <= PB_BAD_LIST) || (answer >= PB_CUT && answer <= PB_TOO_BIG) ||
           (answer >= PB_SYNTAX && answer <= PB_TOO_DEEP);
}

/* A kept record: a pair of sets, and how the walk came to it: by `letter` from the pair of record
 * number `parent`. Record 0 is the starting pair and has parent 0 and letter 0. 24 bytes. */
typedef struct {
    uint64_t left;
    uint64_t right;
    uint16_t parent;
    uint8_t letter;
} pb_record;

typedef struct {
    uint8_t answer; /* PB_SAME, PB_DIFFERENT, PB_FULL, or a refusal; of pb_within PB_WITHIN, PB_NOT_WITHIN, .. */
    size_t kept;
    size_t examined;
    size_t length;
} pb_compared;

typedef struct {
    uint8_t answer; /* PB_ACCEPT, PB_REJECT, or a refusal */
} pb_judged;

typedef struct {
    uint8_t answer; /* PB_PROVED, PB_NOT_PROVED, or a refusal */
    size_t place;
} pb_checked;

typedef struct {
    uint8_t answer; /* PB_DONE, or a refusal */
    size_t states;
    size_t letters;
    uint64_t finals;
    uint64_t x;
    uint64_t y;
    size_t place;
} pb_pattern;

typedef struct {
    uint8_t answer; /* PB_DONE, or a refusal */
    size_t count;
} pb_written;

typedef struct {
    uint8_t answer; /* PB_DONE, or a refusal */
    size_t states;
    size_t letters;
    uint64_t finals;
    uint64_t x;
    uint64_t y;
    size_t place;
    uint8_t text; /* 1 or 2 where that text has the fault, else 0 */
} pb_expressed;

/* The library's layout of what crosses: where the host's compiler has another, one of these arrays has
 * a negative length, and the host does not compile. */
typedef char pb_size_t_has_8_bytes[sizeof(size_t) == 8 ? 1 : -1];
typedef char pb_pointer_has_8_bytes[sizeof(void *) == 8 ? 1 : -1];
typedef char pb_record_has_24_bytes[sizeof(pb_record) == 24 ? 1 : -1];
typedef char pb_compared_has_32_bytes[sizeof(pb_compared) == 32 ? 1 : -1];
typedef char pb_judged_has_1_byte[sizeof(pb_judged) == 1 ? 1 : -1];
typedef char pb_checked_has_16_bytes[sizeof(pb_checked) == 16 ? 1 : -1];
typedef char pb_pattern_has_56_bytes[sizeof(pb_pattern) == 56 ? 1 : -1];
typedef char pb_written_has_16_bytes[sizeof(pb_written) == 16 ? 1 : -1];
typedef char pb_expressed_has_64_bytes[sizeof(pb_expressed) == 64 ? 1 : -1];

/* The version of the library. Nothing is lent. */
uint32_t pb_version(void);

/* Compares the sets x and y.
 *   PB_SAME       every event sequence is accepted from both or from neither. length is 0.
 *   PB_DIFFERENT  sequence[0 .. length-1] is accepted from exactly one of them; length may be 0.
 *   PB_FULL       the room ran out, and nothing is known: kept is the room, length is 0.
 * records[0 .. kept-1] are written with the pairs that were kept, and `examined` says how many
 * candidates were dealt with (on PB_SAME 1 + letters * kept). More room never changes PB_SAME or
 * PB_DIFFERENT, unless the larger call is refused. A room as large as the number of distinct sets that
 * sequences lead to from x or y never gives PB_FULL.
 * Refusals: 10, 11, 13, 12. Records and sequence may be longer than the room.
 * Stack: about 2,000 bytes, and 20,000 where more than 64 pairs are kept. */
pb_compared pb_compare(size_t states, size_t letters, uint64_t finals,
                       const uint64_t *rows, size_t rows_count,
                       uint64_t x, uint64_t y, size_t room,
                       pb_record *records, size_t records_count,
                       uint8_t *sequence, size_t sequence_count);

/* The same with room PB_DEFAULT_ROOM: fewer records or sequence bytes than that are refused with 13.
 * Stack: as above. */
pb_compared pb_compare_default(size_t states, size_t letters, uint64_t finals,
                               const uint64_t *rows, size_t rows_count,
                               uint64_t x, uint64_t y,
                               pb_record *records, size_t records_count,
                               uint8_t *sequence, size_t sequence_count);

/* The same for a host with little stack: the records are lent column by column, in four lists that may
 * differ in length, and the call has no table of its own. Stack: about 300 bytes. */
pb_compared pb_compare_lists(size_t states, size_t letters, uint64_t finals,
                             const uint64_t *rows, size_t rows_count,
                             uint64_t x, uint64_t y, size_t room,
                             uint64_t *lefts, size_t lefts_count,
                             uint64_t *rights, size_t rights_count,
                             uint16_t *parents, size_t parents_count,
                             uint8_t *taken, size_t taken_count,
                             uint8_t *sequence, size_t sequence_count);

/* The one-way question: is every event sequence that is accepted from x accepted from y? So whoever loosens
 * a pattern on purpose asks whether nothing that was accepted before, from x, is now refused, from y.
 *   PB_WITHIN      it is. length is 0.
 *   PB_NOT_WITHIN  sequence[0 .. length-1] is accepted from x and not from y; length may be 0.
 *   PB_FULL        the room ran out, and nothing is known: kept is the room, length is 0.
 * It is the comparison of x | y with y, and all else is as that comparison's: kept and examined, the records
 * (record 0 is x | y and y), the sequence, what more room changes, and that a room as large as the number of
 * distinct sets that sequences lead to from x | y or y never gives PB_FULL. x and y themselves may be SAME
 * in a room where this is PB_FULL. Refusals: 10, 11, 13, 12, where pb_compare gives them for x and y.
 * What PB_WITHIN left, also where it is nothing, is evidence of x | y and y, and PROVED of these two, whoever
 * wrote the list, means that everything accepted from x is accepted from y:
 *     pb_check_records(states, letters, finals, rows, rows_count, x | y, y, records, kept).answer == PB_PROVED
 * There is no short form: the room is always named. Stack: as for pb_compare. */
pb_compared pb_within(size_t states, size_t letters, uint64_t finals,
                      const uint64_t *rows, size_t rows_count,
                      uint64_t x, uint64_t y, size_t room,
                      pb_record *records, size_t records_count,
                      uint8_t *sequence, size_t sequence_count);

/* The same for a host with little stack, with lists as pb_compare_lists has them, and pb_check for the
 * evidence. Stack: about 300 bytes. */
pb_compared pb_within_lists(size_t states, size_t letters, uint64_t finals,
                            const uint64_t *rows, size_t rows_count,
                            uint64_t x, uint64_t y, size_t room,
                            uint64_t *lefts, size_t lefts_count,
                            uint64_t *rights, size_t rights_count,
                            uint16_t *parents, size_t parents_count,
                            uint8_t *taken, size_t taken_count,
                            uint8_t *sequence, size_t sequence_count);

/* Judges one sequence from one set: PB_ACCEPT where it leads to a final state, else PB_REJECT.
 * Refusals: 10, 11, 12, 15. Nothing is written. Stack: about 100 bytes. */
pb_judged pb_judge(size_t states, size_t letters, uint64_t finals,
                   const uint64_t *rows, size_t rows_count, uint64_t set,
                   const uint8_t *sequence, size_t sequence_count);

/* Checks a list of pairs as evidence that x and y accept the same sequences, whoever wrote it.
 *   PB_PROVED      they do. (x, y) follows from the list, and each pair agrees on the empty sequence
 *                  and has, for each letter, successors that follow from the list. place is 0.
 *   PB_NOT_PROVED  the list does not show it, which does not mean that they differ. place is the number
 *                  of pairs where (x, y) does not follow, else the number of the lowest failing pair.
 * Two sets follow from a list where they are equal or listed, either way round, or are led to by these
 * in chains and unions. The pairs that PB_SAME left are always such a list, also where they are none.
 * Refusals: 10, 11, 16, 12. Nothing is written. Stack: about 300 bytes. */
pb_checked pb_check(size_t states, size_t letters, uint64_t finals,
                    const uint64_t *rows, size_t rows_count,
                    uint64_t x, uint64_t y,
                    const uint64_t *lefts, size_t lefts_count,
                    const uint64_t *rights, size_t rights_count);

/* The same for the records that a comparison left, as they are: pass `kept` as records_count.
 * Stack: about 1,500 bytes, and 17,000 for more than 64 records. */
pb_checked pb_check_records(size_t states, size_t letters, uint64_t finals,
                            const uint64_t *rows, size_t rows_count,
                            uint64_t x, uint64_t y,
                            const pb_record *records, size_t records_count);

/* Reads a pattern file. PB_DONE: rows[0 .. states*letters-1] are written, and the numbers returned;
 * PB_MAX_ROWS entries are always enough. A refusal returns the place of the fault: the first byte of
 * the number at fault (for PB_CUT the data's length where no byte of it came), for PB_NO_ROOM the byte
 * after `letters`, for PB_TAIL the first extra byte. The first fault by place decides.
 * Refusals: 10, 12, 14, 20, 21, 22, 23. Stack: about 300 bytes. */
pb_pattern pb_read_pattern(const uint8_t *bytes, size_t bytes_count,
                           uint64_t *rows, size_t rows_count);

/* Writes a pattern file. PB_DONE: bytes[0 .. count-1] are written; PB_LONGEST_FILE bytes are always
 * enough. Refusals: 10, 11, 12, 14. Stack: about 100 bytes. */
pb_written pb_write_pattern(size_t states, size_t letters, uint64_t finals,
                            const uint64_t *rows, size_t rows_count,
                            uint64_t x, uint64_t y,
                            uint8_t *bytes, size_t bytes_count);

/* Makes one pattern of two texts, such as READ (STABLE | CLOCKBACK READ)* CAP. The texts are bytes with no
 * NUL at their end: of a C string pass strlen(text) as the count.
 *
 * A text is an alternation: sequences with | between them. A sequence is one factor or more, one after
 * the other. A factor is a name, or an alternation in parentheses, and any number of marks after it:
 *     *  any number of times, none too     +  once at least     ?  once or not at all
 * The names: 1 takes the empty sequence alone, 0 takes no sequence, and the event of letter
 *     0 READ    1 STABLE  2 DROP      3 DRYHOP  4 CRASH       5 WARM
 *     6 CAP     7 VENT    8 TRANSFER  9 SAMPLE  10 CLOCKBACK  11 CLOCKON    12 E12 .. 31 E31
 * takes that event. A name is the longest run of capitals and digits, so that READCAP, READ1, E1 and 10
 * are no names. Any number of spaces (byte 20 hex, no other) may stand before and after a name or a sign.
 *
 *   PB_DONE       the pattern has 32 letters. State 0 starts the first text, and after it stands one state
 *                 for each event name in it, in the order of the text; then the second text's start and
 *                 its names. x and y are the sets of the two starts, and each accepts exactly the
 *                 sequences that its text takes. rows[0 .. 32*states-1] are written; PB_MAX_ROWS entries
 *                 are always enough. Pass 32*states as the rows_count of other calls.
 *   a refusal     returns the text, 1 or 2, and the place in it, a byte from 0 or the text's length:
 *     PB_SYNTAX     at the first name (by its first byte) or other byte that no right text could have
 *                   there, an unknown name too; at the text's length where it ends too soon
 *     PB_TOO_MANY   at the event name for which no state is left, of the 64 that both texts have; at 0 of
 *                   the second text where none is left for its start
 *     PB_TOO_DEEP   at the parenthesis that opens where 32 are open
 *     PB_NO_ROOM    place 0, text 0: rows_count is less than 32*states. Both texts are right
 *                 The first text's faults go before the second's, then the first by place, then by number.
 * A text may be empty (it is refused), as long as it likes, and of any bytes.
 * Stack: about 2,000 bytes, and 750 for each parenthesis that is open: about 26,000 at most. It does not
 * grow with the texts. */
pb_expressed pb_expressions(const uint8_t *one, size_t one_count,
                            const uint8_t *two, size_t two_count,
                            uint64_t *rows, size_t rows_count);

#ifdef __cplusplus
}
#endif

#endif
