/*
 * include/recovery.h against the library: its sizes, numbers and types by the compiler, each function on sample sheets
 * and streams by running. tests/header writes library.h from the Rattle sources.
 */
#include <stdio.h>
#include <string.h>

#include "recovery.h"

#include "library.h"

#define SAME(a, b) _Static_assert((a) == (b), #a " and " #b)
#define MEMBER(type, member) (sizeof(((type *)0)->member))

/* Sizes: the library's, and document 01's. */
SAME(RECOVERY_SHEET_BYTES, runner__Record__SHEET);
SAME(RECOVERY_REPLY_BYTES, runner__Record__REPLIES);
SAME(RECOVERY_TRACE_BYTES, routine__TRACE);
SAME(RECOVERY_LINE_BYTES, printing__LINES);
SAME(RECOVERY_STATE_WORDS, states__States__WORDS);
SAME(RECOVERY_HEAD_CELLS, routine__HEAD_CELLS);
SAME(RECOVERY_NODE_CELLS, routine__NODE_CELLS);
SAME(RECOVERY_SET_WORDS, routine__SET_WORDS);
SAME(RECOVERY_MEMO_WORDS, verifier__MEMO_WORDS);
SAME(RECOVERY_FIGURE_NUMBERS, release__Figures__NUMBERS);
SAME(RECOVERY_STREAM_NUMBERS, recovery__STATE);
SAME(RECOVERY_BEGUN_BYTES, release__Begun__BYTES);
SAME(RECOVERY_SHEET_BYTES, 1024);
SAME(RECOVERY_REPLY_BYTES, 64);
SAME(RECOVERY_TRACE_BYTES, 129);
SAME(RECOVERY_BEGUN_BYTES, 2 + 1024);
SAME(MEMBER(struct recovery_record, sheet), runner__Record__SHEET);
SAME(MEMBER(struct recovery_record, replies), runner__Record__REPLIES);
SAME(MEMBER(struct recovery_tables, heads), 2 * routine__HEAD_CELLS);
SAME(MEMBER(struct recovery_tables, nodes), 2 * routine__NODE_CELLS);
SAME(MEMBER(struct recovery_tables, sets), 8 * routine__SET_WORDS);
SAME(MEMBER(struct recovery_stream, numbers), 8 * recovery__STATE);
SAME(MEMBER(struct recovery_stream, begun), release__Begun__BYTES);

/* The members of what stands for an array are its elements, in order, of 8 bytes each. */
#define ELEMENT(type, member, i) _Static_assert(offsetof(type, member) == 8 * (i) && MEMBER(type, member) == 8, #member)
ELEMENT(struct recovery_verdict, kind, 0);
ELEMENT(struct recovery_verdict, count, 1);
ELEMENT(struct recovery_verdict, length, 2);
ELEMENT(struct recovery_told, kind, 0);
ELEMENT(struct recovery_told, value, 1);
ELEMENT(struct recovery_lengths, sheet, 0);
ELEMENT(struct recovery_lengths, replies, 1);

/*
 * Cases 1, 2, 3 and 9 of document 01, and case 2 with its action twice; of the samples twenty-probes, and with a
 * constraint never-both-live and no-state.
 */
static const uint8_t valid[] = {0x11, 0x0C, 0x90, 0x88, 0x1C, 0x40, 0x88, 0x20, 0x00};
static const uint8_t invalid[] = {0x11, 0x0C, 0x90, 0x88, 0x11, 0x04, 0x00};
static const uint8_t refused[] = {0x11, 0x0C, 0x90, 0x88, 0x1C, 0x40, 0x88, 0x20, 0x01};
static const uint8_t twice[] = {0x11, 0x0C, 0x90, 0x88, 0x11, 0x04, 0x08, 0x00};
static const uint8_t branching[] = {0x12, 0x1C, 0xBA, 0x08, 0xCE, 0x82, 0x32, 0xA8, 0x23, 0x2A, 0x08, 0xAF, 0x62, 0x21,
                                    0xD9, 0x44, 0xE5, 0x41, 0x12, 0x54, 0x11, 0x41, 0x1D, 0x04, 0x50, 0x88, 0x90, 0x80};
static const uint8_t stopped[] = {0x11, 0x0C, 0x89, 0x21, 0x40, 0x81, 0x02, 0x04, 0x08, 0x10, 0x20,
                                  0x40, 0x81, 0x02, 0x04, 0x08, 0x10, 0x20, 0x40, 0x81, 0x02, 0x00};
static const uint8_t constrained[] = {0x22, 0x95, 0x04, 0x45, 0x24, 0x22, 0x06, 0x0C,
                                      0x20, 0x44, 0x50, 0x42, 0x02, 0x10};
static const uint8_t stateless[] = {0x21, 0xA8, 0x44, 0x00, 0x02, 0x00};

static struct recovery_tables tables, marked_tables, prepared;
static struct recovery_record record, marked_record;
static struct recovery_verdict verdict, marked_verdict;
static struct recovery_told told, marked_told;
static uint8_t trace[RECOVERY_TRACE_BYTES + 8], marked_trace[RECOVERY_TRACE_BYTES + 8];
static uint64_t memo[RECOVERY_MEMO_WORDS], marked_memo[RECOVERY_MEMO_WORDS], no_memo[RECOVERY_MEMO_WORDS];
static uint64_t set[RECOVERY_STATE_WORDS], marked_set[RECOVERY_STATE_WORDS];
static uint8_t lines[RECOVERY_LINE_BYTES], marked_lines[RECOVERY_LINE_BYTES];
static struct recovery_stream stream, marked_stream;
static uint64_t figures[RECOVERY_FIGURE_NUMBERS];

#define SHEET(bytes) (bytes), sizeof(bytes)
#define RECORD record.sheet, record.replies, &record.lengths
#define TABLES tables.heads, tables.nodes, tables.sets
#define STREAM stream.numbers, stream.begun
#define IS(a, b) (memcmp(&(a), &(b), sizeof(a)) == 0)
#define COPY(to, from) memcpy(&(to), &(from), sizeof(to))

static int failed;

static void expect(int holds, int line)
{
    if (!holds) {
        printf("tests/header.c:%d: not so\n", line);
        failed = 1;
    }
}

#define EXPECT(holds) expect((holds), __LINE__)

/* Fills the lent memory with marks, to see what a call leaves of them. */
static void mark(void)
{
    memset(&tables, 0xA5, sizeof tables);
    memset(&record, 0xA5, sizeof record);
    memset(&verdict, 0xA5, sizeof verdict);
    memset(&told, 0xA5, sizeof told);
    memset(trace, 0xA5, sizeof trace);
    memset(memo, 0xA5, sizeof memo);
    memset(set, 0xA5, sizeof set);
    memset(lines, 0xA5, sizeof lines);
    memset(&stream, 0xA5, sizeof stream);
    memset(figures, 0xA5, sizeof figures);
    COPY(marked_tables, tables);
    COPY(marked_record, record);
    COPY(marked_verdict, verdict);
    COPY(marked_told, told);
    COPY(marked_trace, trace);
    COPY(marked_memo, memo);
    COPY(marked_set, set);
    COPY(marked_lines, lines);
    COPY(marked_stream, stream);
}

static int verdict_is(enum recovery_verdict_kind kind, uint64_t count, uint64_t length)
{
    return verdict.kind == kind && verdict.count == count && verdict.length == length;
}

static int told_is(enum recovery_told_kind kind, size_t value)
{
    return told.kind == kind && told.value == value;
}

static void verifying(void)
{
    const uint8_t failing[] = {0, 1, 0};

    mark();
    EXPECT(recovery_read(SHEET(valid)) == RECOVERY_ACCEPTED);
    EXPECT(recovery_read(SHEET(refused)) == RECOVERY_REFUSED_PADDING);
    EXPECT(recovery_read(SHEET(constrained)) == RECOVERY_ACCEPTED);
    EXPECT(recovery_read(SHEET(stateless)) == RECOVERY_REFUSED_NO_STATE);

    EXPECT(recovery_verify(SHEET(refused), 9, SHEET(trace), &verdict) == RECOVERY_REFUSED_PADDING);
    EXPECT(recovery_verify(SHEET(valid), 9, trace, 128, &verdict) == RECOVERY_REFUSED_SHORT_MEMORY);
    EXPECT(IS(verdict, marked_verdict) && IS(trace, marked_trace));
    EXPECT(recovery_verify(SHEET(valid), 9, trace, RECOVERY_TRACE_BYTES, &verdict) == RECOVERY_ACCEPTED);
    EXPECT(verdict_is(RECOVERY_VALID, 2, 0));
    EXPECT(recovery_verify(SHEET(valid), 1, SHEET(trace), &verdict) == RECOVERY_ACCEPTED);
    EXPECT(verdict_is(RECOVERY_STOPPED, 1, 0) && IS(trace, marked_trace));
    EXPECT(recovery_verify(SHEET(invalid), 9, SHEET(trace), &verdict) == RECOVERY_ACCEPTED);
    EXPECT(verdict_is(RECOVERY_INVALID, 2, 1));
    EXPECT(memcmp(trace, failing, 3) == 0 && memcmp(trace + 3, marked_trace + 3, sizeof trace - 3) == 0);
    EXPECT(recovery_trace_action(trace[1]) == 0 && recovery_trace_reply(trace[1]) == 1);
    EXPECT(recovery_trace_action(0xFE) == 31 && recovery_trace_reply(0xFE) == 6);

    EXPECT(recovery_verify_in(SHEET(refused), 9, SHEET(trace), &verdict, TABLES, memo) == RECOVERY_REFUSED_PADDING);
    EXPECT(IS(tables, marked_tables) && IS(memo, marked_memo));
    EXPECT(recovery_verify_in(SHEET(valid), 1, SHEET(trace), &verdict, TABLES, memo) == RECOVERY_ACCEPTED);
    EXPECT(verdict_is(RECOVERY_STOPPED, 1, 0) && IS(memo, no_memo));
    COPY(prepared, marked_tables);
    EXPECT(recovery_prepare(SHEET(valid), prepared.heads, prepared.nodes, prepared.sets, set) == RECOVERY_ACCEPTED);
    EXPECT(IS(tables, prepared));

    mark();
    EXPECT(recovery_check(SHEET(invalid), SHEET(failing)) == RECOVERY_CHECKED_YES);
    EXPECT(recovery_check(SHEET(invalid), failing, 1) == RECOVERY_CHECKED_NO);
    EXPECT(recovery_check(SHEET(refused), SHEET(failing)) == RECOVERY_REFUSED_PADDING);
    EXPECT(recovery_check_in(SHEET(refused), SHEET(failing), TABLES) == RECOVERY_REFUSED_PADDING);
    EXPECT(IS(tables, marked_tables));
    EXPECT(recovery_check_in(SHEET(valid), SHEET(failing), TABLES) == RECOVERY_CHECKED_NO && IS(tables, prepared));

    EXPECT(recovery_print(SHEET(invalid), lines) == 21 && memcmp(lines, "invalid 2 1\n00 01 00\n", 21) == 0);
    EXPECT(memcmp(lines + 21, marked_lines + 21, sizeof lines - 21) == 0);

    EXPECT(recovery_verify(SHEET(constrained), 9, SHEET(trace), &verdict) == RECOVERY_ACCEPTED);
    EXPECT(verdict_is(RECOVERY_VALID, 3, 0));
    EXPECT(recovery_verify(SHEET(stateless), 9, SHEET(trace), &verdict) == RECOVERY_REFUSED_NO_STATE);
    EXPECT(recovery_check(SHEET(stateless), SHEET(failing)) == RECOVERY_REFUSED_NO_STATE);
}

static void running(void)
{
    struct recovery_record expected;

    mark();
    EXPECT(recovery_load(SHEET(refused), RECORD) == RECOVERY_REFUSED_PADDING);
    memset(&expected, 0, sizeof expected);
    EXPECT(IS(record, expected));
    EXPECT(recovery_next(RECORD, &told) == RECOVERY_REFUSED_BAD_RECORD && IS(told, marked_told));
    EXPECT(recovery_report(RECORD, 0) == RECOVERY_REFUSED_BAD_RECORD && IS(record, expected));

    COPY(record, marked_record);
    EXPECT(recovery_load(SHEET(twice), RECORD) == RECOVERY_ACCEPTED);
    memcpy(expected.sheet, twice, sizeof twice);
    expected.lengths.sheet = sizeof twice;
    EXPECT(IS(record, expected));
    EXPECT(recovery_next(RECORD, &told) == RECOVERY_ACCEPTED && told_is(RECOVERY_ACT, 0));
    EXPECT(recovery_report(RECORD, 2) == RECOVERY_REFUSED_NO_SUCH_REPLY && IS(record, expected));
    EXPECT(recovery_report(RECORD, 1) == RECOVERY_ACCEPTED);
    expected.replies[0] = 1;
    expected.lengths.replies = 1;
    EXPECT(IS(record, expected));
    EXPECT(recovery_report(RECORD, 0) == RECOVERY_REFUSED_NOT_POSSIBLE);
    EXPECT(recovery_report(RECORD, 1) == RECOVERY_ACCEPTED);
    EXPECT(recovery_report(RECORD, 1) == RECOVERY_REFUSED_AT_END);
    EXPECT(recovery_next(RECORD, &told) == RECOVERY_ACCEPTED && told_is(RECOVERY_END, RECOVERY_GOAL_FAILS));

    COPY(record, marked_record);
    EXPECT(recovery_load_in(SHEET(refused), RECORD, TABLES) == RECOVERY_REFUSED_PADDING && IS(tables, marked_tables));
    EXPECT(recovery_next_in(RECORD, &told, TABLES) == RECOVERY_REFUSED_BAD_RECORD && IS(tables, marked_tables));
    EXPECT(recovery_report_in(RECORD, 0, TABLES) == RECOVERY_REFUSED_BAD_RECORD && IS(tables, marked_tables));
    EXPECT(recovery_load_in(SHEET(valid), RECORD, TABLES) == RECOVERY_ACCEPTED && IS(tables, prepared));
    COPY(tables, marked_tables);
    EXPECT(recovery_report_in(RECORD, 0, TABLES) == RECOVERY_ACCEPTED && IS(tables, prepared));
    COPY(tables, marked_tables);
    EXPECT(recovery_next_in(RECORD, &told, TABLES) == RECOVERY_ACCEPTED && IS(tables, prepared));
    EXPECT(told_is(RECOVERY_END, RECOVERY_GOAL_HOLDS));

    /* A record that is bad by its replies: the tables are those of its sheet all the same. */
    record.replies[0] = 9;
    COPY(tables, marked_tables);
    COPY(told, marked_told);
    EXPECT(recovery_next_in(RECORD, &told, TABLES) == RECOVERY_REFUSED_BAD_RECORD);
    EXPECT(IS(tables, prepared) && IS(told, marked_told));
}

static void walking(void)
{
    static const enum recovery_node_kind kinds[] = {RECOVERY_NODE_JUMP,   RECOVERY_NODE_JOIN, RECOVERY_NODE_ATOM,
                                                    RECOVERY_NODE_ATOM,   RECOVERY_NODE_ACT,  RECOVERY_NODE_BRANCH,
                                                    RECOVERY_NODE_ATOM,   RECOVERY_NODE_ACT,  RECOVERY_NODE_JUMP,
                                                    RECOVERY_NODE_ACT,    RECOVERY_NODE_ACT,  RECOVERY_NODE_END};
    uint64_t place;
    size_t k;

    mark();
    EXPECT(recovery_prepare(SHEET(refused), TABLES, set) == RECOVERY_REFUSED_PADDING);
    EXPECT(IS(tables, marked_tables) && IS(set, marked_set));
    EXPECT(recovery_prepare(SHEET(invalid), TABLES, set) == RECOVERY_ACCEPTED);
    EXPECT(set[0] == 3 && set[1] == 0 && set[2] == 0 && set[3] == 0);

    /* Node 0 jumps over the goal, an atom at node 1; then come the action and the end. */
    EXPECT(tables.nodes[3] == RECOVERY_NODE_ATOM && tables.nodes[5] == 1);
    k = tables.nodes[4];
    place = recovery_settle(tables.nodes, tables.sets, set, 0);
    EXPECT(!recovery_place_is_end(place) && recovery_place_node(place) == 2 && recovery_place_action(place) == 0);
    EXPECT(recovery_known(tables.sets, set, k) == 0);
    EXPECT(recovery_place_is_end(recovery_settle(tables.nodes, tables.sets, set, 3)));
    EXPECT(recovery_place_goal(recovery_settle(tables.nodes, tables.sets, set, 3)) == RECOVERY_GOAL_FAILS);
    recovery_step(tables.heads, tables.sets, set, 0, 0);
    EXPECT(set[0] == 2 && recovery_known(tables.sets, set, k) == 1);
    place = recovery_settle(tables.nodes, tables.sets, set, recovery_place_node(place) + 1);
    EXPECT(recovery_place_is_end(place) && recovery_place_goal(place) == RECOVERY_GOAL_HOLDS);
    recovery_step(tables.heads, tables.sets, set, 0, 2);
    EXPECT(set[0] == 0 && recovery_known(tables.sets, set, RECOVERY_SET_WORDS) == 1);

    EXPECT(recovery_prepare(SHEET(branching), TABLES, set) == RECOVERY_ACCEPTED);
    for (size_t i = 0; i < sizeof kinds / sizeof *kinds; i++)
        EXPECT(tables.nodes[3 * i] == kinds[i]);
    place = recovery_settle(tables.nodes, tables.sets, set, 4);
    EXPECT(recovery_place_node(place) == 4 && recovery_place_action(place) == tables.nodes[3 * 4 + 1]);
    recovery_step(tables.heads, tables.sets, set, 0, 1);
    place = recovery_settle(tables.nodes, tables.sets, set, 5);
    EXPECT(!recovery_place_is_end(place) && recovery_place_action(place) == 2);

    /* State 3 isn't one: neither at the start nor after the change, which is action 1. */
    EXPECT(recovery_prepare(SHEET(stateless), TABLES, set) == RECOVERY_REFUSED_NO_STATE);
    EXPECT(recovery_prepare(SHEET(constrained), TABLES, set) == RECOVERY_ACCEPTED && set[0] == 7);
    recovery_step(tables.heads, tables.sets, set, 1, 0);
    EXPECT(set[0] == 2 && set[1] == 0 && set[2] == 0 && set[3] == 0);
}

/* A pass over these states, all below 64, keeps those and gives this number, after so many evaluations. */
static int passes(uint64_t states, size_t action, size_t reply, uint64_t kept, uint8_t possible, uint64_t evaluated)
{
    uint64_t lent[RECOVERY_STATE_WORDS] = {states}, expected[RECOVERY_STATE_WORDS] = {kept};
    uint64_t evaluations[3] = {5, UINT64_MAX, 7};

    return recovery_pass(tables.heads, tables.sets, lent, action, reply, evaluations + 1) == possible &&
           IS(lent, expected) && evaluations[0] == 5 && evaluations[1] == evaluated && evaluations[2] == 7;
}

static void passing(void)
{
    uint64_t evaluations[1] = {0};

    /* Both states are possible; reply 0 is that the fact is true, reply 1 that it isn't, and there is no other. */
    mark();
    EXPECT(recovery_prepare(SHEET(invalid), TABLES, set) == RECOVERY_ACCEPTED && set[0] == 3);
    COPY(prepared, tables);
    EXPECT(passes(3, 0, 0, 2, 1, 2) && passes(3, 0, 1, 1, 1, 2) && passes(2, 0, 0, 2, 1, 1));
    EXPECT(passes(1, 0, 0, 0, 0, 1) && passes(2, 0, 1, 0, 0, 1));
    EXPECT(passes(3, 0, 2, 0, 0, 2) && passes(3, 0, SIZE_MAX, 0, 0, 2) && passes(3, 31, 0, 0, 0, 2));
    EXPECT(passes(0, 0, 0, 0, 0, 0) && passes(0, 0, 2, 0, 0, 0));
    memset(set, 0xFF, sizeof set);
    EXPECT(recovery_pass(tables.heads, tables.sets, set, 0, 0, evaluations) == 1 && evaluations[0] == 256);
    memset(marked_set, 0xAA, sizeof marked_set);
    EXPECT(IS(set, marked_set) && IS(tables, prepared));

    /* The states after a change, which is action 1, are those of a step: the pass itself takes none. */
    EXPECT(recovery_prepare(SHEET(constrained), TABLES, set) == RECOVERY_ACCEPTED && set[0] == 7);
    EXPECT(passes(7, 1, 0, 7, 1, 3) && passes(7, 1, 1, 0, 0, 3));
    recovery_step(tables.heads, tables.sets, set, 1, 0);
    EXPECT(set[0] == 2 && passes(set[0], 1, 0, 2, 1, 1));
}

/* The bytes of a stream. */
static uint8_t bytes[2048];
static size_t length;

static void put(const uint8_t *sheet, size_t sheet_length)
{
    bytes[length++] = (uint8_t)(sheet_length / 256);
    bytes[length++] = (uint8_t)(sheet_length % 256);
    memcpy(bytes + length, sheet, sheet_length);
    length += sheet_length;
}

static int starts_with(const uint64_t *numbers, uint64_t valid, uint64_t invalid, uint64_t stopped, uint64_t refused,
                       uint64_t sum, uint64_t greatest)
{
    return numbers[RECOVERY_FIGURE_VALID] == valid && numbers[RECOVERY_FIGURE_INVALID] == invalid &&
           numbers[RECOVERY_FIGURE_STOPPED] == stopped && numbers[RECOVERY_FIGURE_REFUSED] == refused &&
           numbers[RECOVERY_FIGURE_SUM] == sum && numbers[RECOVERY_FIGURE_GREATEST] == greatest;
}

/* The figures are printed so, and what is behind them is left. */
static int prints(const char *line)
{
    size_t expected = strlen(line);

    COPY(lines, marked_lines);
    return recovery_figures_print(figures, lines) == expected && memcmp(lines, line, expected) == 0 &&
           memcmp(lines + expected, marked_lines + expected, sizeof lines - expected) == 0;
}

static void feeding(void)
{
    static const uint8_t too_long[RECOVERY_SHEET_BYTES + 1] = {0x11};
    static const uint8_t empty_sheets[2 * 65534];
    static const size_t sizes[] = {1, 2, 3, 1000, sizeof bytes};
    static const uint8_t cut[] = {0, 9, 0x11, 0x0C, 0x90, 0x88, 0x1C};
    static struct recovery_stream expected;
    size_t at, piece;

    /* No bytes. */
    mark();
    memset(&stream, 0, sizeof stream);
    EXPECT(recovery_figures_feed(bytes, 0, STREAM, TABLES, memo) == 0 && IS(stream, expected));
    EXPECT(IS(tables, marked_tables) && IS(memo, marked_memo));
    recovery_figures_end(STREAM, figures);
    EXPECT(starts_with(figures, 0, 0, 0, 0, 0, 0) && IS(stream, expected) && prints("0 0 0 0 0 0\n"));

    /* No two numbers of the state are the same, nor any two figures. */
    put(SHEET(refused));
    put(SHEET(too_long));
    put(SHEET(valid));
    put(SHEET(invalid));
    put(SHEET(stopped));
    put(SHEET(stateless));
    put(SHEET(twice));
    put(SHEET(invalid));
    put(bytes, 0);
    put(SHEET(branching));
    put(SHEET(constrained));
    put(SHEET(invalid));
    put(bytes, 0);
    memcpy(bytes + length, cut, sizeof cut);
    length += sizeof cut;
    COPY(prepared, marked_tables);
#define PREPARE(sheet) recovery_prepare(SHEET(sheet), prepared.heads, prepared.nodes, prepared.sets, set)
    EXPECT(PREPARE(valid) + PREPARE(invalid) + PREPARE(stopped) + PREPARE(twice) + PREPARE(invalid) == 0);
    EXPECT(PREPARE(branching) + PREPARE(constrained) + PREPARE(invalid) == 0);
    memcpy(expected.begun, cut, sizeof cut);
    for (size_t i = 0; i < sizeof sizes / sizeof *sizes; i++) {
        mark();
        memset(&stream, 0, sizeof stream);
        for (at = 0; at < length; at += piece) {
            piece = sizes[i] < length - at ? sizes[i] : length - at;
            EXPECT(recovery_figures_feed(bytes + at, piece, STREAM, TABLES, memo) == 0);
        }
        EXPECT(starts_with(stream.numbers, 3, 4, 1, 5, 1000022, 2));
        EXPECT(stream.numbers[RECOVERY_STREAM_LENGTHS] == 13 && stream.numbers[RECOVERY_STREAM_BEGUN] == sizeof cut);
        EXPECT(IS(stream.begun, expected.begun) && IS(tables, prepared) && IS(memo, no_memo));
        COPY(expected, stream);
        recovery_figures_end(STREAM, figures);
        EXPECT(starts_with(figures, 3, 4, 1, 6, 1000022, 2) && IS(stream, expected));
        EXPECT(prints("3 4 1 6 1000022 2\n"));
    }

    /* Where no sheet is accepted, be it the first of the piece or one that is cut. */
    mark();
    memset(&stream, 0, sizeof stream);
    EXPECT(recovery_figures_feed(bytes, 2 + sizeof refused + 2 + sizeof too_long + 3, STREAM, TABLES, memo) == 0);
    EXPECT(IS(tables, marked_tables) && IS(memo, marked_memo));
    EXPECT(starts_with(stream.numbers, 0, 0, 0, 2, 0, 0) && stream.numbers[RECOVERY_STREAM_BEGUN] == 3);

    /* Of a sheet that is too long its length is kept, and the number of its bytes. */
    memset(&stream, 0, sizeof stream);
    memset(&expected, 0, sizeof expected);
    expected.numbers[RECOVERY_FIGURE_REFUSED] = expected.numbers[RECOVERY_STREAM_LENGTHS] = 1;
    expected.numbers[RECOVERY_STREAM_BEGUN] = 12;
    memcpy(expected.begun, bytes + 2 + sizeof refused, 2);
    EXPECT(recovery_figures_feed(bytes, 2 + sizeof refused + 12, STREAM, TABLES, memo) == 0 && IS(stream, expected));

    /* 65,535 lengths: the sheet of the last is read, and nothing behind it. */
    length = 0;
    put(SHEET(valid));
    memset(&stream, 0, sizeof stream);
    EXPECT(recovery_figures_feed(SHEET(empty_sheets), STREAM, TABLES, memo) == 0);
    EXPECT(starts_with(stream.numbers, 0, 0, 0, 65534, 0, 0) && stream.numbers[RECOVERY_STREAM_LENGTHS] == 65534);
    EXPECT(recovery_figures_feed(bytes, length - 1, STREAM, TABLES, memo) == 0);
    put(SHEET(valid));
    EXPECT(recovery_figures_feed(bytes + length / 2 - 1, 1 + length / 2, STREAM, TABLES, memo) == 1);
    COPY(expected, stream);
    EXPECT(recovery_figures_feed(bytes, length, STREAM, TABLES, memo) == 1 && IS(stream, expected));
    recovery_figures_end(STREAM, figures);
    EXPECT(stream.numbers[RECOVERY_STREAM_LENGTHS] == 65535 && prints("1 0 0 65534 2 0\n"));

    /* A state that no stream leaves, and the longest line. */
    mark();
    EXPECT(recovery_figures_feed(bytes, length, STREAM, TABLES, memo) == 1 && IS(tables, marked_tables));
    COPY(expected, marked_stream);
    expected.numbers[RECOVERY_STREAM_BEGUN] = 0;
    memset(expected.begun, 0, sizeof expected.begun);
    EXPECT(IS(stream, expected));
    memset(figures, 0xFF, sizeof figures);
    EXPECT(recovery_figures_print(figures, lines) == 126 && memcmp(lines, "18446744073709551615 1844", 25) == 0);
}

int main(void)
{
    verifying();
    running();
    walking();
    passing();
    feeding();
    return failed;
}
