/*
 * The proved recovery library for C: the reader of sheets, the verifier, the trace checker, the figures of a stream of
 * sheets, and the runner. C99, and C++11. "Document 01" is the requirement; crates/recovery/src/lib.rt has the
 * functions with their contracts, which crates/recovery_c/src/lib.rt exports. A sheet is of edition 1 or 2. In edition 2 it says a constraint, and only what
 * satisfies that is a state (docs/FORMAT.md).
 *
 * Any numbers may stand in the memory that a call is lent, be it a sheet, a trace, a record, the state of a stream or
 * tables. What the caller sees to, since nothing checks it:
 *  - No pointer is null, not even one to no bytes.
 *  - A pointer is to as many elements as the length behind it says, or as the declaration has in brackets, and aligned
 *    as their type asks. A length is below 2^63.
 *  - Memory that a call writes overlaps no other memory of that call. (docs/CLAIMS.md speaks of calls whose pieces of
 *    memory are all apart.)
 *  - Memory that a call is lent was written before, be it with zeros: of fresh memory, in which no numbers stand yet,
 *    nothing is proved.
 *  - The stack suffices. For every sheet tried 419 kB (of 1,000 bytes) were enough for verify and print, 407 for check,
 *    next and report, and 54 for the others, among them the forms in lent tables, `_in` (docs/PERFORMANCE.md, "Stack";
 *    measured with an older kit).
 *
 * A call writes only what its comment names. The library keeps nothing between calls and uses of the C library memcpy
 * and memset alone. Calls may run at the same time where none writes memory that another uses.
 */
#ifndef RECOVERY_H
#define RECOVERY_H

#include <stddef.h>
#include <stdint.h>

#if SIZE_MAX != UINT64_MAX
#error "the recovery library is for machines on which size_t has 64 bits"
#endif

#ifdef __cplusplus
extern "C" {
#endif

/* Sizes. */

#define RECOVERY_SHEET_BYTES 1024 /* the longest sheet, and the bytes of a record's sheet */
#define RECOVERY_REPLY_BYTES 64   /* the replies of a record: a run has at most 64 actions */
#define RECOVERY_TRACE_BYTES 129  /* the longest trace, and the least trace memory: 1 + 2 * 64 */
#define RECOVERY_LINE_BYTES 512   /* the memory for what planverify prints, up to 406 bytes, or planfigures, 126 */
#define RECOVERY_STATE_WORDS 4    /* a set of states: state s has weight 2^(s mod 64) in word s / 64 */
#define RECOVERY_HEAD_CELLS 93    /* tables: the actions, 31 of three numbers each */
#define RECOVERY_NODE_CELLS 12288 /* tables: the nodes of goal and program, 4,096 of three numbers each */
#define RECOVERY_SET_WORDS 40960  /* tables: sets of states, 10,240 of four words each */
#define RECOVERY_MEMO_WORDS 2048  /* what the search of recovery_verify_in and recovery_figures_feed remembers */
#define RECOVERY_FIGURE_NUMBERS 6 /* the figures of a stream: enum recovery_figure */
#define RECOVERY_STREAM_NUMBERS 8 /* the state of a stream: its figures so far, and enum recovery_stream_number */
#define RECOVERY_BEGUN_BYTES 1026 /* the state of a stream: the bytes of a length and of the longest sheet */

/*
 * What a call gives: 0, or why it is refused, by document 01's numbers. Of several reasons the first is given: 1; then
 * 2 to 11 as the fields are read (8 before the tag is read, 7 before the fact number, 11 and 10 when the tag is known);
 * then 12; 16; 13; and 14 or 15, by action number.
 */
enum recovery_answer {
    RECOVERY_ACCEPTED = 0,

    /* From the sheet: given by read, prepare, verify, check and load. */
    RECOVERY_REFUSED_LENGTH = 1,        /* longer than 1,024 bytes */
    RECOVERY_REFUSED_CUT = 2,           /* ends inside a field */
    RECOVERY_REFUSED_EDITION = 3,       /* the edition isn't 1 or 2 */
    RECOVERY_REFUSED_FACTS = 4,         /* the number of facts isn't 1 to 8 */
    RECOVERY_REFUSED_REPLIES = 5,       /* the reply count of a probe isn't 1 to 8 */
    RECOVERY_REFUSED_FACT_NUMBER = 6,   /* a fact number is that of no fact */
    RECOVERY_REFUSED_NEW_FACT = 7,      /* a new fact outside a theory */
    RECOVERY_REFUSED_DEPTH = 8,         /* a formula deeper than 16 */
    RECOVERY_REFUSED_ACTION_NUMBER = 9, /* an action number is that of no action */
    RECOVERY_REFUSED_LOOP = 10,         /* a loop */
    RECOVERY_REFUSED_NODES = 11,        /* more than 64 action nodes or 63 branch nodes */
    RECOVERY_REFUSED_PADDING = 12,      /* a set padding bit or a spare byte */
    RECOVERY_REFUSED_NO_START = 13,     /* no start state */
    RECOVERY_REFUSED_NO_NEXT = 14,      /* a state without next state */
    RECOVERY_REFUSED_NO_REPLY = 15,     /* a state without reply */
    RECOVERY_REFUSED_NO_STATE = 16,     /* no state satisfies the constraint */

    /* From the trace memory: given by verify, before anything else. */
    RECOVERY_REFUSED_SHORT_MEMORY = 30, /* under 129 bytes */

    /*
     * From the record: given by report, tested in this order; next gives only 31, that is of a record whose sheet would
     * be refused, with a byte past a length that isn't 0, with a reply count above 64, or with replies that aren't
     * those of a run following the routine.
     */
    RECOVERY_REFUSED_BAD_RECORD = 31,
    RECOVERY_REFUSED_AT_END = 32,        /* the routine is at its end */
    RECOVERY_REFUSED_NO_SUCH_REPLY = 33, /* the action has no such reply; for a change: it isn't 0 */
    RECOVERY_REFUSED_NOT_POSSIBLE = 34   /* the reply is true in no state still possible */
};

/* What check gives, if the sheet isn't refused. */
enum recovery_checked {
    RECOVERY_CHECKED_YES = 0, /* the trace is one of a full run following the routine that fails the goal */
    RECOVERY_CHECKED_NO = 255 /* it isn't */
};

/* The verdict on a sheet. */
enum recovery_verdict_kind {
    RECOVERY_VALID = 0,
    RECOVERY_INVALID = 1,
    RECOVERY_STOPPED = 2
};

struct recovery_verdict {
    uint64_t kind;   /* enum recovery_verdict_kind */
    uint64_t count;  /* valid, invalid: the number of histories; stopped: the budget */
    uint64_t length; /* invalid: the actions of the failing run, whose trace has 1 + 2 * length bytes; else 0 */
};

/* What "Next" tells. */
enum recovery_told_kind {
    RECOVERY_ACT = 0,
    RECOVERY_END = 1
};

enum recovery_goal {
    RECOVERY_GOAL_FAILS = 0,
    RECOVERY_GOAL_HOLDS = 1
};

struct recovery_told {
    size_t kind;  /* enum recovery_told_kind */
    size_t value; /* act: the number of the action to do; end: enum recovery_goal */
};

/* A record: a sheet, the replies accepted so far, and the lengths of both. Bytes past the lengths are 0. */
struct recovery_lengths {
    size_t sheet;
    size_t replies;
};

struct recovery_record {
    uint8_t sheet[RECOVERY_SHEET_BYTES];
    uint8_t replies[RECOVERY_REPLY_BYTES];
    struct recovery_lengths lengths;
};

/* The tables of a sheet, 352 kB. What a sheet doesn't need of them keeps the numbers that stood there. */
struct recovery_tables {
    uint16_t heads[RECOVERY_HEAD_CELLS];
    uint16_t nodes[RECOVERY_NODE_CELLS];
    uint64_t sets[RECOVERY_SET_WORDS];
};

/*
 * The sheet itself.
 */

/* RECOVERY_ACCEPTED, or why the sheet is refused. Writes nothing. */
uint8_t recovery_read(const uint8_t *bytes, size_t length);

/*
 * Verifies a sheet, counting no more histories than the budget. RECOVERY_ACCEPTED: the verdict is written; if it is
 * RECOVERY_INVALID the trace memory begins with the least failing trace, 1 + 2 * verdict->length bytes, and every other
 * byte of it is left as it was. Else the refusal of the trace memory or of the sheet: all memory is left as it was.
 */
uint8_t recovery_verify(const uint8_t *bytes, size_t length, uint32_t budget, uint8_t *trace, size_t trace_length,
                        struct recovery_verdict *verdict);

/*
 * The same in lent tables and a lent memo, whatever they hold. RECOVERY_ACCEPTED: the tables are then those of the
 * sheet, and the memo is zeros, whatever the verdict. A refusal leaves them as they were too.
 */
uint8_t recovery_verify_in(const uint8_t *bytes, size_t length, uint32_t budget, uint8_t *trace, size_t trace_length,
                           struct recovery_verdict *verdict, uint16_t heads[RECOVERY_HEAD_CELLS],
                           uint16_t nodes[RECOVERY_NODE_CELLS], uint64_t sets[RECOVERY_SET_WORDS],
                           uint64_t memo[RECOVERY_MEMO_WORDS]);

/* Checks a trace of any length: enum recovery_checked, or why the sheet is refused. Writes nothing. */
uint8_t recovery_check(const uint8_t *bytes, size_t length, const uint8_t *trace, size_t trace_length);

/* The same in lent tables, whatever they hold: then they are those of the sheet. A refusal leaves them as they were. */
uint8_t recovery_check_in(const uint8_t *bytes, size_t length, const uint8_t *trace, size_t trace_length,
                          uint16_t heads[RECOVERY_HEAD_CELLS], uint16_t nodes[RECOVERY_NODE_CELLS],
                          uint64_t sets[RECOVERY_SET_WORDS]);

/* Writes what planverify prints for the sheet from out[0] on and gives its length. The rest is left as it was. */
size_t recovery_print(const uint8_t *bytes, size_t length, uint8_t out[RECOVERY_LINE_BYTES]);

/* The action and the reply in a trace, which has a start state, and then for each action such a byte and a state. */
static inline uint8_t recovery_trace_action(uint8_t byte)
{
    return (uint8_t)(byte / 8);
}

static inline uint8_t recovery_trace_reply(uint8_t byte)
{
    return (uint8_t)(byte % 8);
}

/*
 * The figures of a stream of sheets, each behind its length in two bytes, the more significant one first. Each sheet is
 * verified with a budget of 1,000,000; one of no byte is refused, and so is one of more than 1,024 bytes, which are
 * counted and not kept. A state is fed the stream in pieces, which may be cut anywhere, inside a length too, and may be empty:
 * the figures are the same. Zeros in both memories are the state of no bytes. Bytes behind 65,535 lengths with their
 * sheets aren't looked at. On numbers that no stream leaves the calls end too.
 */

/* The figures, in the order in which they are printed. */
enum recovery_figure {
    RECOVERY_FIGURE_VALID = 0,   /* how many sheets are valid, */
    RECOVERY_FIGURE_INVALID = 1, /* invalid, */
    RECOVERY_FIGURE_STOPPED = 2, /* stopped, */
    RECOVERY_FIGURE_REFUSED = 3, /* and refused */
    RECOVERY_FIGURE_SUM = 4,     /* the sum of the counts; a stopped one's is the budget, a refused one adds 0 */
    RECOVERY_FIGURE_GREATEST = 5 /* the greatest length in the verdicts on the invalid ones, 0 if there is none */
};

/* The numbers of a state: the figures of the sheets that are read whole, and behind them */
enum recovery_stream_number {
    RECOVERY_STREAM_LENGTHS = 6, /* how many lengths are read with their sheets */
    RECOVERY_STREAM_BEGUN = 7    /* how many bytes of the next length and its sheet are there */
};

struct recovery_stream {
    uint64_t numbers[RECOVERY_STREAM_NUMBERS];
    uint8_t begun[RECOVERY_BEGUN_BYTES]; /* these bytes, of a sheet that is too long those of its length alone, and zeros */
};

/*
 * Feeds a piece: both memories of the state are written, which is then that of all bytes so far. 1 if 65,535 lengths
 * are read with their sheets, so that nothing more is looked at, else 0. The tables and the memo are lent, whatever
 * they hold: each sheet that is accepted leaves its tables there, one after the other, and zeros in the memo; where
 * none is, they are left as they were.
 */
uint8_t recovery_figures_feed(const uint8_t *piece, size_t piece_length, uint64_t numbers[RECOVERY_STREAM_NUMBERS],
                              uint8_t begun[RECOVERY_BEGUN_BYTES], uint16_t heads[RECOVERY_HEAD_CELLS],
                              uint16_t nodes[RECOVERY_NODE_CELLS], uint64_t sets[RECOVERY_SET_WORDS],
                              uint64_t memo[RECOVERY_MEMO_WORDS]);

/*
 * Writes the figures of a stream that ends in this state: a length or sheet that is cut there counts as one refused.
 * The state is left as it was, and may be fed further.
 */
void recovery_figures_end(const uint64_t numbers[RECOVERY_STREAM_NUMBERS], const uint8_t begun[RECOVERY_BEGUN_BYTES],
                          uint64_t figures[RECOVERY_FIGURE_NUMBERS]);

/*
 * Writes the line that planfigures prints for figures, whatever they are, from out[0] on and gives its length. The rest
 * is left as it was.
 */
size_t recovery_figures_print(const uint64_t figures[RECOVERY_FIGURE_NUMBERS], uint8_t out[RECOVERY_LINE_BYTES]);

/*
 * The runner. Nobody else writes the record between the calls.
 */

/*
 * RECOVERY_ACCEPTED: the record is that of the sheet with no replies, with zeros past the sheet's length. Else why the
 * sheet is refused: all of the record is zeros. Every byte of it is written either way.
 */
uint8_t recovery_load(const uint8_t *bytes, size_t length, uint8_t sheet[RECOVERY_SHEET_BYTES],
                      uint8_t replies[RECOVERY_REPLY_BYTES], struct recovery_lengths *lengths);

/* The same, and the tables are those of the sheet; a refused sheet leaves the tables as they were. */
uint8_t recovery_load_in(const uint8_t *bytes, size_t length, uint8_t sheet[RECOVERY_SHEET_BYTES],
                         uint8_t replies[RECOVERY_REPLY_BYTES], struct recovery_lengths *lengths,
                         uint16_t heads[RECOVERY_HEAD_CELLS], uint16_t nodes[RECOVERY_NODE_CELLS],
                         uint64_t sets[RECOVERY_SET_WORDS]);

/* "Next". RECOVERY_ACCEPTED: what to do is written. RECOVERY_REFUSED_BAD_RECORD: `told` is left as it was. */
uint8_t recovery_next(const uint8_t sheet[RECOVERY_SHEET_BYTES], const uint8_t replies[RECOVERY_REPLY_BYTES],
                      const struct recovery_lengths *lengths, struct recovery_told *told);

/*
 * The same in lent tables, whatever they hold. They are then those of the record's sheet; they are left as they were
 * where that would be refused or has a byte past its length that isn't 0. (A record that is bad by its replies has its
 * tables written.)
 */
uint8_t recovery_next_in(const uint8_t sheet[RECOVERY_SHEET_BYTES], const uint8_t replies[RECOVERY_REPLY_BYTES],
                         const struct recovery_lengths *lengths, struct recovery_told *told,
                         uint16_t heads[RECOVERY_HEAD_CELLS], uint16_t nodes[RECOVERY_NODE_CELLS],
                         uint64_t sets[RECOVERY_SET_WORDS]);

/*
 * "Report". RECOVERY_ACCEPTED: the reply is added to the replies, and their number is one more. Else 31 to 34: the
 * record is left as it was.
 */
uint8_t recovery_report(const uint8_t sheet[RECOVERY_SHEET_BYTES], uint8_t replies[RECOVERY_REPLY_BYTES],
                        struct recovery_lengths *lengths, uint8_t reply);

/* The same in lent tables, of which is true what recovery_next_in says of them, whatever the answer. */
uint8_t recovery_report_in(const uint8_t sheet[RECOVERY_SHEET_BYTES], uint8_t replies[RECOVERY_REPLY_BYTES],
                           struct recovery_lengths *lengths, uint8_t reply, uint16_t heads[RECOVERY_HEAD_CELLS],
                           uint16_t nodes[RECOVERY_NODE_CELLS], uint64_t sets[RECOVERY_SET_WORDS]);

/*
 * The tables, for callers who walk through a routine themselves: prepare; from node 0 on settle at an action, step by
 * its reply, and settle again from the node behind it, until the end. On the tables of an accepted sheet this is what
 * the sheet says; on other numbers the calls end too.
 */

/*
 * RECOVERY_ACCEPTED: the tables are those of the sheet, and `start` is the set of its start states. Else why the sheet
 * is refused: all memory is left as it was.
 */
uint8_t recovery_prepare(const uint8_t *bytes, size_t length, uint16_t heads[RECOVERY_HEAD_CELLS],
                         uint16_t nodes[RECOVERY_NODE_CELLS], uint64_t sets[RECOVERY_SET_WORDS],
                         uint64_t start[RECOVERY_STATE_WORDS]);

/* Replaces the possible states by those after one of the sheet's actions and its reply: none if it has no such reply. */
void recovery_step(const uint16_t heads[RECOVERY_HEAD_CELLS], const uint64_t sets[RECOVERY_SET_WORDS],
                   uint64_t set[RECOVERY_STATE_WORDS], size_t action, size_t reply);

/*
 * One pass over the possible states when a reply to one of the sheet's actions comes in: replaces the set by those of
 * its states in which the reply is true, and writes how often it evaluated the reply, which is once for each state of
 * the set before. 1 if a state is kept, so that the reply is possible, else 0. A reply that the action hasn't is true
 * in no state. The set is that of the states possible after the action's effect: for a probe those possible before it,
 * for a change those that recovery_step gives for reply 0.
 */
uint8_t recovery_pass(const uint16_t heads[RECOVERY_HEAD_CELLS], const uint64_t sets[RECOVERY_SET_WORDS],
                      uint64_t set[RECOVERY_STATE_WORDS], size_t action, size_t reply, uint64_t evaluations[1]);

/* Where the program settles from node `at` on, the states of the set being possible: see below. Writes nothing. */
uint64_t recovery_settle(const uint16_t nodes[RECOVERY_NODE_CELLS], const uint64_t sets[RECOVERY_SET_WORDS],
                         const uint64_t set[RECOVERY_STATE_WORDS], size_t at);

/*
 * 1 if every state of the set is in set k of the tables, which is empty past the last, else 0: whether a formula is
 * known, where k is that of an atom's node (RECOVERY_NODE_ATOM). Writes nothing.
 */
uint8_t recovery_known(const uint64_t sets[RECOVERY_SET_WORDS], const uint64_t set[RECOVERY_STATE_WORDS], size_t k);

/*
 * The place that recovery_settle gives: whether it is the end, and there enum recovery_goal; else its action node and
 * the action.
 */
static inline int recovery_place_is_end(uint64_t place)
{
    return place < 2;
}

static inline enum recovery_goal recovery_place_goal(uint64_t place)
{
    return place == 1 ? RECOVERY_GOAL_HOLDS : RECOVERY_GOAL_FAILS;
}

static inline size_t recovery_place_node(uint64_t place)
{
    return (size_t)((place - 2) / 65536);
}

static inline size_t recovery_place_action(uint64_t place)
{
    return (size_t)((place - 2) % 65536);
}

/* Node i: nodes[3 * i], its kind, and the two numbers behind it. The goal stands from node 1 on. */
enum recovery_node_kind {
    RECOVERY_NODE_ACT = 0,    /* the action, and the number of the action node */
    RECOVERY_NODE_BRANCH = 1, /* how many nodes to skip where the condition behind it holds, and where it doesn't */
    RECOVERY_NODE_JUMP = 2,   /* how many nodes to skip */
    RECOVERY_NODE_JOIN = 3,   /* how many nodes the parts behind it have; 1 for "and", 0 for "or" */
    RECOVERY_NODE_ATOM = 4,   /* k, the number of the formula's set; 1 for "known", 0 for "not known" */
    RECOVERY_NODE_END = 5     /* the number of all action nodes */
};

#ifdef __cplusplus
}
#endif

#endif
