//! The proved library's functions, wrapped for Rust.
//!
//! Nothing checks these declarations against the Rattle source
//! (`crates/recovery_c/src/lib.rt`, which exports the functions of `crates/recovery`), so
//! they are few and plain.

pub mod plain;
pub mod straight;

/// The numbers of the heads of a sheet's actions, three each.
pub const HEAD_CELLS: usize = 93;
/// The numbers of the nodes of its goal and its program, three each.
pub const NODE_CELLS: usize = 12_288;
/// The words of its sets of states, four each.
pub const SET_WORDS: usize = 40_960;

/// The words in which the search remembers.
pub const MEMO_WORDS: usize = 2048;

/// The most bytes that the printed lines take.
pub const LINES: usize = 512;

/// The bytes of a record's sheet, and of its replies.
pub const SHEET: usize = 1024;
pub const REPLIES: usize = 64;

/// The numbers of a stream's state: the six figures of its whole sheets, how many these
/// are, and how many bytes are begun behind them.
pub const STREAM_NUMBERS: usize = 8;
/// The bytes that are kept of what is begun: a length and a sheet.
pub const BEGUN: usize = 2 + SHEET;
pub const FIGURES: usize = 6;

/// A set of states as words: state s has weight 2^(s mod 64) in word s div 64.
pub type Words = [u64; 4];

extern "C" {
    fn recovery_read(bytes: *const u8, length: usize) -> u8;

    fn recovery_prepare(
        bytes: *const u8,
        length: usize,
        heads: &mut [u16; HEAD_CELLS],
        nodes: &mut [u16; NODE_CELLS],
        sets: &mut [u64; SET_WORDS],
        start: &mut Words,
    ) -> u8;

    fn recovery_step(
        heads: &[u16; HEAD_CELLS],
        sets: &[u64; SET_WORDS],
        set: &mut Words,
        action: usize,
        reply: usize,
    );

    fn recovery_pass(
        heads: &[u16; HEAD_CELLS],
        sets: &[u64; SET_WORDS],
        set: &mut Words,
        action: usize,
        reply: usize,
        evaluations: &mut [u64; 1],
    ) -> u8;

    fn recovery_settle(
        nodes: &[u16; NODE_CELLS],
        sets: &[u64; SET_WORDS],
        set: &Words,
        at: usize,
    ) -> u64;

    fn recovery_known(sets: &[u64; SET_WORDS], set: &Words, k: usize) -> u8;

    fn recovery_verify(
        bytes: *const u8,
        length: usize,
        budget: u32,
        trace: *mut u8,
        trace_length: usize,
        verdict: &mut [u64; 3],
    ) -> u8;

    fn recovery_verify_in(
        bytes: *const u8,
        length: usize,
        budget: u32,
        trace: *mut u8,
        trace_length: usize,
        verdict: &mut [u64; 3],
        heads: &mut [u16; HEAD_CELLS],
        nodes: &mut [u16; NODE_CELLS],
        sets: &mut [u64; SET_WORDS],
        memo: &mut [u64; MEMO_WORDS],
    ) -> u8;

    fn recovery_check(bytes: *const u8, length: usize, trace: *const u8, trace_length: usize)
        -> u8;

    fn recovery_check_in(
        bytes: *const u8,
        length: usize,
        trace: *const u8,
        trace_length: usize,
        heads: &mut [u16; HEAD_CELLS],
        nodes: &mut [u16; NODE_CELLS],
        sets: &mut [u64; SET_WORDS],
    ) -> u8;

    fn recovery_print(bytes: *const u8, length: usize, out: &mut [u8; LINES]) -> usize;

    fn recovery_figures_feed(
        piece: *const u8,
        piece_length: usize,
        numbers: &mut [u64; STREAM_NUMBERS],
        begun: &mut [u8; BEGUN],
        heads: &mut [u16; HEAD_CELLS],
        nodes: &mut [u16; NODE_CELLS],
        sets: &mut [u64; SET_WORDS],
        memo: &mut [u64; MEMO_WORDS],
    ) -> u8;

    fn recovery_figures_end(
        numbers: &[u64; STREAM_NUMBERS],
        begun: &[u8; BEGUN],
        figures: &mut [u64; FIGURES],
    );

    fn recovery_figures_print(figures: &[u64; FIGURES], out: &mut [u8; LINES]) -> usize;

    fn recovery_load(
        bytes: *const u8,
        length: usize,
        sheet: &mut [u8; SHEET],
        replies: &mut [u8; REPLIES],
        lengths: &mut [usize; 2],
    ) -> u8;

    fn recovery_load_in(
        bytes: *const u8,
        length: usize,
        sheet: &mut [u8; SHEET],
        replies: &mut [u8; REPLIES],
        lengths: &mut [usize; 2],
        heads: &mut [u16; HEAD_CELLS],
        nodes: &mut [u16; NODE_CELLS],
        sets: &mut [u64; SET_WORDS],
    ) -> u8;

    fn recovery_next(
        sheet: &[u8; SHEET],
        replies: &[u8; REPLIES],
        lengths: &[usize; 2],
        told: &mut [usize; 2],
    ) -> u8;

    fn recovery_next_in(
        sheet: &[u8; SHEET],
        replies: &[u8; REPLIES],
        lengths: &[usize; 2],
        told: &mut [usize; 2],
        heads: &mut [u16; HEAD_CELLS],
        nodes: &mut [u16; NODE_CELLS],
        sets: &mut [u64; SET_WORDS],
    ) -> u8;

    fn recovery_report(
        sheet: &[u8; SHEET],
        replies: &mut [u8; REPLIES],
        lengths: &mut [usize; 2],
        reply: u8,
    ) -> u8;

    fn recovery_report_in(
        sheet: &[u8; SHEET],
        replies: &mut [u8; REPLIES],
        lengths: &mut [usize; 2],
        reply: u8,
        heads: &mut [u16; HEAD_CELLS],
        nodes: &mut [u16; NODE_CELLS],
        sets: &mut [u64; SET_WORDS],
    ) -> u8;
}

#[cfg(feature = "before")]
extern "C" {
    fn before_read(bytes: *const u8, length: usize) -> u8;

    fn before_verify(
        bytes: *const u8,
        length: usize,
        budget: u32,
        trace: *mut u8,
        trace_length: usize,
        verdict: &mut [u64; 3],
    ) -> u8;

    fn before_load(
        bytes: *const u8,
        length: usize,
        sheet: &mut [u8; SHEET],
        replies: &mut [u8; REPLIES],
        lengths: &mut [usize; 2],
    ) -> u8;

    fn before_next(
        sheet: &[u8; SHEET],
        replies: &[u8; REPLIES],
        lengths: &[usize; 2],
        told: &mut [usize; 2],
    ) -> u8;

    fn before_report(
        sheet: &[u8; SHEET],
        replies: &mut [u8; REPLIES],
        lengths: &mut [usize; 2],
        reply: u8,
    ) -> u8;
}

// Its tables are as large as those of today.
#[cfg(lent_before)]
extern "C" {
    fn before_load_in(
        bytes: *const u8,
        length: usize,
        sheet: &mut [u8; SHEET],
        replies: &mut [u8; REPLIES],
        lengths: &mut [usize; 2],
        heads: &mut [u16; HEAD_CELLS],
        nodes: &mut [u16; NODE_CELLS],
        sets: &mut [u64; SET_WORDS],
    ) -> u8;

    fn before_next_in(
        sheet: &[u8; SHEET],
        replies: &[u8; REPLIES],
        lengths: &[usize; 2],
        told: &mut [usize; 2],
        heads: &mut [u16; HEAD_CELLS],
        nodes: &mut [u16; NODE_CELLS],
        sets: &mut [u64; SET_WORDS],
    ) -> u8;

    fn before_report_in(
        sheet: &[u8; SHEET],
        replies: &mut [u8; REPLIES],
        lengths: &mut [usize; 2],
        reply: u8,
        heads: &mut [u16; HEAD_CELLS],
        nodes: &mut [u16; NODE_CELLS],
        sets: &mut [u64; SET_WORDS],
    ) -> u8;
}

/// `recovery_read`, or that of an earlier commit.
type LinkedRead = unsafe extern "C" fn(*const u8, usize) -> u8;

/// `recovery_verify`, or that of an earlier commit.
type LinkedVerify =
    unsafe extern "C" fn(*const u8, usize, u32, *mut u8, usize, &mut [u64; 3]) -> u8;

/// `recovery_load`, or that of an earlier commit.
type LinkedLoad = unsafe extern "C" fn(
    *const u8,
    usize,
    &mut [u8; SHEET],
    &mut [u8; REPLIES],
    &mut [usize; 2],
) -> u8;

/// `recovery_load_in`, or that of an earlier commit.
type LinkedLoadIn = unsafe extern "C" fn(
    *const u8,
    usize,
    &mut [u8; SHEET],
    &mut [u8; REPLIES],
    &mut [usize; 2],
    &mut [u16; HEAD_CELLS],
    &mut [u16; NODE_CELLS],
    &mut [u64; SET_WORDS],
) -> u8;

/// `recovery_next`, or that of an earlier commit.
type LinkedNext =
    unsafe extern "C" fn(&[u8; SHEET], &[u8; REPLIES], &[usize; 2], &mut [usize; 2]) -> u8;

/// `recovery_next_in`, or that of an earlier commit.
type LinkedNextIn = unsafe extern "C" fn(
    &[u8; SHEET],
    &[u8; REPLIES],
    &[usize; 2],
    &mut [usize; 2],
    &mut [u16; HEAD_CELLS],
    &mut [u16; NODE_CELLS],
    &mut [u64; SET_WORDS],
) -> u8;

/// `recovery_report`, or that of an earlier commit.
type LinkedReport =
    unsafe extern "C" fn(&[u8; SHEET], &mut [u8; REPLIES], &mut [usize; 2], u8) -> u8;

/// `recovery_report_in`, or that of an earlier commit.
type LinkedReportIn = unsafe extern "C" fn(
    &[u8; SHEET],
    &mut [u8; REPLIES],
    &mut [usize; 2],
    u8,
    &mut [u16; HEAD_CELLS],
    &mut [u16; NODE_CELLS],
    &mut [u64; SET_WORDS],
) -> u8;

/// The memory that is lent for a sheet's tables.
#[derive(Clone, Debug, PartialEq, Eq)]
pub struct Tables {
    pub heads: Box<[u16; HEAD_CELLS]>,
    pub nodes: Box<[u16; NODE_CELLS]>,
    pub sets: Box<[u64; SET_WORDS]>,
}

/// An action node with its action, or the end and whether the goal holds there.
#[derive(Clone, Copy, Debug, PartialEq, Eq)]
pub enum Place {
    Act { node: usize, action: usize },
    End { goal: bool },
}

/// The proved functions tell a place in one number. (What is timed hands on this one: a
/// struct goes through memory, which costs some 4 ns, as long as a short settling.)
impl Place {
    #[inline]
    pub fn number(self) -> u64 {
        match self {
            Place::Act { node, action } => 2 + 65536 * node as u64 + action as u64,
            Place::End { goal } => goal.into(),
        }
    }

    #[inline]
    pub fn of_number(number: u64) -> Place {
        match number.checked_sub(2) {
            None => Place::End { goal: number == 1 },
            Some(place) => Place::Act {
                node: (place / 65536) as usize,
                action: (place % 65536) as usize,
            },
        }
    }
}

/// The verdict on a sheet that is not refused.
#[derive(Clone, Copy, Debug, PartialEq, Eq)]
pub enum Verdict {
    Valid { count: u32 },
    Invalid { count: u32, length: usize },
    Stopped { budget: u32 },
}

/// The memory that is lent for a record: a sheet, the replies accepted so far,
/// and the lengths of both.
#[derive(Clone, Debug, PartialEq, Eq)]
pub struct Record {
    pub sheet: [u8; SHEET],
    pub replies: [u8; REPLIES],
    pub lengths: [usize; 2],
}

/// The memory that is lent for the state of a stream that is fed in pieces.
#[derive(Clone, Debug, PartialEq, Eq)]
pub struct Stream {
    pub numbers: [u64; STREAM_NUMBERS],
    pub begun: [u8; BEGUN],
}

impl Stream {
    /// Of no bytes.
    pub fn empty() -> Stream {
        Stream {
            numbers: [0; STREAM_NUMBERS],
            begun: [0; BEGUN],
        }
    }
}

impl Tables {
    /// Memory with these numbers, which are called for one after the other.
    pub fn filled(mut number: impl FnMut() -> u64) -> Tables {
        Tables {
            heads: boxed(|| number() as u16),
            nodes: boxed(|| number() as u16),
            sets: boxed(number),
        }
    }

    pub fn zeroed() -> Tables {
        Tables::filled(|| 0)
    }
}

/// An array that never stands on the stack, since it may be larger than that.
fn boxed<T: std::fmt::Debug, const N: usize>(mut element: impl FnMut() -> T) -> Box<[T; N]> {
    let elements: Vec<T> = (0..N).map(|_| element()).collect();
    elements.into_boxed_slice().try_into().unwrap()
}

/// 0 for an accepted sheet, else the number of its refusal.
pub fn read(bytes: &[u8]) -> u8 {
    answer_by(recovery_read, bytes)
}

/// The same by the library of an earlier commit.
#[cfg(feature = "before")]
pub fn read_before(bytes: &[u8]) -> u8 {
    answer_by(before_read, bytes)
}

fn answer_by(read: LinkedRead, bytes: &[u8]) -> u8 {
    // SAFETY: the function has no precondition and reads only these bytes.
    unsafe { read(bytes.as_ptr(), bytes.len()) }
}

/// `read`'s answer, and writes an accepted sheet's tables and start set.
pub fn prepare(bytes: &[u8], tables: &mut Tables, start: &mut Words) -> u8 {
    // SAFETY: the function has no precondition and touches only this memory.
    unsafe {
        recovery_prepare(
            bytes.as_ptr(),
            bytes.len(),
            &mut tables.heads,
            &mut tables.nodes,
            &mut tables.sets,
            start,
        )
    }
}

/// Replaces the possible states by those possible after the action and its reply.
#[inline]
pub fn step(tables: &Tables, set: &mut Words, action: usize, reply: usize) {
    // SAFETY: as above.
    unsafe { recovery_step(&tables.heads, &tables.sets, set, action, reply) }
}

/// Keeps the states of the set in which the action's reply is true, writes how often
/// the reply was evaluated, and tells whether a state is kept.
#[inline]
pub fn pass(
    tables: &Tables,
    set: &mut Words,
    action: usize,
    reply: usize,
    evaluations: &mut [u64; 1],
) -> bool {
    let (heads, sets) = (&tables.heads, &tables.sets);
    // SAFETY: as above.
    yes_or_no(unsafe { recovery_pass(heads, sets, set, action, reply, evaluations) })
}

/// Where the program settles from a node on, the states of the set being possible.
#[inline]
pub fn settle(tables: &Tables, set: &Words, at: usize) -> Place {
    // SAFETY: as above.
    let number = unsafe { recovery_settle(&tables.nodes, &tables.sets, set, at) };
    Place::of_number(number)
}

/// Whether every state of the set is in set k of the tables.
pub fn known(tables: &Tables, set: &Words, k: usize) -> bool {
    // SAFETY: as above.
    yes_or_no(unsafe { recovery_known(&tables.sets, set, k) })
}

fn yes_or_no(number: u8) -> bool {
    match number {
        0 => false,
        1 => true,
        _ => panic!("neither yes nor no: {number}"),
    }
}

/// The verdict, or the number of the refusal. The memory of an invalid sheet
/// begins with the least failing trace.
pub fn verify(bytes: &[u8], budget: u32, trace: &mut [u8]) -> Result<Verdict, u8> {
    verdict_by(recovery_verify, bytes, budget, trace)
}

/// The same by the library of an earlier commit.
#[cfg(feature = "before")]
pub fn verify_before(bytes: &[u8], budget: u32, trace: &mut [u8]) -> Result<Verdict, u8> {
    verdict_by(before_verify, bytes, budget, trace)
}

/// The same in numbers: 0 and the verdict's three words, or the refusal's number.
pub fn verify_words(bytes: &[u8], budget: u32, trace: &mut [u8], verdict: &mut [u64; 3]) -> u8 {
    words_by(recovery_verify, bytes, budget, trace, verdict)
}

/// `verify` in lent tables and a lent memo, whatever they hold.
pub fn verify_in(
    bytes: &[u8],
    budget: u32,
    trace: &mut [u8],
    tables: &mut Tables,
    memo: &mut [u64; MEMO_WORDS],
) -> Result<Verdict, u8> {
    let mut verdict = [0; 3];
    match verify_words_in(bytes, budget, trace, &mut verdict, tables, memo) {
        0 => Ok(verdict_of(verdict)),
        number => Err(number),
    }
}

/// The same in numbers.
pub fn verify_words_in(
    bytes: &[u8],
    budget: u32,
    trace: &mut [u8],
    verdict: &mut [u64; 3],
    tables: &mut Tables,
    memo: &mut [u64; MEMO_WORDS],
) -> u8 {
    // SAFETY: as above.
    unsafe {
        recovery_verify_in(
            bytes.as_ptr(),
            bytes.len(),
            budget,
            trace.as_mut_ptr(),
            trace.len(),
            verdict,
            &mut tables.heads,
            &mut tables.nodes,
            &mut tables.sets,
            memo,
        )
    }
}

fn verdict_by(
    verify: LinkedVerify,
    bytes: &[u8],
    budget: u32,
    trace: &mut [u8],
) -> Result<Verdict, u8> {
    let mut verdict = [0; 3];
    match words_by(verify, bytes, budget, trace, &mut verdict) {
        0 => Ok(verdict_of(verdict)),
        number => Err(number),
    }
}

fn words_by(
    verify: LinkedVerify,
    bytes: &[u8],
    budget: u32,
    trace: &mut [u8],
    verdict: &mut [u64; 3],
) -> u8 {
    let (memory, length) = (trace.as_mut_ptr(), trace.len());
    // SAFETY: as above.
    unsafe { verify(bytes.as_ptr(), bytes.len(), budget, memory, length, verdict) }
}

fn verdict_of(words: [u64; 3]) -> Verdict {
    let small = |word: u64| u32::try_from(word).expect("a word of 32 bits");
    match words {
        [0, count, 0] => Verdict::Valid {
            count: small(count),
        },
        [1, count, length] => Verdict::Invalid {
            count: small(count),
            length: small(length) as usize,
        },
        [2, budget, 0] => Verdict::Stopped {
            budget: small(budget),
        },
        _ => panic!("no verdict: {words:?}"),
    }
}

/// Whether the trace is that of a full run that fails the goal, or the number of
/// the sheet's refusal.
pub fn check(bytes: &[u8], trace: &[u8]) -> Result<bool, u8> {
    // SAFETY: as above.
    checked(unsafe { recovery_check(bytes.as_ptr(), bytes.len(), trace.as_ptr(), trace.len()) })
}

/// The same in lent tables, whatever they hold.
pub fn check_in(bytes: &[u8], trace: &[u8], tables: &mut Tables) -> Result<bool, u8> {
    // SAFETY: as above.
    checked(unsafe {
        recovery_check_in(
            bytes.as_ptr(),
            bytes.len(),
            trace.as_ptr(),
            trace.len(),
            &mut tables.heads,
            &mut tables.nodes,
            &mut tables.sets,
        )
    })
}

fn checked(number: u8) -> Result<bool, u8> {
    match number {
        0 => Ok(true),
        255 => Ok(false),
        _ => Err(number),
    }
}

/// Writes what `planverify` prints for the sheet, and gives its length.
pub fn print(bytes: &[u8], out: &mut [u8; LINES]) -> usize {
    // SAFETY: as above.
    unsafe { recovery_print(bytes.as_ptr(), bytes.len(), out) }
}

/// Feeds a piece to a stream's state, in lent tables and a lent memo, whatever they hold.
/// Tells whether all is read that is looked at: 65,535 lengths with their sheets.
pub fn figures_feed(
    piece: &[u8],
    stream: &mut Stream,
    tables: &mut Tables,
    memo: &mut [u64; MEMO_WORDS],
) -> bool {
    // SAFETY: as above.
    let number = unsafe {
        recovery_figures_feed(
            piece.as_ptr(),
            piece.len(),
            &mut stream.numbers,
            &mut stream.begun,
            &mut tables.heads,
            &mut tables.nodes,
            &mut tables.sets,
            memo,
        )
    };
    yes_or_no(number)
}

/// Writes the figures of a stream that ends in this state.
pub fn figures_end(stream: &Stream, figures: &mut [u64; FIGURES]) {
    // SAFETY: as above.
    unsafe { recovery_figures_end(&stream.numbers, &stream.begun, figures) }
}

/// Writes what `planfigures` prints for these figures, and gives its length.
pub fn figures_print(figures: &[u64; FIGURES], out: &mut [u8; LINES]) -> usize {
    // SAFETY: as above.
    unsafe { recovery_figures_print(figures, out) }
}

/// Writes the record of a sheet with no replies and gives 0; for a refused sheet
/// it writes the record of zeros and gives the number of the refusal.
pub fn load(bytes: &[u8], record: &mut Record) -> u8 {
    load_by(recovery_load, bytes, record)
}

/// The same by the library of an earlier commit.
#[cfg(feature = "before")]
pub fn load_before(bytes: &[u8], record: &mut Record) -> u8 {
    load_by(before_load, bytes, record)
}

fn load_by(load: LinkedLoad, bytes: &[u8], record: &mut Record) -> u8 {
    // SAFETY: as above.
    unsafe {
        load(
            bytes.as_ptr(),
            bytes.len(),
            &mut record.sheet,
            &mut record.replies,
            &mut record.lengths,
        )
    }
}

/// `load`, and writes the tables of an accepted sheet.
pub fn load_in(bytes: &[u8], record: &mut Record, tables: &mut Tables) -> u8 {
    load_in_by(recovery_load_in, bytes, record, tables)
}

/// The same by the library of an earlier commit.
#[cfg(lent_before)]
pub fn load_in_before(bytes: &[u8], record: &mut Record, tables: &mut Tables) -> u8 {
    load_in_by(before_load_in, bytes, record, tables)
}

fn load_in_by(load: LinkedLoadIn, bytes: &[u8], record: &mut Record, tables: &mut Tables) -> u8 {
    // SAFETY: as above.
    unsafe {
        load(
            bytes.as_ptr(),
            bytes.len(),
            &mut record.sheet,
            &mut record.replies,
            &mut record.lengths,
            &mut tables.heads,
            &mut tables.nodes,
            &mut tables.sets,
        )
    }
}

/// Writes 0 and the action to do, or 1 and whether the goal holds at the end, 1 or
/// 0, and gives 0; a bad record gives 31 and leaves `told` as it was.
pub fn next(record: &Record, told: &mut [usize; 2]) -> u8 {
    next_by(recovery_next, record, told)
}

/// The same by the library of an earlier commit.
#[cfg(feature = "before")]
pub fn next_before(record: &Record, told: &mut [usize; 2]) -> u8 {
    next_by(before_next, record, told)
}

fn next_by(next: LinkedNext, record: &Record, told: &mut [usize; 2]) -> u8 {
    // SAFETY: as above.
    unsafe { next(&record.sheet, &record.replies, &record.lengths, told) }
}

/// `next` in lent tables, which then are those of the record's sheet.
pub fn next_in(record: &Record, told: &mut [usize; 2], tables: &mut Tables) -> u8 {
    next_in_by(recovery_next_in, record, told, tables)
}

/// The same by the library of an earlier commit.
#[cfg(lent_before)]
pub fn next_in_before(record: &Record, told: &mut [usize; 2], tables: &mut Tables) -> u8 {
    next_in_by(before_next_in, record, told, tables)
}

fn next_in_by(
    next: LinkedNextIn,
    record: &Record,
    told: &mut [usize; 2],
    tables: &mut Tables,
) -> u8 {
    // SAFETY: as above.
    unsafe {
        next(
            &record.sheet,
            &record.replies,
            &record.lengths,
            told,
            &mut tables.heads,
            &mut tables.nodes,
            &mut tables.sets,
        )
    }
}

/// Adds the reply and gives 0, or gives the number of the refusal and leaves the
/// record as it was.
pub fn report(record: &mut Record, reply: u8) -> u8 {
    report_by(recovery_report, record, reply)
}

/// The same by the library of an earlier commit.
#[cfg(feature = "before")]
pub fn report_before(record: &mut Record, reply: u8) -> u8 {
    report_by(before_report, record, reply)
}

fn report_by(report: LinkedReport, record: &mut Record, reply: u8) -> u8 {
    let (replies, lengths) = (&mut record.replies, &mut record.lengths);
    // SAFETY: as above.
    unsafe { report(&record.sheet, replies, lengths, reply) }
}

/// `report` in lent tables, which then are those of the record's sheet.
pub fn report_in(record: &mut Record, reply: u8, tables: &mut Tables) -> u8 {
    report_in_by(recovery_report_in, record, reply, tables)
}

/// The same by the library of an earlier commit.
#[cfg(lent_before)]
pub fn report_in_before(record: &mut Record, reply: u8, tables: &mut Tables) -> u8 {
    report_in_by(before_report_in, record, reply, tables)
}

fn report_in_by(report: LinkedReportIn, record: &mut Record, reply: u8, tables: &mut Tables) -> u8 {
    // SAFETY: as above.
    unsafe {
        report(
            &record.sheet,
            &mut record.replies,
            &mut record.lengths,
            reply,
            &mut tables.heads,
            &mut tables.nodes,
            &mut tables.sets,
        )
    }
}
