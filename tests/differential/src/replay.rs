//! The layer `replay` against a plain run of our own: the Rust has no function that runs a list of calls. How a run goes and what
//! its ledger holds is written from document 01 ("Demand 3", the session's rules and the numbers): lists of programs, erases,
//! barriers, begins and ends with at most one cut. Compared are every answer, the media, the ledger, the log and the marks, the
//! copy, the number of a refusal, and every cell that is left alone.
//!
//! Document 01 does not speak of the calls' columns, the pool and the answers, nor of the codes in log and marks: there this side
//! follows the contract of `replay`, and shows that the code does, not that the contract is right. Log and marks are lent as arrays
//! of a session's limits, so that none of another length can be refused.
//!
//! A part of `session`, whose random calls and numbers it makes.

use super::{Call, DEVICES, INTERRUPTIONS, random_call, smaller_injections, told_of};
use crate::common::{self, Comparison, Difference, Input, Layer, Random, bench_row, cuts, smaller_numbers, without};
use std::cell::RefCell;
use std::collections::BTreeMap;
use std::ops::Range;
use waymaker_fault::inject::{Injection, Interruption, Progress};

pub const LAYER: Layer = Layer { name: "replay", compare, bench, sample };

/// A session takes so many.
const OPERATIONS: usize = 1024;
const MARKS: usize = 512;

// crates/replay_exported/src/lib.rt. Nothing proves that this declaration is that of the file: this is what is trusted here. A
// slice crosses as a pointer, then a length; an array as a pointer to so many.
#[rustfmt::skip]
unsafe extern "C" {
    fn replay_of_calls(
        told: *const u32, told_len: usize, rows: usize, kinds: *const u8, kinds_len: usize,
        firsts: *const u32, firsts_len: usize, seconds: *const u32, seconds_len: usize,
        thirds: *const u32, thirds_len: usize, starts: *const u32, starts_len: usize,
        pool: *const u8, pool_len: usize, answers: *mut u32, answers_len: usize, media: *mut u8, media_len: usize,
        copy: *mut u8, copy_len: usize, ops: &mut [u8; OPERATIONS], spans: &mut [u32; OPERATIONS],
        sizes: &mut [u32; OPERATIONS], digests: &mut [u64; OPERATIONS], changed: &mut [u8; OPERATIONS],
        answered: &mut [u8; OPERATIONS], marks: &mut [u8; MARKS], named: &mut [u32; MARKS], places: &mut [u64; MARKS],
        records: *mut u32, records_len: usize, states: *mut u8, states_len: usize, torn: *mut u8, torn_len: usize,
        entries: *mut u64,
    ) -> u32;
}

// ---- inputs

/// One call: 0 a program, 1 an erase, 2 a barrier, 3 begin, 4 end. First is the id of a begin or the offset of a program or erase,
/// second the length of a program or erase, third nothing; a program's bytes start there in the pool.
#[derive(Clone, Copy, Debug)]
struct Row {
    kind: u8,
    first: u32,
    second: u32,
    third: u32,
    start: u32,
}

/// Places of how many rows are counted, and of the lengths of what is lent: the table's five columns, the answers, media, copy, the
/// ledger's three.
const COUNTED: usize = 0;
const TABLE: usize = 1;
const ANSWERS: usize = 6;
const MEDIA: usize = 7;
const LEDGER: usize = 9;
const LENGTHS: usize = 12;

/// Four units, whether the bit rule is Rejected, what is armed, the rows and the pool, and how the count and the lengths differ from
/// those that are fit for the rows: a place and a difference each.
#[derive(Clone, Debug)]
struct Case {
    units: [u32; 4],
    rejected: bool,
    armed: Option<Injection>,
    rows: Vec<Row>,
    pool: Vec<u8>,
    changes: Vec<(usize, isize)>,
}

impl Case {
    /// Fit for the rows: all are counted, and there is one answer and one ledger row more than are written.
    fn lengths(&self) -> [usize; LENGTHS] {
        let mut found = [self.rows.len(); LENGTHS];
        found[ANSWERS] += 1;
        found[MEDIA..LEDGER].fill(self.units[0] as usize);
        found[LEDGER..].fill(self.rows.iter().filter(|row| row.kind == 3).count() + 1);
        for &(place, by) in &self.changes {
            found[place] = found[place].saturating_add_signed(by);
        }
        found
    }

    /// A column of the rows, 0 past the last.
    fn column<T: Copy + Default>(&self, of: impl Fn(&Row) -> T, len: usize) -> Vec<T> {
        (0..len).map(|i| self.rows.get(i).map_or(T::default(), &of)).collect()
    }

    /// The rows counted, as far as the columns go: past the last it is a program of nothing.
    fn held(&self, lengths: &[usize; LENGTHS]) -> impl Iterator<Item = Row> + '_ {
        let none = Row { kind: PROGRAM, ..BARRIER };
        (0..lengths[COUNTED].min(lengths[TABLE])).map(move |i| self.rows.get(i).copied().unwrap_or(none))
    }
}

impl Input for Case {
    fn smaller(&self) -> Vec<Self> {
        let mut found = Vec::new();
        if self.armed.is_some() {
            found.push(Self { armed: None, ..self.clone() });
        }
        for place in 0..self.changes.len() {
            let mut less = self.clone();
            less.changes.remove(place);
            found.push(less);
        }
        for (from, to) in cuts(self.rows.len()) {
            found.push(Self { rows: without(&self.rows, from, to), ..self.clone() });
        }
        for (place, row) in self.rows.iter().enumerate().take(64) {
            let firsts = smaller_numbers(row.first).into_iter().map(|first| Row { first, ..*row });
            let seconds = smaller_numbers(row.second).into_iter().map(|second| Row { second, ..*row });
            for row in firsts.chain(seconds) {
                let mut less = self.clone();
                less.rows[place] = row;
                found.push(less);
            }
        }
        for armed in smaller_injections(self.armed) {
            found.push(Self { armed: Some(armed), ..self.clone() });
        }
        found
    }
}

/// What stands in every lent cell before.
const OLD: u8 = 0xA5;
const OLD_32: u32 = 0xA5A5_A5A5;
const OLD_64: u64 = 0xA5A5_A5A5_A5A5_A5A5;

/// Kind, offset, length, digest, whether a cell changed, whether it answered 0.
type Operation = (u8, u32, u32, u64, u8, u8);

/// All that a replay leaves. Of log and marks the rows written, and whether any other cell was: those past the last row, and
/// those past the array's end.
#[derive(PartialEq, Debug)]
struct Left {
    number: u32,
    entries: u64,
    answers: Vec<u32>,
    media: Vec<u8>,
    copy: Vec<u8>,
    records: Vec<u32>,
    states: Vec<u8>,
    torn: Vec<u8>,
    log: Vec<Operation>,
    /// 1 and the id for a begin, 0 for an end; the operations before it.
    marks: Vec<(u8, u32, u64)>,
    elsewhere: bool,
}

impl Left {
    fn untouched(case: &Case, number: u32) -> Self {
        let lengths = case.lengths();
        Self {
            number,
            entries: OLD_64,
            answers: vec![OLD_32; lengths[ANSWERS]],
            media: vec![OLD; lengths[MEDIA]],
            copy: vec![OLD; lengths[MEDIA + 1]],
            records: vec![OLD_32; lengths[LEDGER]],
            states: vec![OLD; lengths[LEDGER + 1]],
            torn: vec![OLD; lengths[LEDGER + 2]],
            log: Vec::new(),
            marks: Vec::new(),
            elsewhere: false,
        }
    }
}

impl common::Answer for Left {
    fn number(&self) -> u32 {
        self.number
    }
}

// ---- the plain run

/// An operation taken, and, where it is the armed one, what the write would have left where its bytes did not land.
struct Taken {
    kind: u8,
    offset: u32,
    len: u32,
    digest: u64,
    changed: bool,
    answer: u32,
    missing: Option<(usize, Vec<u8>)>,
}

struct Plain {
    units: [u32; 4],
    rejected: bool,
    armed: Option<Injection>,
    media: Vec<u8>,
    taken: Vec<Taken>,
    marks: Vec<(Option<u32>, usize)>,
    /// 0 while it runs, else the number of a later call.
    stop: u32,
}

/// "Any of the four zero, 1; a unit that is no power of two, 2; capacity no multiple of the erase unit, erase below program, or
/// program below read, 3."
fn units_number([capacity, erase, program, read]: [u32; 4]) -> u32 {
    if capacity == 0 || erase == 0 || program == 0 || read == 0 {
        1
    } else if [erase, program, read].iter().any(|unit| unit.count_ones() != 1) {
        2
    } else if capacity % erase != 0 || erase < program || program < read {
        3
    } else {
        0
    }
}

/// "Offset (4), then length (5), against its call's unit, then an end that overflows u32 or passes capacity (6)."
fn span_number(offset: u32, len: u32, unit: u32, capacity: u32) -> u32 {
    if offset % unit != 0 {
        4
    } else if len % unit != 0 {
        5
    } else if u64::from(offset) + u64::from(len) > u64::from(capacity) {
        6
    } else {
        0
    }
}

/// FNV-1a, 64 bits.
fn digest_of(bytes: &[u8]) -> u64 {
    bytes.iter().fold(0xCBF2_9CE4_8422_2325, |sum, &byte| (sum ^ u64::from(byte)).wrapping_mul(0x0000_0100_0000_01B3))
}

/// How many bytes of an armed operation land, its answer, and the stop.
fn ending(armed: Injection, kind: u8, len: u32, unit: u32) -> (usize, u32, u32) {
    let said = match armed.progress {
        Progress::None => 0,
        Progress::Bytes(count) => count.min(len),
        Progress::Whole => len,
    };
    let landed = match armed.interruption {
        Interruption::Watchdog => {
            (u64::from(said).div_ceil(u64::from(unit)) * u64::from(unit)).min(u64::from(len)) as u32
        }
        Interruption::PowerLoss | Interruption::Failure if kind == 1 => said / unit * unit,
        Interruption::PowerLoss | Interruption::Failure => said,
    };
    let completed =
        if kind == 2 { !matches!(armed.progress, Progress::None | Progress::Bytes(0)) } else { landed == len };
    let (answer, stop) = match (armed.interruption, completed) {
        (Interruption::PowerLoss, false) => (21, 21),
        (Interruption::PowerLoss, true) => (0, 21),
        (Interruption::Watchdog, _) => (22, 22),
        (Interruption::Failure, _) => (23, 0),
    };
    (landed as usize, answer, stop)
}

impl Plain {
    fn call(&mut self, row: Row, pool: &[u8]) -> u32 {
        match row.kind {
            0 => self.act(0, row.first, row.second, &pool[row.start as usize..][..row.second as usize]),
            1 => self.act(1, row.first, row.second, &[]),
            2 => self.act(2, 0, 0, &[]),
            3 => self.mark(Some(row.first)),
            _ => self.mark(None),
        }
    }

    fn mark(&mut self, id: Option<u32>) -> u32 {
        if self.marks.len() == MARKS {
            return 28;
        }
        self.marks.push((id, self.taken.len()));
        0
    }

    fn act(&mut self, kind: u8, offset: u32, len: u32, bytes: &[u8]) -> u32 {
        if self.stop != 0 {
            return self.stop;
        }
        let [capacity, erase, program, _] = self.units;
        let unit = if kind == 1 { erase } else { program };
        let refused = if kind == 2 { 0 } else { span_number(offset, len, unit, capacity) };
        if refused != 0 {
            return refused;
        }
        let from = offset as usize;
        let cells = &mut self.media[from..from + len as usize];
        if kind == 0 && self.rejected && cells.iter().zip(bytes).any(|(cell, byte)| byte & !cell != 0) {
            return 20;
        }
        if self.taken.len() == OPERATIONS {
            return 27;
        }
        let would: Vec<u8> = if kind == 0 {
            cells.iter().zip(bytes).map(|(cell, byte)| cell & byte).collect()
        } else {
            vec![0xFF; cells.len()]
        };
        let cut = self.armed.filter(|armed| armed.op == self.taken.len());
        let (landed, answer, stop) = cut.map_or((cells.len(), 0, 0), |armed| ending(armed, kind, len, unit));
        let changed = cells[..landed] != would[..landed];
        cells[..landed].copy_from_slice(&would[..landed]);
        let missing = cut.map(|_| (from + landed, would[landed..].to_vec()));
        let digest = if kind == 0 { digest_of(bytes) } else { 0 };
        self.taken.push(Taken { kind, offset, len, digest, changed, answer, missing });
        self.stop = stop;
        answer
    }

    /// Whether, at the end, the media differ from what the write would have left where its bytes did not land.
    fn withheld(&self, taken: &Taken) -> bool {
        taken.missing.as_ref().is_some_and(|(from, would)| self.media[*from..][..would.len()] != would[..])
    }

    /// "A barrier that answered 0 follows its last program or erase": none does where the record has neither.
    fn acknowledged(&self, mut own: Range<usize>) -> bool {
        let last = own.rfind(|&place| self.taken[place].kind != 2);
        last.is_some_and(|last| self.taken[last + 1..].iter().any(|taken| taken.kind == 2 && taken.answer == 0))
    }

    /// Id, state and torn of each begin that was taken. "A record holds the operations taken from a taken begin to the next taken
    /// mark or the list's end."
    fn ledger(&self) -> Vec<(u32, u8, u8)> {
        let mut found = Vec::new();
        for (place, &(id, from)) in self.marks.iter().enumerate() {
            let Some(id) = id else { continue };
            let to = self.marks.get(place + 1).map_or(self.taken.len(), |next| next.1);
            let own = &self.taken[from..to];
            // "Attempted if nothing in the record changed a cell; else possibly durable and torn if something is withheld; else
            // acknowledged if [..]; else possibly durable."
            let row = if !own.iter().any(|taken| taken.changed) {
                (id, 0, 0)
            } else if own.iter().any(|taken| self.withheld(taken)) {
                (id, 1, 1)
            } else if self.acknowledged(from..to) {
                (id, 2, 0)
            } else {
                (id, 1, 0)
            };
            found.push(row);
        }
        found
    }
}

/// What refuses a list, but for its units and for a ledger that it has no room for: each comes up alone in a comparison.
const REASONS: [(u32, &str); 8] = [
    (7, "media or copy not of the capacity's length"),
    (12, "unequal columns of rows"),
    (12, "unequal columns of the ledger"),
    (12, "a range, kind 5"),
    (12, "a kind above 5"),
    (13, "more rows counted than the columns have"),
    (13, "fewer answers than rows counted"),
    (13, "bytes outside the pool"),
];
const NO_ROOM: (u32, &str) = (13, "a ledger shorter than its entries");

/// Which of the reasons there are. Rows past those counted are not looked at.
fn reasons(case: &Case, lengths: &[usize; LENGTHS]) -> [bool; 8] {
    let uneven = |list: &[usize]| list.iter().any(|&len| len != list[0]);
    let outside = |row: Row| row.kind == 0 && u64::from(row.start) + u64::from(row.second) > case.pool.len() as u64;
    [
        lengths[MEDIA..LEDGER].iter().any(|&len| len != case.units[0] as usize),
        uneven(&lengths[TABLE..ANSWERS]),
        uneven(&lengths[LEDGER..]),
        case.held(lengths).any(|row| row.kind == 5),
        case.held(lengths).any(|row| row.kind > 5),
        lengths[TABLE] < lengths[COUNTED],
        lengths[ANSWERS] < lengths[COUNTED],
        case.held(lengths).any(outside),
    ]
}

/// The numbers 1 to 3, 7, 12 and 13, but for the room that the ledger needs: "the lowest number comes first".
fn refusal(case: &Case, lengths: &[usize; LENGTHS]) -> u32 {
    let units = units_number(case.units);
    if units != 0 {
        return units;
    }
    let found = reasons(case, lengths);
    REASONS.iter().zip(found).filter(|(_, holds)| *holds).map(|((number, _), _)| *number).min().unwrap_or(0)
}

/// The plain run of the calls on a new device, and their answers.
fn run_of(case: &Case, lengths: &[usize; LENGTHS]) -> (Plain, Vec<u32>) {
    let mut run = Plain {
        units: case.units,
        rejected: case.rejected,
        armed: case.armed,
        media: vec![0xFF; lengths[MEDIA]],
        taken: Vec::new(),
        marks: Vec::new(),
        stop: 0,
    };
    let answers = case.held(lengths).map(|row| run.call(row, &case.pool)).collect();
    (run, answers)
}

/// What document 01 says that a replay leaves.
fn by_document(case: &Case) -> Left {
    let lengths = case.lengths();
    let mut left = Left::untouched(case, refusal(case, &lengths));
    if left.number != 0 {
        return left;
    }
    let (run, answers) = run_of(case, &lengths);
    let ledger = run.ledger();
    if ledger.len() > lengths[LEDGER] {
        left.number = NO_ROOM.0;
        return left;
    }
    left.entries = ledger.len() as u64;
    left.answers[..answers.len()].copy_from_slice(&answers);
    for (place, (id, state, torn)) in ledger.into_iter().enumerate() {
        (left.records[place], left.states[place], left.torn[place]) = (id, state, torn);
    }
    for taken in &run.taken {
        let answered = u8::from(taken.answer == 0);
        left.log.push((taken.kind, taken.offset, taken.len, taken.digest, u8::from(taken.changed), answered));
        if let Some((from, would)) = &taken.missing {
            left.copy[*from..][..would.len()].copy_from_slice(would);
        }
    }
    left.marks.extend(run.marks.iter().map(|&(id, before)| (u8::from(id.is_some()), id.unwrap_or(0), before as u64)));
    left.media = run.media;
    left
}

// ---- the proved one

/// Log and marks, which are lent again and again. Each is eight cells longer than the array that is lent.
struct Kept {
    ops: Vec<u8>,
    spans: Vec<u32>,
    sizes: Vec<u32>,
    digests: Vec<u64>,
    changed: Vec<u8>,
    answered: Vec<u8>,
    marks: Vec<u8>,
    named: Vec<u32>,
    places: Vec<u64>,
}

/// Whether any cell from this place on, which is not the column's end, is not as it was. Each is held to the next one: two slices
/// are compared many cells at a time.
fn touched<T: PartialEq>(column: &[T], from: usize, old: T) -> bool {
    let last = column.len() - 1;
    column[from..last] != column[from + 1..] || column[last] != old
}

impl Kept {
    fn new() -> Self {
        let (log, marks) = (OPERATIONS + 8, MARKS + 8);
        Self {
            ops: vec![OLD; log],
            spans: vec![OLD_32; log],
            sizes: vec![OLD_32; log],
            digests: vec![OLD_64; log],
            changed: vec![OLD; log],
            answered: vec![OLD; log],
            marks: vec![OLD; marks],
            named: vec![OLD_32; marks],
            places: vec![OLD_64; marks],
        }
    }

    /// Takes the rows written, tells whether any other cell was written, and puts all back as it was.
    fn take(&mut self) -> (Vec<Operation>, Vec<(u8, u32, u64)>, bool) {
        let log = self.ops.iter().take_while(|&&kind| kind != OLD).count();
        let marks = self.marks.iter().take_while(|&&code| code != OLD).count();
        let row = |i| (self.ops[i], self.spans[i], self.sizes[i], self.digests[i], self.changed[i], self.answered[i]);
        let operations: Vec<Operation> = (0..log).map(row).collect();
        // What an end leaves for an id is not looked at.
        let id = |i: usize| if self.marks[i] == 0 { 0 } else { self.named[i] };
        let noted: Vec<(u8, u32, u64)> = (0..marks).map(|i| (self.marks[i], id(i), self.places[i])).collect();
        let elsewhere = touched(&self.ops, log, OLD)
            || touched(&self.spans, log, OLD_32)
            || touched(&self.sizes, log, OLD_32)
            || touched(&self.digests, log, OLD_64)
            || touched(&self.changed, log, OLD)
            || touched(&self.answered, log, OLD)
            || touched(&self.marks, marks, OLD)
            || touched(&self.named, marks, OLD_32)
            || touched(&self.places, marks, OLD_64);
        if elsewhere {
            *self = Self::new();
        }
        self.ops[..log].fill(OLD);
        self.spans[..log].fill(OLD_32);
        self.sizes[..log].fill(OLD_32);
        self.digests[..log].fill(OLD_64);
        self.changed[..log].fill(OLD);
        self.answered[..log].fill(OLD);
        self.marks[..marks].fill(OLD);
        self.named[..marks].fill(OLD_32);
        self.places[..marks].fill(OLD_64);
        (operations, noted, elsewhere)
    }
}

/// The table's columns.
struct Columns {
    kinds: Vec<u8>,
    firsts: Vec<u32>,
    seconds: Vec<u32>,
    thirds: Vec<u32>,
    starts: Vec<u32>,
}

fn columns_of(case: &Case) -> Columns {
    let [_, kinds, firsts, seconds, thirds, starts, ..] = case.lengths();
    Columns {
        kinds: case.column(|row| row.kind, kinds),
        firsts: case.column(|row| row.first, firsts),
        seconds: case.column(|row| row.second, seconds),
        thirds: case.column(|row| row.third, thirds),
        starts: case.column(|row| row.start, starts),
    }
}

/// The array that is lent: the beginning of a column that is kept.
fn array<T, const N: usize>(column: &mut [T]) -> &mut [T; N] {
    column.first_chunk_mut().expect("a column longer than the array")
}

// SAFETY: each pointer and length are those of a slice that nothing else uses during the call, and so is each array.
#[rustfmt::skip]
fn replay(case: &Case, calls: &Columns, kept: &mut Kept, left: &mut Left) {
    let told = told_of(case.units, case.rejected, case.armed);
    let counted = case.lengths()[COUNTED];
    let Left { number, entries, answers, media, copy, records, states, torn, .. } = left;
    let Columns { kinds, firsts, seconds, thirds, starts } = calls;
    *number = unsafe {
        replay_of_calls(
            told.as_ptr(), told.len(), counted, kinds.as_ptr(), kinds.len(),
            firsts.as_ptr(), firsts.len(), seconds.as_ptr(), seconds.len(),
            thirds.as_ptr(), thirds.len(), starts.as_ptr(), starts.len(),
            case.pool.as_ptr(), case.pool.len(), answers.as_mut_ptr(), answers.len(), media.as_mut_ptr(), media.len(),
            copy.as_mut_ptr(), copy.len(), array(&mut kept.ops), array(&mut kept.spans),
            array(&mut kept.sizes), array(&mut kept.digests), array(&mut kept.changed),
            array(&mut kept.answered), array(&mut kept.marks), array(&mut kept.named), array(&mut kept.places),
            records.as_mut_ptr(), records.len(), states.as_mut_ptr(), states.len(), torn.as_mut_ptr(), torn.len(),
            entries,
        )
    };
}

fn ours(case: &Case, kept: &mut Kept) -> Left {
    let mut left = Left::untouched(case, 0);
    replay(case, &columns_of(case), kept, &mut left);
    (left.log, left.marks, left.elsewhere) = kept.take();
    left
}

// ---- lists

const PROGRAM: u8 = 0;
const ERASE: u8 = 1;
const BARRIER: Row = Row { kind: 2, first: 0, second: 0, third: 0, start: 0 };
const END: Row = Row { kind: 4, ..BARRIER };

fn begin(id: u32) -> Row {
    Row { kind: 3, first: id, ..BARRIER }
}

/// How often each number was answered, each reason to refuse came up alone, and how many records of each kind there were.
#[derive(Default)]
struct Seen {
    calls: u64,
    answers: BTreeMap<u32, u64>,
    refusals: BTreeMap<u32, u64>,
    alone: BTreeMap<(u32, &'static str), u64>,
    records: BTreeMap<(u8, u8), u64>,
}

impl Seen {
    fn count(&mut self, case: &Case, left: &Left) {
        let lengths = case.lengths();
        if left.number != 0 {
            *self.refusals.entry(left.number).or_default() += 1;
            if left.number > 3 {
                let found = reasons(case, &lengths);
                let mut held = REASONS.iter().zip(found).filter(|(_, holds)| *holds).map(|(reason, _)| *reason);
                let (first, second) = (held.next(), held.next());
                if second.is_none() {
                    *self.alone.entry(first.unwrap_or(NO_ROOM)).or_default() += 1;
                }
            }
            return;
        }
        let calls = lengths[COUNTED];
        self.calls += calls as u64;
        for &answer in &left.answers[..calls] {
            *self.answers.entry(answer).or_default() += 1;
        }
        for row in 0..left.entries as usize {
            *self.records.entry((left.states[row], left.torn[row])).or_default() += 1;
        }
    }

    /// A comparison that met no call or record of some kind has shown nothing of it.
    fn all_kinds(&self) -> Result<(), Difference> {
        let told = |counts: &BTreeMap<u32, u64>| {
            counts.iter().map(|(number, times)| format!("{number}: {times}")).collect::<Vec<_>>().join(", ")
        };
        let records = [(0, 0), (1, 0), (1, 1), (2, 0)].map(|kind| self.records.get(&kind).copied().unwrap_or(0));
        println!("  {} calls by answer: {}", self.calls, told(&self.answers));
        println!(
            "  records attempted {}, possibly durable {}, torn {}, acknowledged {}",
            records[0], records[1], records[2], records[3]
        );
        let answers = [0, 4, 5, 6, 20, 21, 22, 23, 27, 28].iter().all(|number| self.answers.contains_key(number));
        for ((number, reason), times) in &self.alone {
            println!("  refused by {number} for this alone, {reason}: {times}");
        }
        let refusals = [1, 2, 3, 7, 12, 13].iter().all(|number| self.refusals.contains_key(number));
        let alone = REASONS.iter().chain([&NO_ROOM]).all(|reason| self.alone.contains_key(reason));
        if answers && refusals && alone && !records.contains(&0) {
            return Ok(());
        }
        Err(Difference(String::from("no call, refusal or record of some kind was met")))
    }
}

/// Both sides, over what is kept.
struct Sides {
    kept: RefCell<Kept>,
    seen: RefCell<Seen>,
}

impl Sides {
    fn same(&self, comparison: &mut Comparison, case: &Case) -> Result<(), Difference> {
        let plain = |case: &Case| {
            let left = by_document(case);
            self.seen.borrow_mut().count(case, &left);
            left
        };
        comparison.same(case, plain, |case| ours(case, &mut self.kept.borrow_mut()))
    }
}

fn compare(comparison: &mut Comparison) -> Result<(), Difference> {
    let sides = Sides { kept: RefCell::new(Kept::new()), seen: RefCell::default() };
    for (units, most) in [([8, 4, 2, 1], 4), ([16, 8, 8, 4], 3), ([4, 2, 1, 1], 3)] {
        for rejected in [false, true] {
            short(comparison, &sides, units, rejected, most)?;
        }
    }
    for _ in 0..comparison.size / 2 {
        let case = random_case(&mut comparison.random, 41);
        sides.same(comparison, &case)?;
    }
    for _ in 0..(comparison.size / 10_000).max(50) {
        let case = long_case(&mut comparison.random);
        sides.same(comparison, &case)?;
    }
    for _ in 0..comparison.size / 4 {
        let case = changed_case(&mut comparison.random);
        sides.same(comparison, &case)?;
    }
    sides.seen.borrow().all_kinds()
}

/// Eleven calls for a device: marks, a barrier, programs that land anew, over one another, with nothing and at an odd place, and
/// erases of all and of a block.
fn eleven([capacity, erase, unit, _]: [u32; 4]) -> ([Row; 11], Vec<u8>) {
    let program = |first, second, start| Row { kind: PROGRAM, first, second, third: 0, start };
    let half = unit as usize;
    let pool = [vec![0x00; half], vec![0xFF; half], vec![0xF0; half], vec![0x0F; half]].concat();
    let rows = [
        begin(1),
        begin(2),
        END,
        BARRIER,
        program(0, 2 * unit, 0),
        program(0, unit, 2 * unit),
        program(unit, 2 * unit, 2 * unit),
        program(unit, 0, 0),
        program(if unit == 1 { capacity } else { 1 }, unit, 0),
        Row { kind: ERASE, first: 0, second: capacity, ..BARRIER },
        Row { kind: ERASE, first: erase, second: erase, ..BARRIER },
    ];
    (rows, pool)
}

/// Every list of up to so many of the eleven calls, without a cut and with every cut at every index up to one past the end.
fn short(
    comparison: &mut Comparison,
    sides: &Sides,
    units: [u32; 4],
    rejected: bool,
    most: usize,
) -> Result<(), Difference> {
    let (calls, pool) = eleven(units);
    let mut lists: Vec<Vec<Row>> = vec![Vec::new()];
    let mut from = 0;
    for _ in 0..most {
        let end = lists.len();
        for place in from..end {
            for &row in &calls {
                let mut list = lists[place].clone();
                list.push(row);
                lists.push(list);
            }
        }
        from = end;
    }
    for rows in lists {
        let mut case = Case { units, rejected, armed: None, rows, pool: pool.clone(), changes: Vec::new() };
        sides.same(comparison, &case)?;
        for armed in every_cut(&case) {
            case.armed = Some(armed);
            sides.same(comparison, &case)?;
        }
    }
    Ok(())
}

/// None, whole, and counts 0, 1, beside and at each length of these calls and past it.
fn every_cut(case: &Case) -> Vec<Injection> {
    let [capacity, erase, unit, _] = case.units;
    let mut counts = vec![0, 1, unit, 2 * unit - 1, 2 * unit, erase, capacity, capacity + 1];
    counts.sort_unstable();
    counts.dedup();
    let progresses = counts.into_iter().map(Progress::Bytes).chain([Progress::None, Progress::Whole]);
    let operations = case.rows.iter().filter(|row| row.kind < 3).count();
    let mut found = Vec::new();
    for progress in progresses {
        for op in 0..operations + 1 {
            for interruption in INTERRUPTIONS {
                found.push(Injection { op, progress, interruption });
            }
        }
    }
    found
}

/// A row of a random call; a program's bytes go to the end of the pool, or are those of an earlier one.
fn random_row(random: &mut Random, units: [u32; 4], pool: &mut Vec<u8>) -> Row {
    match random_call(random, units) {
        Call::Program(first, bytes) => {
            let len = bytes.len() as u32;
            if random.below(4) == 0 && bytes.len() <= pool.len() {
                let start = random.below(pool.len() as u32 - len + 1);
                return Row { kind: PROGRAM, first, second: len, third: 0, start };
            }
            let start = pool.len() as u32;
            pool.extend(bytes);
            Row { kind: PROGRAM, first, second: len, third: 0, start }
        }
        Call::Erase(first, len) => {
            let second = if random.below(32) == 0 { 0u32.wrapping_sub(units[1]) } else { len };
            Row { kind: ERASE, first, second, ..BARRIER }
        }
        Call::Barrier | Call::Read(..) => BARRIER,
    }
}

/// The row with any numbers where its kind reads none.
fn with_unread(random: &mut Random, row: Row) -> Row {
    let first = if row.kind == 2 || row.kind == 4 { random.u32() } else { row.first };
    let second = if row.kind > 1 { random.u32() } else { row.second };
    let start = if row.kind == PROGRAM { row.start } else { random.u32() };
    Row { first, second, third: random.u32(), start, ..row }
}

fn random_cut(random: &mut Random, capacity: u32, operations: u32) -> Injection {
    let progress = match random.below(6) {
        0 => Progress::None,
        1 => Progress::Whole,
        2 => Progress::Bytes(random.pick(&[0, 1, u32::MAX])),
        _ => Progress::Bytes(random.below(capacity + 2)),
    };
    let op = if random.below(64) == 0 { u32::MAX } else { random.below(operations + 2) };
    Injection { op: op as usize, progress, interruption: random.pick(&INTERRUPTIONS) }
}

/// Fewer calls than `end`; every other time one row more, which is not counted and would be refused or taken.
fn random_case(random: &mut Random, end: u32) -> Case {
    let units = random.pick(&DEVICES);
    let (mut pool, mut changes) = (Vec::new(), Vec::new());
    let mut rows: Vec<Row> = (0..random.below(end))
        .map(|place| {
            let row = match random.below(8) {
                0 | 1 => begin(if random.below(8) == 0 { 1 } else { place }),
                2 => END,
                _ => random_row(random, units, &mut pool),
            };
            with_unread(random, row)
        })
        .collect();
    let operations = rows.iter().filter(|row| row.kind < 3).count() as u32;
    let armed = (random.below(8) != 0).then(|| random_cut(random, units[0], operations));
    if random.below(2) == 0 {
        let kind = random.pick(&[0, 1, 2, 3, 4, 5, 255]);
        rows.push(Row { kind, first: 0, second: random.pick(&[0, units[1], u32::MAX]), third: 0, start: random.u32() });
        changes.push((COUNTED, -1));
    }
    Case { units, rejected: random.below(2) == 1, armed, rows, pool, changes }
}

/// Past the limits of operations, of marks, or of both; every other time with a ledger of as many rows as begins are taken, or of one
/// less.
fn long_case(random: &mut Random) -> Case {
    let units = random.pick(&DEVICES);
    let (mut pool, marks) = (Vec::new(), random.pick(&[1, 4, 7]));
    let rows: Vec<Row> = (0..1000 + random.below(2000))
        .map(|place| match random.below(8) {
            mark if mark < marks => {
                if random.below(4) == 0 {
                    END
                } else {
                    begin(place)
                }
            }
            _ if random.below(4) == 0 => BARRIER,
            _ => random_row(random, units, &mut pool),
        })
        .collect();
    let mut armed = random_cut(random, units[0], 1100);
    if random.below(2) == 0 {
        armed.interruption = Interruption::Failure;
    }
    let mut case = Case { units, rejected: random.below(2) == 1, armed: Some(armed), rows, pool, changes: Vec::new() };
    if random.below(2) == 0 {
        let taken = case.rows.iter().filter(|row| row.kind > 2).take(MARKS).filter(|row| row.kind == 3).count();
        let by = taken as isize - case.lengths()[LEDGER] as isize - random.below(2) as isize;
        case.changes.extend((LEDGER..LENGTHS).map(|place| (place, by)));
    }
    case
}

/// A list of a few calls with up to three changes, each most often a reason to refuse it.
fn changed_case(random: &mut Random) -> Case {
    let mut case = random_case(random, 7);
    for _ in 0..1 + random.below(3) {
        let by = random.pick(&[-1, 1, 2, -3]);
        match random.below(10) {
            0 => case.units[random.below(4) as usize] = random.pick(&[0, 1, 3, 12, 16]),
            1..4 => case.changes.push((random.below(LENGTHS as u32) as usize, by)),
            4 => case.changes.extend((LEDGER..LENGTHS).map(|place| (place, by))),
            5 => case.changes.extend((TABLE..ANSWERS).map(|place| (place, by))),
            6 => case.changes.extend((COUNTED..ANSWERS).map(|place| (place, by))),
            7 => case.changes.push((COUNTED, random.pick(&[by, isize::MAX]))),
            change => {
                if case.rows.is_empty() {
                    continue;
                }
                let place = random.below(case.rows.len() as u32) as usize;
                if change == 8 {
                    case.rows[place].kind = random.pick(&[5, 6, 255]);
                } else {
                    case.rows[place].start = random.pick(&[1, case.pool.len() as u32, u32::MAX]);
                }
            }
        }
    }
    case
}

// ---- times

/// Lists of 40 calls without a cut, run one after the other.
fn bench(random: &mut Random) {
    let cases: Vec<Case> = (0..512)
        .map(|_| {
            let mut case = random_case(random, 41);
            while case.lengths()[COUNTED] != 40 {
                case = random_case(random, 41);
            }
            Case { armed: None, ..case }
        })
        .collect();
    let lent: Vec<Columns> = cases.iter().map(columns_of).collect();
    let kept = RefCell::new((Kept::new(), cases.iter().map(|case| Left::untouched(case, 0)).collect::<Vec<_>>()));
    bench_row(
        "replay: a call of 40 (a plain run in Rust)",
        cases.len() * 40,
        || cases.iter().map(plain_sum).sum(),
        || {
            let (kept, left) = &mut *kept.borrow_mut();
            for ((case, calls), left) in cases.iter().zip(&lent).zip(left.iter_mut()) {
                replay(case, calls, kept, left);
            }
            left.iter().map(|left| summed(&left.answers[..40], &left.media, left.entries)).sum()
        },
    );
}

/// The tests, the run and its ledger, without the copies that a comparison looks at.
fn plain_sum(case: &Case) -> u64 {
    let lengths = case.lengths();
    assert_eq!(refusal(case, &lengths), 0, "columns that are fit for the calls");
    let (run, answers) = run_of(case, &lengths);
    summed(&answers, &run.media, run.ledger().len() as u64)
}

fn summed(answers: &[u32], media: &[u8], entries: u64) -> u64 {
    let answers: u64 = answers.iter().map(|&answer| u64::from(answer)).sum();
    answers + media.iter().map(|&cell| u64::from(cell)).sum::<u64>() + entries
}

// ---- a sample: no program replays it yet

fn sample() -> String {
    let units = [8, 4, 2, 1];
    let (calls, pool) = eleven(units);
    let rows = vec![calls[0], calls[4], calls[3], calls[1], calls[6], calls[3], calls[2], calls[9]];
    let mut case = Case { units, rejected: false, armed: None, rows, pool, changes: Vec::new() };
    let mut text = String::new();
    for armed in every_cut(&case) {
        case.armed = Some(armed);
        let left = by_document(&case);
        let mut numbers = told_of(units, false, case.armed)[6..].to_vec();
        numbers.extend(&left.answers[..case.rows.len()]);
        for row in 0..left.entries as usize {
            numbers.extend([left.records[row], u32::from(left.states[row]), u32::from(left.torn[row])]);
        }
        let fields: Vec<String> = numbers.iter().map(u32::to_string).collect();
        text.push_str(&fields.join(" "));
        text.push('\n');
    }
    text
}
