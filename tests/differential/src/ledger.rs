//! The layer `ledger` against waymaker-fault's session.rs, `ledger` and `durability_of`: lists of calls and marks with at most
//! one injection armed, run through the proved session and its ledger, and through the Rust's `Harness`; where the harness gives
//! no run, because the injection never fired, through the Rust's session itself. The whole ledger is compared, entry by entry.
//!
//! The Rust has no columns, so what refuses them (7, 12, 13), and the ledger of columns that no session leaves, are held against
//! document 01's rule, written out below.
//!
//! A part of `session`, whose calls it makes.

use super::{
    Call, DEVICES, INTERRUPTIONS, Ours, PROGRESSES, number_of, progress_of, random_call, smaller_calls,
    smaller_injections, told_of, unit_number,
};
use crate::common::{self, Comparison, Difference, Input, Layer, Random, bench_row, smaller_numbers};
use std::cell::{Cell, RefCell};
use std::ops::Range;
use waymaker_fault::device::{Device, FaultError, OneWayBits};
use waymaker_fault::inject::{Injection, Op, Progress, injections};
use waymaker_fault::inside;
use waymaker_fault::model::{Durability, Ledger, RecordId};
use waymaker_fault::session::{Harness, HarnessError, Run, Session};
use waymaker_flash::storage::{Geometry, StableStorage};

#[path = "held.rs"]
pub mod held;

pub const LAYER: Layer = Layer { name: "ledger", compare, bench, sample };

// crates/ledger_exported/src/lib.rt, and the marks of crates/session_marks_exported/src/lib.rt. Nothing proves that these
// declarations are those of the files: this is what is trusted here. A slice crosses as a pointer, then a length.
#[rustfmt::skip]
unsafe extern "C" {
    fn session_begin(
        state: *mut u64, state_len: usize, id: u32, codes: *mut u8, codes_len: usize, ids: *mut u32, ids_len: usize,
        places: *mut u64, places_len: usize,
    ) -> u32;
    fn session_end(
        state: *mut u64, state_len: usize, codes: *mut u8, codes_len: usize, ids: *mut u32, ids_len: usize,
        places: *mut u64, places_len: usize,
    ) -> u32;
    fn session_mark_operations(
        state: *mut u64, state_len: usize, id: u32, from: u32, to: u32, codes: *mut u8, codes_len: usize,
        ids: *mut u32, ids_len: usize, places: *mut u64, places_len: usize,
    ) -> u32;
    fn ledger_of_run(
        told: *const u32, told_len: usize, state: *const u64, state_len: usize, media: *const u8, media_len: usize,
        copy: *const u8, copy_len: usize, kinds: *const u8, kinds_len: usize, offsets: *const u32, offsets_len: usize,
        lens: *const u32, lens_len: usize, digests: *const u64, digests_len: usize, changed: *const u8, changed_len: usize,
        answered: *const u8, answered_len: usize, codes: *const u8, codes_len: usize, names: *const u32, names_len: usize,
        places: *const u64, places_len: usize, ids: *mut u32, ids_len: usize, states: *mut u8, states_len: usize,
        torn: *mut u8, torn_len: usize, entries: *mut u64,
    ) -> u32;
}

// ---- runs

#[derive(Clone, Debug, PartialEq)]
enum Step {
    Call(Call),
    Begin(u32),
    End,
    Range(u32, u32, u32),
}

/// Four units, whether the bit rule is Rejected, the steps, what is armed, and whether a call that answers 23 is made again.
#[derive(Clone, Debug)]
struct Case {
    units: [u32; 4],
    rejected: bool,
    steps: Vec<Step>,
    armed: Option<Injection>,
    retry: bool,
}

impl Input for Case {
    fn smaller(&self) -> Vec<Self> {
        let mut found = Vec::new();
        if self.armed.is_some() {
            found.push(Self { armed: None, ..self.clone() });
        }
        if self.retry {
            found.push(Self { retry: false, ..self.clone() });
        }
        for place in 0..self.steps.len() {
            let mut less = self.clone();
            less.steps.remove(place);
            found.push(less);
        }
        for (place, step) in self.steps.iter().enumerate() {
            let steps: Vec<Step> = match step {
                Step::Call(call) => smaller_calls(call).into_iter().map(Step::Call).collect(),
                Step::Range(id, from, to) => {
                    let from = smaller_numbers(*from).into_iter().map(|from| Step::Range(*id, from, *to));
                    from.chain(smaller_numbers(*to).into_iter().map(|to| Step::Range(*id, 0, to))).collect()
                }
                Step::Begin(_) | Step::End => Vec::new(),
            };
            for step in steps {
                let mut less = self.clone();
                less.steps[place] = step;
                found.push(less);
            }
        }
        for armed in smaller_injections(self.armed) {
            found.push(Self { armed: Some(armed), ..self.clone() });
        }
        found
    }
}

/// Each step's answer, the ledger, and whether a record that changed nothing was called torn: a `Ledger` would not tell.
#[derive(PartialEq, Debug)]
struct Answer {
    answers: Vec<u32>,
    ledger: Ledger,
    attempted_torn: bool,
}

impl common::Answer for Answer {
    fn number(&self) -> u32 {
        self.answers.iter().copied().find(|&answer| answer != 0).unwrap_or(0)
    }
}

fn rust_step(session: &mut Session, step: &Step) -> u32 {
    let answer = match step {
        Step::Call(Call::Program(offset, bytes)) => session.program(*offset, bytes),
        Step::Call(Call::Erase(offset, len)) => session.erase(*offset, *len),
        Step::Call(Call::Barrier) => session.barrier(),
        Step::Call(Call::Read(offset, len)) => session.read(*offset, &mut vec![0; *len as usize]),
        Step::Begin(id) => {
            session.begin_record(RecordId(*id));
            Ok(())
        }
        Step::End => {
            session.end_record();
            Ok(())
        }
        Step::Range(id, from, to) => {
            session.mark_operations(RecordId(*id), *from as usize..*to as usize);
            Ok(())
        }
    };
    answer.map_or_else(number_of, |()| 0)
}

fn rust_steps(session: &mut Session, case: &Case) -> Vec<u32> {
    let mut answers = Vec::new();
    for step in &case.steps {
        answers.push(rust_step(session, step));
        if case.retry && answers.last() == Some(&23) {
            answers.push(rust_step(session, step));
        }
    }
    answers
}

fn geometry_of([capacity, erase, program, read]: [u32; 4]) -> Geometry {
    Geometry::new(capacity, erase, program, read).map_err(unit_number).expect("units of a device")
}

fn rust_run(case: &Case) -> (Vec<u32>, Run) {
    let geometry = geometry_of(case.units);
    let rule = if case.rejected { OneWayBits::Rejected } else { OneWayBits::Absorbed };
    let harness = Harness::with_bit_rule(geometry, rule);
    let mut answers = Vec::new();
    let writer = |session: &mut Session| -> Result<(), FaultError> {
        answers = rust_steps(session, case);
        Ok(())
    };
    let run = match case.armed {
        None => harness.run_fault_free(writer),
        Some(armed) => harness.run_one(armed, writer),
    };
    match run {
        Ok(run) => (answers, run),
        Err(HarnessError::CrashPointNeverFired { .. }) => {
            let mut session = inside::new(Device::with_bit_rule(geometry, rule), case.armed);
            let answers = rust_steps(&mut session, case);
            (answers, inside::finish(session))
        }
        Err(error) => panic!("a replayed list is the same up to the crash point, but: {error}"),
    }
}

fn rust(case: &Case) -> Answer {
    let (answers, run) = rust_run(case);
    Answer { answers, ledger: run.ledger().clone(), attempted_torn: false }
}

/// What the caller of the proved functions keeps: the session's, the marks, and the ledger's columns.
struct Kept {
    session: Ours,
    codes: Vec<u8>,
    names: Vec<u32>,
    places: Vec<u64>,
    ids: Vec<u32>,
    states: Vec<u8>,
    torn: Vec<u8>,
}

// SAFETY, here and below: each pointer and length are those of a slice that nothing else uses during the call.
#[rustfmt::skip]
impl Kept {
    fn start(told: [u32; 10]) -> Self {
        let (start, session) = Ours::start(told);
        assert_eq!(start, 0, "units of a device");
        Self {
            session,
            codes: vec![0; 512], names: vec![0; 512], places: vec![0; 512],
            ids: vec![0; 512], states: vec![0; 512], torn: vec![0; 512],
        }
    }

    fn begin(&mut self, id: u32) -> u32 {
        let Self { session: Ours { state, .. }, codes, names, places, .. } = self;
        unsafe {
            session_begin(
                state.as_mut_ptr(), state.len(), id, codes.as_mut_ptr(), codes.len(), names.as_mut_ptr(), names.len(),
                places.as_mut_ptr(), places.len(),
            )
        }
    }

    fn end(&mut self) -> u32 {
        let Self { session: Ours { state, .. }, codes, names, places, .. } = self;
        unsafe {
            session_end(
                state.as_mut_ptr(), state.len(), codes.as_mut_ptr(), codes.len(), names.as_mut_ptr(), names.len(),
                places.as_mut_ptr(), places.len(),
            )
        }
    }

    fn range(&mut self, id: u32, from: u32, to: u32) -> u32 {
        let Self { session: Ours { state, .. }, codes, names, places, .. } = self;
        unsafe {
            session_mark_operations(
                state.as_mut_ptr(), state.len(), id, from, to, codes.as_mut_ptr(), codes.len(),
                names.as_mut_ptr(), names.len(), places.as_mut_ptr(), places.len(),
            )
        }
    }

    /// The number that refuses the ledger, and how many entries it has.
    fn ledger(&mut self) -> (u32, u64) {
        let Self { session, codes, names, places, ids, states, torn } = self;
        let Ours { told, state, media, copy, kinds, offsets, lens, digests, changed, answered, .. } = session;
        let mut entries = u64::MAX;
        let number = unsafe {
            ledger_of_run(
                told.as_ptr(), told.len(), state.as_ptr(), state.len(), media.as_ptr(), media.len(),
                copy.as_ptr(), copy.len(), kinds.as_ptr(), kinds.len(), offsets.as_ptr(), offsets.len(),
                lens.as_ptr(), lens.len(), digests.as_ptr(), digests.len(), changed.as_ptr(), changed.len(),
                answered.as_ptr(), answered.len(), codes.as_ptr(), codes.len(), names.as_ptr(), names.len(),
                places.as_ptr(), places.len(), ids.as_mut_ptr(), ids.len(), states.as_mut_ptr(), states.len(),
                torn.as_mut_ptr(), torn.len(), &mut entries,
            )
        };
        (number, entries)
    }
}

impl Kept {
    fn step(&mut self, step: &Step) -> u32 {
        match step {
            Step::Call(Call::Program(offset, bytes)) => self.session.program(*offset, bytes),
            Step::Call(Call::Erase(offset, len)) => self.session.erase(*offset, *len),
            Step::Call(Call::Barrier) => self.session.barrier(),
            Step::Call(Call::Read(offset, len)) => self.session.read(*offset, &mut vec![0; *len as usize]),
            Step::Begin(id) => self.begin(*id),
            Step::End => self.end(),
            Step::Range(id, from, to) => self.range(*id, *from, *to),
        }
    }
}

fn state_of(code: u8) -> Durability {
    match code {
        0 => Durability::Attempted,
        1 => Durability::PossiblyDurable,
        2 => Durability::Acknowledged,
        _ => panic!("a state above 2: {code}"),
    }
}

fn ours(case: &Case) -> Answer {
    let mut kept = Kept::start(told_of(case.units, case.rejected, case.armed));
    let mut answers = Vec::new();
    for step in &case.steps {
        answers.push(kept.step(step));
        if case.retry && answers.last() == Some(&23) {
            answers.push(kept.step(step));
        }
    }
    let (number, entries) = kept.ledger();
    assert_eq!(number, 0, "columns that the session left");
    let rows = 0..entries as usize;
    let attempted_torn = rows.clone().any(|i| kept.states[i] == 0 && kept.torn[i] != 0);
    let rows = rows.map(|i| (RecordId(kept.ids[i]), state_of(kept.states[i]), kept.torn[i] == 1));
    Answer { answers, ledger: Ledger::new(rows.collect()), attempted_torn }
}

// ---- inputs

/// The crash points that the Rust lists for the run without a fault.
fn listed(case: &Case) -> Vec<Injection> {
    let (_, run) = rust_run(&Case { armed: None, ..case.clone() });
    let ops: Vec<Op> = run.ops().to_vec();
    injections(&ops, geometry_of(case.units))
}

/// Those built by hand: every index up to one past the end of the list, and one far away.
fn hand_built(case: &Case) -> Vec<Injection> {
    let mut found = Vec::new();
    for op in (0..case.steps.len() + 2).chain([1_000_000]) {
        for progress in PROGRESSES {
            for interruption in INTERRUPTIONS {
                found.push(Injection { op, progress, interruption });
            }
        }
    }
    found
}

/// How often the Rust's ledgers had a record of each kind.
#[derive(Default)]
struct Seen {
    attempted: Cell<u64>,
    possibly_durable: Cell<u64>,
    torn: Cell<u64>,
    acknowledged: Cell<u64>,
}

impl Seen {
    fn count(&self, ledger: &Ledger) {
        for (id, state) in ledger.records() {
            let cell = match state {
                Durability::Attempted => &self.attempted,
                Durability::PossiblyDurable if ledger.torn(id) == Some(true) => &self.torn,
                Durability::PossiblyDurable => &self.possibly_durable,
                Durability::Acknowledged => &self.acknowledged,
            };
            cell.set(cell.get() + 1);
        }
    }

    /// A comparison that met no record of some kind has shown nothing of it.
    fn all_kinds(&self) -> Result<(), Difference> {
        let kinds = [&self.attempted, &self.possibly_durable, &self.torn, &self.acknowledged].map(Cell::get);
        println!(
            "  records attempted {}, possibly durable {}, torn {}, acknowledged {}",
            kinds[0], kinds[1], kinds[2], kinds[3]
        );
        if kinds.contains(&0) {
            return Err(Difference(String::from("no record of some kind was met")));
        }
        Ok(())
    }
}

fn compare(comparison: &mut Comparison) -> Result<(), Difference> {
    let seen = Seen::default();
    let counted = |case: &Case| {
        let answer = rust(case);
        seen.count(&answer.ledger);
        answer
    };
    short(comparison, &counted)?;
    // An input takes some microseconds here.
    for _ in 0..comparison.size / 4 {
        let case = random_case(&mut comparison.random);
        comparison.same(&case, &counted, ours)?;
    }
    full(comparison)?;
    let by_hand = SeenByHand::default();
    for _ in 0..comparison.size / 4 {
        let lent = random_columns(&mut comparison.random);
        by_hand.count(&lent, &by_document(&lent));
        comparison.same(&lent, by_document, from_columns)?;
    }
    by_hand.all_kinds()?;
    seen.all_kinds()
}

/// Every list of up to `longest` of these steps.
fn lists(longest: usize) -> Vec<Vec<Step>> {
    let steps = [
        Step::Begin(1),
        Step::Begin(2),
        Step::End,
        Step::Range(3, 0, 1),
        Step::Range(4, 1, 0),
        Step::Call(Call::Barrier),
        Step::Call(Call::Program(0, vec![0x00, 0x00, 0xFF, 0xFF])),
        Step::Call(Call::Program(0, vec![0x00, 0xF0])),
        Step::Call(Call::Program(2, vec![])),
        Step::Call(Call::Erase(0, 8)),
    ];
    let mut lists: Vec<Vec<Step>> = vec![Vec::new()];
    let mut from = 0;
    for _ in 0..longest {
        let end = lists.len();
        for place in from..end {
            for step in &steps {
                let mut list = lists[place].clone();
                list.push(step.clone());
                lists.push(list);
            }
        }
        from = end;
    }
    lists
}

/// Every list of up to four steps, without a fault and with every crash point that the Rust lists for it, with and without a
/// retry; with those built by hand up to three steps.
fn short(comparison: &mut Comparison, rust: &impl Fn(&Case) -> Answer) -> Result<(), Difference> {
    for list in lists(4) {
        let case = Case { units: [8, 4, 2, 1], rejected: false, steps: list, armed: None, retry: false };
        comparison.same(&case, rust, ours)?;
        let mut points = listed(&case);
        if case.steps.len() < 4 {
            points.extend(hand_built(&case));
        }
        for armed in points {
            for retry in [false, true] {
                comparison.same(&Case { armed: Some(armed), retry, ..case.clone() }, rust, ours)?;
            }
        }
    }
    Ok(())
}

fn random_case(random: &mut Random) -> Case {
    let units = random.pick(&DEVICES);
    let steps = (0..random.below(16))
        .map(|place| match random.below(10) {
            0..3 => Step::Begin(if random.below(8) == 0 { 1 } else { place }),
            3 => Step::End,
            4 => Step::Range(100 + place, random.below(12), random.below(14)),
            _ => Step::Call(random_call(random, units)),
        })
        .collect();
    let mut case = Case { units, rejected: random.below(2) == 1, steps, armed: None, retry: random.below(2) == 1 };
    let points = match random.below(8) {
        0 => return case,
        1 | 2 => hand_built(&case),
        _ => listed(&case),
    };
    case.armed = Some(random.pick(&points));
    case
}

/// A session filled to its limits: 1,024 operations and 512 marks.
fn full(comparison: &mut Comparison) -> Result<(), Difference> {
    for armed in [None, Some(5), Some(1023)] {
        let armed = armed.map(|op| Injection { op, progress: Progress::Bytes(1), interruption: INTERRUPTIONS[2] });
        let case = Case { units: [2048, 4, 2, 1], rejected: false, steps: full_steps(true), armed, retry: false };
        comparison.same(&case, rust, ours)?;
    }
    Ok(())
}

/// 511 records of a program and an operation more, then an end and two operations.
fn full_steps(barriers: bool) -> Vec<Step> {
    let program = |place: u32| Step::Call(Call::Program(place * 2 % 2048, vec![0x5A, 0xA5]));
    let mut steps = Vec::new();
    for record in 0..511 {
        steps.push(Step::Begin(record));
        steps.push(program(record * 2));
        steps.push(if barriers { Step::Call(Call::Barrier) } else { program(record * 2 + 1) });
    }
    steps.extend([Step::End, program(1022), Step::Call(Call::Barrier)]);
    steps
}

// ---- columns that are lent by hand

/// Columns as anyone could lend them. Lengths: media and copy, then the log's six, the marks' three and the ledger's three.
#[derive(Clone, Debug)]
struct Lent {
    capacity: u32,
    lengths: [usize; 14],
    state: [u64; 6],
    armed: Option<u32>,
    media: Vec<u8>,
    copy: Vec<u8>,
    kinds: Vec<u8>,
    changed: Vec<u8>,
    answered: Vec<u8>,
    codes: Vec<u8>,
    places: Vec<u64>,
}

impl Input for Lent {
    fn smaller(&self) -> Vec<Self> {
        let mut found = Vec::new();
        if self.armed.is_some() {
            found.push(Self { armed: None, ..self.clone() });
        }
        for place in 0..2 {
            for count in smaller_numbers(self.state[place] as u32) {
                let mut less = self.clone();
                less.state[place] = u64::from(count);
                found.push(less);
            }
        }
        found
    }
}

/// The number, the entries, and the three columns, which a refusal leaves.
#[derive(PartialEq, Debug)]
struct Left {
    number: u32,
    entries: u64,
    ids: Vec<u32>,
    states: Vec<u8>,
    torn: Vec<u8>,
}

impl common::Answer for Left {
    fn number(&self) -> u32 {
        self.number
    }
}

/// What stands in the ledger's columns before.
const OLD: u8 = 0xA5;

/// The first `len` of these, and 0 past them.
fn column<T: Copy + Default>(of: &[T], len: usize) -> Vec<T> {
    (0..len).map(|i| of.get(i).copied().unwrap_or_default()).collect()
}

fn from_columns(lent: &Lent) -> Left {
    let [media, copy, kinds, offsets, lens, digests, changed, answered, codes, names, places, ids, states, torn] =
        lent.lengths;
    let mut told = told_of([lent.capacity, 1, 1, 1], false, None);
    if let Some(op) = lent.armed {
        told[5..].copy_from_slice(&[1, op, 0, 0, 0]);
    }
    let (_, mut session) = Ours::start(told_of([4, 4, 1, 1], false, None));
    session.told = told;
    session.state = lent.state;
    session.media = column(&lent.media, media);
    session.copy = column(&lent.copy, copy);
    session.kinds = column(&lent.kinds, kinds);
    session.offsets = vec![0; offsets];
    session.lens = vec![0; lens];
    session.digests = vec![0; digests];
    session.changed = column(&lent.changed, changed);
    session.answered = column(&lent.answered, answered);
    let mut kept = Kept {
        session,
        codes: column(&lent.codes, codes),
        names: (0..names as u32).collect(),
        places: column(&lent.places, places),
        ids: vec![u32::from(OLD); ids],
        states: vec![OLD; states],
        torn: vec![OLD; torn],
    };
    let (number, entries) = kept.ledger();
    Left { number, entries, ids: kept.ids, states: kept.states, torn: kept.torn }
}

/// Document 01's tests of the same columns, but for the room that the result needs: 7, 12, 13.
fn test_by_document(lent: &Lent) -> u32 {
    let [media, copy, kinds, offsets, lens, digests, changed, answered, codes, names, places, ids, states, torn] =
        lent.lengths;
    let (operations, marks) = (lent.state[0] as usize, lent.state[1] as usize);
    let above = |of: &[u8], len, count, top| column(of, len).iter().take(count).any(|&code| code > top);
    if media != lent.capacity as usize || copy != lent.capacity as usize {
        return 7;
    }
    if [offsets, lens, digests, changed, answered].iter().any(|&len| len != kinds)
        || [names, places].iter().any(|&len| len != codes)
        || [states, torn].iter().any(|&len| len != ids)
    {
        return 12;
    }
    if above(&lent.kinds, kinds, operations, 2)
        || above(&lent.changed, changed, operations, 1)
        || above(&lent.answered, answered, operations, 1)
        || above(&lent.codes, codes, marks, 1)
    {
        return 12;
    }
    if kinds < 1024 || codes < 512 || kinds < operations || codes < marks { 13 } else { 0 }
}

/// A cell of a column, 0 past what it begins with.
fn cell(of: &[u8], place: u64) -> u8 {
    of.get(place as usize).copied().unwrap_or(0)
}

/// "A record runs from its mark to the next, or to the last operation. If the next mark stands earlier, the record is empty."
fn record_of(lent: &Lent, mark: usize) -> Range<u64> {
    let (operations, marks) = (lent.state[0], lent.state[1] as usize);
    let place_of = |mark: usize| lent.places.get(mark).copied().unwrap_or(0);
    let to = if mark + 1 < marks { place_of(mark + 1) } else { operations };
    place_of(mark)..to.min(operations)
}

/// Whether one of these operations is a barrier that answered 0.
fn acknowledges(lent: &Lent, mut operations: Range<u64>) -> bool {
    operations.any(|i| cell(&lent.kinds, i) == 2 && cell(&lent.answered, i) == 1)
}

/// Document 01's records of columns that pass: id, state and torn of each.
fn records_by_document(lent: &Lent) -> Vec<(u32, u8, u8)> {
    let (operations, marks) = (lent.state[0], lent.state[1] as usize);
    let (place, withheld, end) = (lent.state[4], lent.state[5], u64::from(lent.capacity));
    let outstanding = (place..end.min(place + withheld)).any(|i| cell(&lent.media, i) != cell(&lent.copy, i));
    let mut rows = Vec::new();
    for mark in (0..marks).filter(|&mark| cell(&lent.codes, mark as u64) == 1) {
        let own = || record_of(lent, mark);
        let missing = outstanding && own().any(|i| lent.armed.map(u64::from) == Some(i));
        let last_write = own().rfind(|&i| cell(&lent.kinds, i) != 2);
        let (state, torn) = if !own().any(|i| cell(&lent.changed, i) == 1) {
            // "Attempted if nothing in the record changed a cell;"
            (0, 0)
        } else if missing {
            // "else possibly durable and torn if something is withheld;"
            (1, 1)
        } else if last_write.is_some_and(|last| acknowledges(lent, last + 1..operations)) {
            // "else acknowledged if a barrier that answered 0 follows its last program or erase;"
            (2, 0)
        } else {
            // "else possibly durable": also where there is no program or erase, whatever follows.
            (1, 0)
        };
        rows.push((mark as u32, state, torn));
    }
    rows
}

/// How often columns lent by hand had a record of barriers alone that is said to have changed a cell, with and without a barrier
/// that answered 0 in it or behind it. No session leaves such a record.
#[derive(Default)]
struct SeenByHand {
    followed: Cell<u64>,
    alone: Cell<u64>,
}

impl SeenByHand {
    fn count(&self, lent: &Lent, left: &Left) {
        let entries = if left.number == 0 { left.entries as usize } else { 0 };
        for row in (0..entries).filter(|&row| (left.states[row], left.torn[row]) == (1, 0)) {
            let mut own = record_of(lent, left.ids[row] as usize);
            let followed = acknowledges(lent, own.start..lent.state[0]);
            if own.all(|i| cell(&lent.kinds, i) == 2) {
                let counted = if followed { &self.followed } else { &self.alone };
                counted.set(counted.get() + 1);
            }
        }
    }

    fn all_kinds(&self) -> Result<(), Difference> {
        let [followed, alone] = [&self.followed, &self.alone].map(Cell::get);
        println!("  records of changed barriers alone: {followed} with one that answered 0, {alone} without");
        if followed == 0 || alone == 0 {
            return Err(Difference(String::from("no record of changed barriers alone was met")));
        }
        Ok(())
    }
}

/// What document 01 says that these columns leave.
fn by_document(lent: &Lent) -> Left {
    let [.., ids, states, torn] = lent.lengths;
    let mut left = Left {
        number: test_by_document(lent),
        entries: u64::MAX,
        ids: vec![u32::from(OLD); ids],
        states: vec![OLD; states],
        torn: vec![OLD; torn],
    };
    if left.number != 0 {
        return left;
    }
    let rows = records_by_document(lent);
    if rows.len() > ids {
        left.number = 13;
        return left;
    }
    left.entries = rows.len() as u64;
    for (i, (id, state, torn)) in rows.into_iter().enumerate() {
        (left.ids[i], left.states[i], left.torn[i]) = (id, state, torn);
    }
    left
}

fn random_columns(random: &mut Random) -> Lent {
    let capacity = random.below(9);
    let (log, marks) = (1024, 512);
    let ids = random.pick(&[0, 1, 3, 6, 512]);
    let size = capacity as usize;
    let mut lengths = [size, size, log, log, log, log, log, log, marks, marks, marks, ids, ids, ids];
    match random.below(8) {
        0 => lengths[random.below(14) as usize] += 1,
        1 => {
            let place = random.below(14) as usize;
            lengths[place] = lengths[place].saturating_sub(1);
        }
        2 => lengths[2..8].fill(random.pick(&[0, 4, 1023, 1025])),
        3 => lengths[8..11].fill(random.pick(&[0, 3, 511, 513])),
        _ => {}
    }
    let operations = if random.below(16) == 0 { random.pick(&[1024, 1025, 5000]) } else { u64::from(random.below(9)) };
    let counted = if random.below(16) == 0 { random.pick(&[512, 513, 5000]) } else { u64::from(random.below(7)) };
    let code = |random: &mut Random, top: u8| {
        if random.below(64) == 0 { top + 1 } else { random.below(u32::from(top) + 1) as u8 }
    };
    // Now and then barriers alone, which are said to have changed a cell as often as not.
    let barriers = random.below(4) == 0;
    Lent {
        capacity,
        lengths,
        state: [
            operations,
            counted,
            0,
            1,
            u64::from(random.below(11)),
            u64::from(random.pick(&[0, 1, 2, 5, u32::MAX])),
        ],
        armed: (random.below(4) != 0).then(|| random.below(10)),
        media: (0..10).map(|_| random.below(2) as u8).collect(),
        copy: (0..10).map(|_| random.below(2) as u8).collect(),
        kinds: (0..12).map(|_| if barriers { 2 } else { code(random, 2) }).collect(),
        changed: (0..12).map(|_| code(random, 1)).collect(),
        answered: (0..12).map(|_| code(random, 1)).collect(),
        codes: (0..8).map(|_| code(random, 1)).collect(),
        places: (0..8)
            .map(|_| if random.below(16) == 0 { u64::MAX - 1 } else { u64::from(random.below(11)) })
            .collect(),
    }
}

// ---- times

/// How many ledgers are derived at a time.
const LEDGERS: usize = 64;

fn bench(_: &mut Random) {
    bench_full("511 records with a barrier each", true);
    bench_full("511 records, one barrier behind all", false);
}

/// Both sides derive the ledger of one run. The Rust's comes with the run, which its session turns into: the sessions are made
/// before the time is taken, and the runs are kept until after it.
fn bench_full(what: &str, barriers: bool) {
    let case = Case { units: [2048, 4, 2, 1], rejected: false, steps: full_steps(barriers), armed: None, retry: false };
    let mut session = inside::new(Device::with_bit_rule(geometry_of(case.units), OneWayBits::Absorbed), None);
    rust_steps(&mut session, &case);
    let mut kept = Kept::start(told_of(case.units, false, None));
    for step in &case.steps {
        assert_eq!(kept.step(step), 0, "within the limits");
    }
    let sessions = RefCell::new(vec![session; LEDGERS * 12]);
    let runs = RefCell::new(Vec::with_capacity(LEDGERS * 12));
    let kept = RefCell::new(kept);
    bench_row(
        &format!("ledger: {what}"),
        LEDGERS,
        || {
            let mut sum = 0;
            for _ in 0..LEDGERS {
                let run = inside::finish(sessions.borrow_mut().pop().expect("enough sessions"));
                sum += run.ledger().len() as u64;
                runs.borrow_mut().push(run);
            }
            sum
        },
        || {
            let mut kept = kept.borrow_mut();
            (0..LEDGERS).map(|_| kept.ledger().1).sum()
        },
    );
}

// ---- the sample that crates/session_cases replays from its line 109 on: the same steps and the same order as in its src/main.rt

const SAMPLE_PROGRESSES: [(u32, u32); 6] = [(0, 0), (1, 0), (1, 1), (1, 2), (1, 9), (2, 0)];

fn sample() -> String {
    let mut text = String::new();
    for place in 0..7 * 3 * 6 {
        let (op, cause, (kind, count)) = (place / 18, place / 6 % 3, SAMPLE_PROGRESSES[place % 6]);
        let progress = progress_of(kind, count);
        let case = Case {
            units: [16, 8, 4, 4],
            rejected: false,
            steps: vec![
                Step::Begin(7),
                Step::Call(Call::Program(0, vec![0x00, 0x00, 0xFF, 0xFF])),
                Step::Call(Call::Barrier),
                Step::Begin(8),
                Step::Call(Call::Program(4, vec![0; 4])),
                Step::Call(Call::Program(8, vec![])),
                Step::Call(Call::Barrier),
                Step::End,
                Step::Call(Call::Erase(0, 8)),
                Step::Range(9, 2, 4),
            ],
            armed: Some(Injection { op, progress, interruption: INTERRUPTIONS[cause] }),
            retry: false,
        };
        let (answers, run) = rust_run(&case);
        let mut numbers = vec![op as u32, cause as u32, kind, count];
        numbers.extend(answers);
        for (id, state) in run.ledger().records() {
            let state = [Durability::Attempted, Durability::PossiblyDurable, Durability::Acknowledged]
                .iter()
                .position(|s| *s == state);
            numbers.extend([id.0, state.expect("one of three") as u32, u32::from(run.ledger().torn(id) == Some(true))]);
        }
        let fields: Vec<String> = numbers.iter().map(u32::to_string).collect();
        text.push_str(&fields.join(" "));
        text.push('\n');
    }
    text
}
