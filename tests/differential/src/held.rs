//! The layer `held` against waymaker-fault's session.rs, `injected` of `Harness`: a list of steps is run twice through the proved
//! session, without a fault and with an injection armed, and `held_to` says what is given: the run, the fault-free run
//! relabelled, or 25 or 26. The Rust's side is `Harness::run_one`. A writer that carries on and makes the same calls each time is
//! not answered 26, and one that stops at an error only for a range that it no longer marks; so most writers here do something
//! else where an injection is armed.
//!
//! The Rust has no columns, so what refuses them (12, 13), and columns that no session leaves, are held against document 01's
//! rule, written out below.
//!
//! A part of `ledger`, whose steps it makes.

use super::{
    Case as List, Kept, Step, column, geometry_of, hand_built, listed, lists, random_case, rust_step, state_of,
};
use crate::common::{self, Comparison, Difference, Input, Layer, Random, bench_row, smaller_numbers};
use crate::session::{Call, INTERRUPTIONS, Ours, PROGRESSES, random_call, row_of, smaller_calls, told_of};
use std::cell::Cell;
use waymaker_fault::device::OneWayBits;
use waymaker_fault::inject::{Injection, Interruption, Progress};
use waymaker_fault::model::{Ledger, RecordId};
use waymaker_fault::session::{Harness, HarnessError, Session};

pub const LAYER: Layer = Layer { name: "held", compare, bench, sample };

// crates/held_exported/src/lib.rt. Nothing proves that this declaration is that of the file: this is what is trusted here. A
// slice crosses as a pointer, then a length.
#[rustfmt::skip]
unsafe extern "C" {
    fn held_of_runs(
        op: u64, kind: u32, count: u32, cause: u32,
        free_state: *const u64, free_state_len: usize, free_kinds: *const u8, free_kinds_len: usize,
        free_offsets: *const u32, free_offsets_len: usize, free_lens: *const u32, free_lens_len: usize,
        free_digests: *const u64, free_digests_len: usize, free_codes: *const u8, free_codes_len: usize,
        free_ids: *const u32, free_ids_len: usize, free_places: *const u64, free_places_len: usize,
        state: *const u64, state_len: usize, kinds: *const u8, kinds_len: usize,
        offsets: *const u32, offsets_len: usize, lens: *const u32, lens_len: usize,
        digests: *const u64, digests_len: usize, codes: *const u8, codes_len: usize,
        ids: *const u32, ids_len: usize, places: *const u64, places_len: usize,
    ) -> u64;
}

/// What `held_of_runs` returns for the fault-free run relabelled.
const RELABELLED: u64 = 1 << 32;

/// Asks the proved function: 0 for the run, `RELABELLED`, or the number that refuses it.
#[rustfmt::skip]
fn held_to(injection: Injection, free: &Kept, run: &Kept) -> u64 {
    let [_, kind, count, cause] = told_of([0; 4], false, Some(Injection { op: 0, ..injection }))[6..] else {
        panic!("an injection has four codes")
    };
    let (f, r) = (&free.session, &run.session);
    // SAFETY: each pointer and length are those of a slice, which is only read.
    unsafe {
        held_of_runs(
            injection.op as u64, kind, count, cause,
            f.state.as_ptr(), f.state.len(), f.kinds.as_ptr(), f.kinds.len(),
            f.offsets.as_ptr(), f.offsets.len(), f.lens.as_ptr(), f.lens.len(),
            f.digests.as_ptr(), f.digests.len(), free.codes.as_ptr(), free.codes.len(),
            free.names.as_ptr(), free.names.len(), free.places.as_ptr(), free.places.len(),
            r.state.as_ptr(), r.state.len(), r.kinds.as_ptr(), r.kinds.len(),
            r.offsets.as_ptr(), r.offsets.len(), r.lens.as_ptr(), r.lens.len(),
            r.digests.as_ptr(), r.digests.len(), run.codes.as_ptr(), run.codes.len(),
            run.names.as_ptr(), run.names.len(), run.places.as_ptr(), run.places.len(),
        )
    }
}

// ---- runs

/// What a writer does otherwise where an injection is armed.
#[derive(Clone, Debug, PartialEq)]
enum Reaction {
    Nothing,
    /// It stops at its first error.
    Stops,
    /// It leaves a step out.
    Without(usize),
    /// It does another step in place of one.
    Instead(usize, Step),
    /// It does one step more, before one or behind the last.
    Before(usize, Step),
}

impl Reaction {
    /// The steps of a writer that reacts.
    fn to(&self, steps: &[Step]) -> Vec<Step> {
        let mut done = steps.to_vec();
        match self {
            Self::Without(place) if *place < done.len() => drop(done.remove(*place)),
            Self::Instead(place, step) if *place < done.len() => done[*place] = step.clone(),
            Self::Before(place, step) => done.insert((*place).min(steps.len()), step.clone()),
            _ => {}
        }
        done
    }

    /// The same at the place before.
    fn earlier(&self) -> Option<Self> {
        match self {
            Self::Nothing | Self::Stops => None,
            Self::Without(place) => Some(Self::Without(place.checked_sub(1)?)),
            Self::Instead(place, step) => Some(Self::Instead(place.checked_sub(1)?, step.clone())),
            Self::Before(place, step) => Some(Self::Before(place.checked_sub(1)?, step.clone())),
        }
    }

    fn smaller(&self) -> Vec<Self> {
        let mut found = Vec::new();
        if *self != Self::Nothing {
            found.push(Self::Nothing);
        }
        found.extend(self.earlier());
        match self {
            Self::Instead(place, Step::Call(call)) => {
                found.extend(smaller_calls(call).into_iter().map(|call| Self::Instead(*place, Step::Call(call))));
            }
            Self::Before(place, Step::Call(call)) => {
                found.extend(smaller_calls(call).into_iter().map(|call| Self::Before(*place, Step::Call(call))));
            }
            _ => {}
        }
        found
    }
}

/// A list of steps with an injection, as `ledger` has it, and what its writer does where the injection is armed.
#[derive(Clone, Debug)]
struct Case {
    list: List,
    reaction: Reaction,
}

impl Case {
    fn injection(&self) -> Injection {
        self.list.armed.expect("a run that is held to another has an injection")
    }

    /// The writer, which is the same for both sides: the error that it stops at, if it does.
    fn write(&self, armed: bool, mut call: impl FnMut(&Step) -> u32) -> Result<(), u32> {
        let steps = if armed { self.reaction.to(&self.list.steps) } else { self.list.steps.clone() };
        for step in &steps {
            let mut answer = call(step);
            if self.list.retry && answer == 23 {
                answer = call(step);
            }
            if armed && answer != 0 && self.reaction == Reaction::Stops {
                return Err(answer);
            }
        }
        Ok(())
    }
}

impl Input for Case {
    fn smaller(&self) -> Vec<Self> {
        let mut found: Vec<Self> =
            self.reaction.smaller().into_iter().map(|reaction| Self { reaction, ..self.clone() }).collect();
        for list in self.list.smaller().into_iter().filter(|list| list.armed.is_some()) {
            // Where a step before it is left out, what the writer does otherwise is one place earlier.
            if list.steps.len() < self.list.steps.len() {
                found.extend(self.reaction.earlier().map(|reaction| Self { list: list.clone(), reaction }));
            }
            found.push(Self { list, reaction: self.reaction.clone() });
        }
        found
    }
}

/// A run that is given, with the injection that it is labelled with.
#[derive(PartialEq, Debug)]
struct Given {
    relabelled: bool,
    injection: Option<Injection>,
    image: Vec<u8>,
    ops: Vec<(u8, u32, u32)>,
    ledger: Ledger,
}

/// The run, or the number that refuses it.
#[derive(PartialEq, Debug)]
struct Answer(Result<Given, u32>);

impl common::Answer for Answer {
    fn number(&self) -> u32 {
        self.0.as_ref().err().copied().unwrap_or(0)
    }
}

fn rust(case: &Case) -> Answer {
    let rule = if case.list.rejected { OneWayBits::Rejected } else { OneWayBits::Absorbed };
    let harness = Harness::with_bit_rule(geometry_of(case.list.units), rule);
    let mut runs = 0;
    let writer = |session: &mut Session| -> Result<(), u32> {
        runs += 1;
        let armed = session.injection().is_some();
        assert_eq!(armed, runs == 2, "the first run is the fault-free one, and there are at most two");
        case.write(armed, |step| rust_step(session, step))
    };
    match harness.run_one(case.injection(), writer) {
        Ok(run) => Answer(Ok(Given {
            // The Rust does not tell, but it then takes the fault-free run and asks the writer for no other.
            relabelled: runs == 1,
            injection: run.injection(),
            image: run.image().to_vec(),
            ops: run.ops().iter().copied().map(row_of).collect(),
            ledger: run.ledger().clone(),
        })),
        Err(HarnessError::CrashPointNeverFired { injection }) if injection == case.injection() => Answer(Err(25)),
        Err(HarnessError::WriterIsNotDeterministic { injection }) if injection == case.injection() => Answer(Err(26)),
        Err(error) => panic!("the fault-free writer returns no error, and a refusal names its injection, but: {error}"),
    }
}

fn run_of(case: &Case, armed: Option<Injection>) -> Kept {
    let mut kept = Kept::start(told_of(case.list.units, case.list.rejected, armed));
    // As in the Rust, an error that the writer returns where an injection is armed is let go.
    let _ = case.write(armed.is_some(), |step| kept.step(step));
    kept
}

/// The run that a session left, labelled with the injection.
fn given_of(mut kept: Kept, relabelled: bool, injection: Injection) -> Given {
    let (number, entries) = kept.ledger();
    assert_eq!(number, 0, "columns that the session left");
    let rows =
        (0..entries as usize).map(|i| (RecordId(kept.ids[i]), state_of(kept.states[i]), kept.torn[i] == 1)).collect();
    let Ours { state, media, kinds, offsets, lens, .. } = kept.session;
    let ops = (0..state[0] as usize).map(|i| (kinds[i], offsets[i], lens[i])).collect();
    Given { relabelled, injection: Some(injection), image: media, ops, ledger: Ledger::new(rows) }
}

fn ours(case: &Case, seen: &Seen) -> Answer {
    let injection = case.injection();
    let mut free = run_of(case, None);
    let mut run = run_of(case, Some(injection));
    let held = held_to(injection, &free, &run);
    seen.count(injection, held, &mut free, &mut run);
    Answer(match held {
        0 => Ok(given_of(run, false, injection)),
        RELABELLED => Ok(given_of(free, true, injection)),
        number => Err(u32::try_from(number).expect("a number that refuses is a u32")),
    })
}

// ---- what came up

/// How often each answer came up, and of what kind.
#[derive(Default)]
struct Seen {
    given: Cell<u64>,
    /// Given although the injection never fired: the one before everything, where there is no operation.
    unfired: Cell<u64>,
    relabelled: Cell<u64>,
    never_fired: Cell<u64>,
    /// 26 where only the bytes differ, where only the marks do, and any other.
    by_bytes: Cell<u64>,
    by_marks: Cell<u64>,
    by_operations: Cell<u64>,
}

impl Seen {
    /// Counts an answer. Two runs that differ are asked about again without their marks and without their digests, so that
    /// nothing is left of them to give.
    fn count(&self, injection: Injection, held: u64, free: &mut Kept, run: &mut Kept) {
        let cell = match held {
            0 if run.session.state[3] == 0 => &self.unfired,
            0 => &self.given,
            RELABELLED => &self.relabelled,
            25 => &self.never_fired,
            _ => {
                let marks = [free.session.state[1], run.session.state[1]];
                (free.session.state[1], run.session.state[1]) = (0, 0);
                let marks_alone = held_to(injection, free, run) == 0;
                [free.session.state[1], run.session.state[1]] = marks;
                free.session.digests.fill(0);
                run.session.digests.fill(0);
                if marks_alone {
                    &self.by_marks
                } else if held_to(injection, free, run) == 0 {
                    &self.by_bytes
                } else {
                    &self.by_operations
                }
            }
        };
        cell.set(cell.get() + 1);
    }

    /// A comparison that met no answer of some kind has shown nothing of it.
    fn all_kinds(&self) -> Result<(), Difference> {
        let [given, unfired, relabelled, never, bytes, marks, operations] = [
            &self.given,
            &self.unfired,
            &self.relabelled,
            &self.never_fired,
            &self.by_bytes,
            &self.by_marks,
            &self.by_operations,
        ]
        .map(Cell::get);
        println!(
            "  runs given {given}, given before everything {unfired}, relabelled {relabelled}; 25 {never}; \
             26 by bytes alone {bytes}, by marks alone {marks}, else {operations}"
        );
        if [given, unfired, relabelled, never, bytes, marks, operations].contains(&0) {
            return Err(Difference(String::from("no answer of some kind was met")));
        }
        Ok(())
    }
}

// ---- inputs

/// A step that a writer could do in place of this one: of a program the bytes change, of a mark its id.
fn other(step: &Step) -> Step {
    match step {
        Step::Call(Call::Program(offset, bytes)) if !bytes.is_empty() => {
            let mut bytes = bytes.clone();
            bytes[0] ^= 1;
            Step::Call(Call::Program(*offset, bytes))
        }
        Step::Call(Call::Erase(offset, len)) if *len > 0 => Step::Call(Call::Erase(*offset, 0)),
        Step::Call(Call::Barrier) => Step::Call(Call::Program(0, Vec::new())),
        Step::Call(_) => Step::Call(Call::Barrier),
        Step::Begin(id) => Step::Begin(id + 1),
        Step::End => Step::Begin(0),
        Step::Range(id, from, to) => Step::Range(*id, *from, to + 1),
    }
}

/// What a writer of these steps could do otherwise.
fn reactions(steps: &[Step]) -> Vec<Reaction> {
    let mut found = vec![Reaction::Nothing, Reaction::Stops];
    for (place, step) in steps.iter().enumerate() {
        found.push(Reaction::Without(place));
        found.push(Reaction::Instead(place, other(step)));
    }
    for place in 0..=steps.len() {
        for step in [Step::Begin(9), Step::End, Step::Call(Call::Barrier)] {
            found.push(Reaction::Before(place, step));
        }
    }
    found
}

fn compare(comparison: &mut Comparison) -> Result<(), Difference> {
    let seen = Seen::default();
    let ours = |case: &Case| ours(case, &seen);
    short(comparison, &ours)?;
    // An input takes some microseconds here.
    for _ in 0..comparison.size / 4 {
        let case = random_held(&mut comparison.random);
        comparison.same(&case, rust, ours)?;
    }
    seen.all_kinds()?;
    for _ in 0..comparison.size / 4 {
        let lent = random_lent(&mut comparison.random);
        comparison.same(&lent, by_document, from_columns)?;
    }
    Ok(())
}

/// Every list of up to four steps of `ledger`, with every crash point that the Rust lists for it, with and without a retry; up to
/// three steps also with each thing that a writer could do otherwise, and up to two with the injections built by hand too.
fn short(comparison: &mut Comparison, ours: &impl Fn(&Case) -> Answer) -> Result<(), Difference> {
    for steps in lists(4) {
        let list = List { units: [8, 4, 2, 1], rejected: false, steps, armed: None, retry: false };
        let mut points = listed(&list);
        if list.steps.len() < 3 {
            points.extend(hand_built(&list));
        }
        let reactions = if list.steps.len() < 4 { reactions(&list.steps) } else { vec![Reaction::Nothing] };
        for armed in points {
            for reaction in &reactions {
                let list = List { armed: Some(armed), ..list.clone() };
                let case = Case { list, reaction: reaction.clone() };
                comparison.same(&case, rust, ours)?;
                if *reaction == Reaction::Nothing {
                    let list = List { retry: true, ..case.list };
                    comparison.same(&Case { list, ..case }, rust, ours)?;
                }
            }
        }
    }
    Ok(())
}

fn random_held(random: &mut Random) -> Case {
    let mut list = random_case(random);
    if list.armed.is_none() {
        list.armed = Some(random.pick(&hand_built(&list)));
    }
    let reaction = match random.below(8) {
        0 => Reaction::Nothing,
        1 => Reaction::Instead(random.below(16) as usize, Step::Call(random_call(random, list.units))),
        2 => Reaction::Before(random.below(16) as usize, Step::Call(random_call(random, list.units))),
        _ => {
            let mut found = reactions(&list.steps);
            found.swap_remove(random.below(found.len() as u32) as usize)
        }
    };
    Case { list, reaction }
}

// ---- columns that are lent by hand

/// One run's columns as anyone could lend them: the counts of operations and marks, whether the injection fired, the lengths,
/// and what the columns begin with.
#[derive(Clone, Debug)]
struct Columns {
    operations: u64,
    marks: u64,
    fired: bool,
    /// Kinds, offsets, lengths, digests; codes, ids, places.
    lengths: [usize; 7],
    kinds: Vec<u8>,
    offsets: Vec<u32>,
    lens: Vec<u32>,
    digests: Vec<u64>,
    codes: Vec<u8>,
    ids: Vec<u32>,
    places: Vec<u64>,
}

#[derive(Clone, Debug)]
struct Lent {
    injection: Injection,
    free: Columns,
    run: Columns,
}

impl Input for Lent {
    fn smaller(&self) -> Vec<Self> {
        let mut found: Vec<Self> = smaller_numbers(u32::try_from(self.injection.op).unwrap_or(u32::MAX))
            .into_iter()
            .map(|op| Self { injection: Injection { op: op as usize, ..self.injection }, ..self.clone() })
            .collect();
        let columns: [fn(&mut Self) -> &mut Columns; 2] = [|lent| &mut lent.free, |lent| &mut lent.run];
        for side in columns {
            let counts: [fn(&mut Columns) -> &mut u64; 2] = [|of| &mut of.operations, |of| &mut of.marks];
            for count in counts {
                let mut less = self.clone();
                for smaller in smaller_numbers(*count(side(&mut less)) as u32) {
                    let mut less = self.clone();
                    *count(side(&mut less)) = u64::from(smaller);
                    found.push(less);
                }
            }
        }
        found
    }
}

/// What `held_of_runs` returns.
#[derive(PartialEq, Debug)]
struct Held(u64);

impl common::Answer for Held {
    fn number(&self) -> u32 {
        u32::try_from(self.0).unwrap_or(0)
    }
}

fn lend(of: &Columns) -> Kept {
    let [kinds, offsets, lens, digests, codes, ids, places] = of.lengths;
    let mut kept = Kept::start(told_of([4, 4, 1, 1], false, None));
    kept.session.state = [of.operations, of.marks, 0, u64::from(of.fired), 0, 0];
    kept.session.kinds = column(&of.kinds, kinds);
    kept.session.offsets = column(&of.offsets, offsets);
    kept.session.lens = column(&of.lens, lens);
    kept.session.digests = column(&of.digests, digests);
    kept.codes = column(&of.codes, codes);
    kept.names = column(&of.ids, ids);
    kept.places = column(&of.places, places);
    kept
}

fn from_columns(lent: &Lent) -> Held {
    Held(held_to(lent.injection, &lend(&lent.free), &lend(&lent.run)))
}

/// Document 01's tests of one run's columns: 12, then 13.
fn test_by_document(of: &Columns) -> u32 {
    let [kinds, offsets, lens, digests, codes, ids, places] = of.lengths;
    let above = |of: &[u8], len, count: u64, top| column(of, len).iter().take(count as usize).any(|&code| code > top);
    if [offsets, lens, digests].iter().any(|&len| len != kinds)
        || [ids, places].iter().any(|&len| len != codes)
        || above(&of.kinds, kinds, of.operations, 2)
        || above(&of.codes, codes, of.marks, 1)
    {
        return 12;
    }
    let (kinds, codes) = (kinds as u64, codes as u64);
    if kinds < 1024 || codes < 512 || kinds < of.operations || codes < of.marks { 13 } else { 0 }
}

/// The operations and digests through the armed operation, and the marks below it. A barrier has no span and an end no id.
type Traced = (Vec<(u8, u32, u32, u64)>, Vec<(Option<u32>, u64)>);

fn traced_by_document(of: &Columns, op: usize) -> Traced {
    let end = of.operations.min((op as u64).saturating_add(1));
    let count = end as usize;
    let (kinds, digests) = (column(&of.kinds, count), column(&of.digests, count));
    let (offsets, lens) = (column(&of.offsets, count), column(&of.lens, count));
    let rows = (0..count).map(|i| match kinds[i] {
        2 => (2, 0, 0, digests[i]),
        kind => (kind, offsets[i], lens[i], digests[i]),
    });
    let count = of.marks as usize;
    let (codes, ids, places) = (column(&of.codes, count), column(&of.ids, count), column(&of.places, count));
    let marks = (0..count).filter(|&i| places[i] < end).map(|i| ((codes[i] == 1).then_some(ids[i]), places[i]));
    (rows.collect(), marks.collect())
}

/// What document 01 says of these columns.
fn by_document(lent: &Lent) -> Held {
    let Lent { injection, free, run } = lent;
    let Injection { op, progress, interruption } = *injection;
    let tests = [test_by_document(free), test_by_document(run)];
    if let Some(&number) = tests.iter().filter(|&&number| number != 0).min() {
        return Held(u64::from(number));
    }
    let none = matches!(progress, Progress::None | Progress::Bytes(0));
    if interruption == Interruption::Watchdog && none && op as u64 == free.operations {
        return Held(RELABELLED);
    }
    let opening = op == 0 && progress == Progress::None && interruption == Interruption::PowerLoss;
    if !run.fired && !(opening && free.operations == 0) {
        return Held(25);
    }
    Held(if traced_by_document(free, op) == traced_by_document(run, op) { 0 } else { 26 })
}

/// Columns of few rows with small numbers, so that two of a kind come up.
fn random_columns(random: &mut Random) -> Columns {
    let code = |random: &mut Random, top: u32| {
        if random.below(128) == 0 { top as u8 + 1 } else { random.below(top + 1) as u8 }
    };
    Columns {
        operations: u64::from(random.below(6)),
        marks: u64::from(random.below(6)),
        fired: random.below(8) != 0,
        lengths: [1024, 1024, 1024, 1024, 512, 512, 512],
        kinds: (0..7).map(|_| code(random, 2)).collect(),
        offsets: (0..7).map(|_| random.below(2)).collect(),
        lens: (0..7).map(|_| random.below(2)).collect(),
        digests: (0..7).map(|_| u64::from(random.below(2)) << 40).collect(),
        codes: (0..7).map(|_| code(random, 1)).collect(),
        ids: (0..7).map(|_| random.below(2)).collect(),
        places: (0..7).map(|_| if random.below(16) == 0 { u64::MAX } else { u64::from(random.below(8)) }).collect(),
    }
}

/// One thing of a run's columns that is otherwise: a row, a count, or a length.
fn change(random: &mut Random, of: &mut Columns) {
    let row = random.below(6) as usize;
    match random.below(14) {
        0 => of.kinds[row] = random.below(3) as u8,
        1 => of.offsets[row] ^= 1,
        2 => of.lens[row] ^= 1,
        3 => of.digests[row] ^= 1,
        4 => of.codes[row] ^= 1,
        5 => of.ids[row] ^= 1,
        6 => of.places[row] = u64::from(random.below(8)),
        7 => of.operations = u64::from(random.below(7)),
        8 => of.marks = u64::from(random.below(7)),
        9 => of.operations = random.pick(&[1023, 1024, 1025, 5000]),
        10 => of.marks = random.pick(&[511, 512, 513, 5000]),
        11 => of.lengths[random.below(7) as usize] = random.pick(&[0, 511, 512, 513, 1023, 1024, 1025]),
        12 => of.lengths[..4].fill(random.pick(&[0, 4, 1023, 1025])),
        _ => of.lengths[4..].fill(random.pick(&[0, 3, 511, 513])),
    }
}

fn random_lent(random: &mut Random) -> Lent {
    let injection = Injection {
        op: random.pick(&[0, 1, 2, 3, 4, 5, 6, 1023, 1024, usize::MAX - 1, usize::MAX]),
        progress: random.pick(&PROGRESSES),
        interruption: random.pick(&INTERRUPTIONS),
    };
    let free = random_columns(random);
    let run = Columns { fired: random.below(8) != 0, ..free.clone() };
    let mut lent = Lent { injection, free, run };
    for _ in 0..random.below(4) {
        change(random, &mut lent.run);
    }
    if random.below(4) == 0 {
        change(random, &mut lent.free);
    }
    lent
}

// ---- times

/// Both sides make the fault-free run and the one with an injection, hold one to the other and derive the ledger. The Rust's
/// lists are made anew, and so are the columns here.
fn bench(_: &mut Random) {
    let steps: Vec<Step> = (0..300)
        .flat_map(|id| {
            let program = Step::Call(Call::Program(id * 2 % 2048, vec![0x5A, 0xA5]));
            [Step::Begin(id), program, Step::Call(Call::Barrier)]
        })
        .collect();
    let injection = Injection { op: 599, progress: Progress::Whole, interruption: Interruption::PowerLoss };
    let list = List { units: [2048, 4, 2, 1], rejected: false, steps, armed: Some(injection), retry: false };
    let case = Case { list, reaction: Reaction::Nothing };
    let seen = Seen::default();
    let left = |answer: Answer| answer.0.map_or(0, |given| given.ops.len() as u64 + given.ledger.len() as u64);
    bench_row(
        "held: 300 records, cut at the last operation",
        64,
        || (0..64).map(|_| left(rust(&case))).sum(),
        || (0..64).map(|_| left(ours(&case, &seen))).sum(),
    );
}

// ---- the Rust's answers to one list of steps, under every reaction and injection built by hand

fn sample() -> String {
    let steps =
        vec![Step::Begin(7), Step::Call(Call::Program(0, vec![0x00, 0x00])), Step::Call(Call::Barrier), Step::End];
    let list = List { units: [8, 4, 2, 1], rejected: false, steps, armed: None, retry: false };
    let mut text = String::new();
    for (place, reaction) in reactions(&list.steps).into_iter().enumerate() {
        for armed in hand_built(&list) {
            let case = Case { list: List { armed: Some(armed), ..list.clone() }, reaction: reaction.clone() };
            let code = match rust(&case).0 {
                Ok(given) if given.relabelled => RELABELLED,
                Ok(_) => 0,
                Err(number) => u64::from(number),
            };
            let [op, kind, count, cause] = told_of([0; 4], false, Some(armed))[6..] else {
                panic!("an injection has four codes")
            };
            text.push_str(&format!("{place} {op} {kind} {count} {cause} {code}\n"));
        }
    }
    text
}
