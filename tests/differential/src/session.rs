//! The layer `session` against waymaker-fault's session.rs: lists of calls with at most one injection armed, each call's
//! answer, the media after it, and the operations recorded.
//!
//! The Rust's `Session` is reached through `Harness`: the writer replays the list, notes every answer and carries on after an
//! error. The harness gives no run where an injection never fired; what the writer noted is compared then too. Digests, which
//! operations changed a cell, and what was withheld are private to the Rust's session, and not compared here.

use crate::common::{self, Comparison, Difference, Input, Layer, Random, bench_row, smaller_numbers};
use std::cell::RefCell;
use std::hint::black_box;
use waymaker_fault::device::{Device, FaultError, OneWayBits};
use waymaker_fault::inject::{Injection, Interruption, Op, Progress, injections};
use waymaker_fault::inside;
use waymaker_fault::model::RecordId;
use waymaker_fault::session::{Harness, HarnessError, Session};
use waymaker_flash::storage::{Geometry, GeometryError, StableStorage};

#[path = "ledger.rs"]
pub mod ledger;
#[path = "replay.rs"]
pub mod replay;

pub const LAYER: Layer = Layer { name: "session", compare, bench, sample };

// crates/session_exported/src/lib.rt. Nothing proves that these declarations are those of that file: this is what is
// trusted here. A slice crosses as a pointer, then a length.
#[rustfmt::skip]
unsafe extern "C" {
    fn session_start(
        told: *const u32, told_len: usize, state: *mut u64, state_len: usize, media: *mut u8, media_len: usize,
        copy: *const u8, copy_len: usize, kinds: *const u8, kinds_len: usize, offsets: *const u32, offsets_len: usize,
        lens: *const u32, lens_len: usize, digests: *const u64, digests_len: usize, changed: *const u8, changed_len: usize,
        answered: *const u8, answered_len: usize, codes: *const u8, codes_len: usize, ids: *const u32, ids_len: usize,
        places: *const u64, places_len: usize,
    ) -> u32;
    fn session_program(
        told: *const u32, told_len: usize, state: *mut u64, state_len: usize, offset: u32, bytes: *const u8, bytes_len: usize,
        media: *mut u8, media_len: usize, copy: *mut u8, copy_len: usize, kinds: *mut u8, kinds_len: usize,
        offsets: *mut u32, offsets_len: usize, lens: *mut u32, lens_len: usize, digests: *mut u64, digests_len: usize,
        changed: *mut u8, changed_len: usize, answered: *mut u8, answered_len: usize,
    ) -> u32;
    fn session_erase(
        told: *const u32, told_len: usize, state: *mut u64, state_len: usize, offset: u32, len: u32,
        media: *mut u8, media_len: usize, copy: *mut u8, copy_len: usize, kinds: *mut u8, kinds_len: usize,
        offsets: *mut u32, offsets_len: usize, lens: *mut u32, lens_len: usize, digests: *mut u64, digests_len: usize,
        changed: *mut u8, changed_len: usize, answered: *mut u8, answered_len: usize,
    ) -> u32;
    fn session_barrier(
        told: *const u32, told_len: usize, state: *mut u64, state_len: usize, kinds: *mut u8, kinds_len: usize,
        offsets: *mut u32, offsets_len: usize, lens: *mut u32, lens_len: usize, digests: *mut u64, digests_len: usize,
        changed: *mut u8, changed_len: usize, answered: *mut u8, answered_len: usize,
    ) -> u32;
    fn session_read(
        told: *const u32, told_len: usize, state: *const u64, state_len: usize, media: *const u8, media_len: usize,
        offset: u32, dst: *mut u8, dst_len: usize,
    ) -> u32;
    fn session_begin(
        state: *mut u64, state_len: usize, id: u32, codes: *mut u8, codes_len: usize, ids: *mut u32, ids_len: usize,
        places: *mut u64, places_len: usize,
    ) -> u32;
}

#[derive(Clone, Debug, PartialEq)]
enum Call {
    Program(u32, Vec<u8>),
    Erase(u32, u32),
    Barrier,
    /// An offset and a length, which is small.
    Read(u32, u32),
}

/// Four units, whether the bit rule is Rejected, the calls, and what is armed.
#[derive(Clone, Debug)]
struct Case {
    units: [u32; 4],
    rejected: bool,
    calls: Vec<Call>,
    armed: Option<Injection>,
}

impl Input for Case {
    fn smaller(&self) -> Vec<Self> {
        let mut found = Vec::new();
        if self.armed.is_some() {
            found.push(Self { armed: None, ..self.clone() });
        }
        for place in 0..self.calls.len() {
            let mut less = self.clone();
            less.calls.remove(place);
            found.push(less);
        }
        for (place, call) in self.calls.iter().enumerate() {
            for call in smaller_calls(call) {
                let mut less = self.clone();
                less.calls[place] = call;
                found.push(less);
            }
        }
        for armed in smaller_injections(self.armed) {
            found.push(Self { armed: Some(armed), ..self.clone() });
        }
        found
    }
}

/// An injection with a smaller index or a smaller count.
fn smaller_injections(armed: Option<Injection>) -> Vec<Injection> {
    let Some(armed) = armed else { return Vec::new() };
    let mut found: Vec<_> =
        smaller_numbers(armed.op as u32).into_iter().map(|op| Injection { op: op as usize, ..armed }).collect();
    if let Progress::Bytes(count) = armed.progress {
        let counts = smaller_numbers(count).into_iter();
        found.extend(counts.map(|count| Injection { progress: Progress::Bytes(count), ..armed }));
    }
    found
}

fn smaller_calls(call: &Call) -> Vec<Call> {
    match call {
        Call::Program(offset, bytes) => {
            let mut found: Vec<Call> =
                smaller_numbers(*offset).into_iter().map(|o| Call::Program(o, bytes.clone())).collect();
            for len in smaller_numbers(bytes.len() as u32) {
                found.push(Call::Program(*offset, bytes[..len as usize].to_vec()));
            }
            found
        }
        Call::Erase(offset, len) => {
            let mut found: Vec<Call> = smaller_numbers(*offset).into_iter().map(|o| Call::Erase(o, *len)).collect();
            found.extend(smaller_numbers(*len).into_iter().map(|l| Call::Erase(*offset, l)));
            found
        }
        Call::Barrier => Vec::new(),
        Call::Read(offset, len) => {
            let mut found: Vec<Call> = smaller_numbers(*offset).into_iter().map(|o| Call::Read(o, *len)).collect();
            found.extend(smaller_numbers(*len).into_iter().map(|l| Call::Read(*offset, l)));
            found
        }
    }
}

/// What one call leaves: its answer, the media, how many operations are recorded, and what a read put into its buffer.
#[derive(PartialEq, Debug)]
struct Step {
    answer: u32,
    image: Vec<u8>,
    operations: usize,
    read: Vec<u8>,
}

#[derive(PartialEq, Debug)]
struct Answer {
    /// The number that refuses the units.
    start: u32,
    steps: Vec<Step>,
    /// Whether the harness gives a run, and with it the operations recorded, as kind, offset and length.
    given: bool,
    ops: Vec<(u8, u32, u32)>,
}

impl common::Answer for Answer {
    fn number(&self) -> u32 {
        self.steps.iter().map(|step| step.answer).find(|&answer| answer != 0).unwrap_or(self.start)
    }
}

/// What stands in a buffer before it is read into.
const UNREAD: u8 = 0xA5;

pub fn number_of(error: FaultError) -> u32 {
    match error {
        FaultError::Geometry(error) => unit_number(error),
        FaultError::BitSetWithoutErase => 20,
        FaultError::PowerLoss => 21,
        FaultError::WatchdogReset => 22,
        FaultError::InjectedFailure => 23,
    }
}

fn unit_number(error: GeometryError) -> u32 {
    match error {
        GeometryError::ZeroUnit => 1,
        GeometryError::UnitIsNotAPowerOfTwo => 2,
        GeometryError::UnitsDoNotNest => 3,
        GeometryError::MisalignedOffset => 4,
        GeometryError::MisalignedLength => 5,
        GeometryError::OutOfBounds => 6,
    }
}

fn row_of(op: Op) -> (u8, u32, u32) {
    match op {
        Op::Program { offset, len } => (0, offset, len),
        Op::Erase { offset, len } => (1, offset, len),
        Op::Barrier => (2, 0, 0),
    }
}

fn harness_of(case: &Case) -> Result<Harness, u32> {
    let [capacity, erase, program, read] = case.units;
    let geometry = Geometry::new(capacity, erase, program, read).map_err(unit_number)?;
    let rule = if case.rejected { OneWayBits::Rejected } else { OneWayBits::Absorbed };
    Ok(Harness::with_bit_rule(geometry, rule))
}

fn rust_call(session: &mut Session, call: &Call) -> Step {
    let mut read = Vec::new();
    let answer = match call {
        Call::Program(offset, bytes) => session.program(*offset, bytes),
        Call::Erase(offset, len) => session.erase(*offset, *len),
        Call::Barrier => session.barrier(),
        Call::Read(offset, len) => {
            read = vec![UNREAD; *len as usize];
            session.read(*offset, &mut read)
        }
    };
    Step {
        answer: answer.map_or_else(number_of, |()| 0),
        image: session.image().to_vec(),
        operations: session.operations(),
        read,
    }
}

fn rust(case: &Case) -> Answer {
    let harness = match harness_of(case) {
        Ok(harness) => harness,
        Err(start) => return Answer { start, steps: Vec::new(), given: false, ops: Vec::new() },
    };
    let mut steps = Vec::new();
    // The harness runs the writer without a fault first: what counts is its last run.
    let writer = |session: &mut Session| -> Result<(), FaultError> {
        steps = case.calls.iter().map(|call| rust_call(session, call)).collect();
        Ok(())
    };
    let run = match case.armed {
        None => harness.run_fault_free(writer),
        Some(armed) => harness.run_one(armed, writer),
    };
    match run {
        Ok(run) => Answer { start: 0, steps, given: true, ops: run.ops().iter().copied().map(row_of).collect() },
        Err(HarnessError::CrashPointNeverFired { .. }) => Answer { start: 0, steps, given: false, ops: Vec::new() },
        Err(error) => panic!("a replayed list is the same at each run, but: {error}"),
    }
}

/// What the caller of the proved session keeps.
struct Ours {
    told: [u32; 10],
    state: [u64; 6],
    media: Vec<u8>,
    copy: Vec<u8>,
    kinds: Vec<u8>,
    offsets: Vec<u32>,
    lens: Vec<u32>,
    digests: Vec<u64>,
    changed: Vec<u8>,
    answered: Vec<u8>,
    codes: Vec<u8>,
    ids: Vec<u32>,
    places: Vec<u64>,
}

fn told_of(units: [u32; 4], rejected: bool, armed: Option<Injection>) -> [u32; 10] {
    let [capacity, erase, program, read] = units;
    let mut told = [capacity, erase, program, read, u32::from(rejected), 0, 0, 0, 0, 0];
    if let Some(Injection { op, progress, interruption }) = armed {
        let (kind, count) = match progress {
            Progress::None => (0, 0),
            Progress::Bytes(count) => (1, count),
            Progress::Whole => (2, 0),
        };
        let cause = match interruption {
            Interruption::PowerLoss => 0,
            Interruption::Watchdog => 1,
            Interruption::Failure => 2,
        };
        told[5..].copy_from_slice(&[1, op as u32, kind, count, cause]);
    }
    told
}

// SAFETY, here and below: each pointer and length are those of a slice that nothing else uses during the call.
#[rustfmt::skip]
impl Ours {
    /// The number that refuses the start, or the session.
    fn start(told: [u32; 10]) -> (u32, Self) {
        let capacity = (told[0] as usize).min(1 << 24);
        let mut ours = Self {
            told,
            state: [0xDEAD; 6],
            media: vec![0x5A; capacity],
            copy: vec![0; capacity],
            kinds: vec![0; 1024],
            offsets: vec![0; 1024],
            lens: vec![0; 1024],
            digests: vec![0; 1024],
            changed: vec![0; 1024],
            answered: vec![0; 1024],
            codes: vec![0; 512],
            ids: vec![0; 512],
            places: vec![0; 512],
        };
        (ours.restart(), ours)
    }

    /// A start over what is lent already.
    fn restart(&mut self) -> u32 {
        let Self { told, state, media, copy, kinds, offsets, lens, digests, changed, answered, codes, ids, places } = self;
        unsafe {
            session_start(
                told.as_ptr(), told.len(), state.as_mut_ptr(), state.len(), media.as_mut_ptr(), media.len(),
                copy.as_ptr(), copy.len(), kinds.as_ptr(), kinds.len(), offsets.as_ptr(), offsets.len(),
                lens.as_ptr(), lens.len(), digests.as_ptr(), digests.len(), changed.as_ptr(), changed.len(),
                answered.as_ptr(), answered.len(), codes.as_ptr(), codes.len(), ids.as_ptr(), ids.len(),
                places.as_ptr(), places.len(),
            )
        }
    }

    fn program(&mut self, offset: u32, bytes: &[u8]) -> u32 {
        let Self { told, state, media, copy, kinds, offsets, lens, digests, changed, answered, .. } = self;
        unsafe {
            session_program(
                told.as_ptr(), told.len(), state.as_mut_ptr(), state.len(), offset, bytes.as_ptr(), bytes.len(),
                media.as_mut_ptr(), media.len(), copy.as_mut_ptr(), copy.len(), kinds.as_mut_ptr(), kinds.len(),
                offsets.as_mut_ptr(), offsets.len(), lens.as_mut_ptr(), lens.len(), digests.as_mut_ptr(), digests.len(),
                changed.as_mut_ptr(), changed.len(), answered.as_mut_ptr(), answered.len(),
            )
        }
    }

    fn erase(&mut self, offset: u32, len: u32) -> u32 {
        let Self { told, state, media, copy, kinds, offsets, lens, digests, changed, answered, .. } = self;
        unsafe {
            session_erase(
                told.as_ptr(), told.len(), state.as_mut_ptr(), state.len(), offset, len,
                media.as_mut_ptr(), media.len(), copy.as_mut_ptr(), copy.len(), kinds.as_mut_ptr(), kinds.len(),
                offsets.as_mut_ptr(), offsets.len(), lens.as_mut_ptr(), lens.len(), digests.as_mut_ptr(), digests.len(),
                changed.as_mut_ptr(), changed.len(), answered.as_mut_ptr(), answered.len(),
            )
        }
    }

    fn barrier(&mut self) -> u32 {
        let Self { told, state, kinds, offsets, lens, digests, changed, answered, .. } = self;
        unsafe {
            session_barrier(
                told.as_ptr(), told.len(), state.as_mut_ptr(), state.len(), kinds.as_mut_ptr(), kinds.len(),
                offsets.as_mut_ptr(), offsets.len(), lens.as_mut_ptr(), lens.len(), digests.as_mut_ptr(), digests.len(),
                changed.as_mut_ptr(), changed.len(), answered.as_mut_ptr(), answered.len(),
            )
        }
    }

    fn read(&self, offset: u32, dst: &mut [u8]) -> u32 {
        let Self { told, state, media, .. } = self;
        unsafe {
            session_read(
                told.as_ptr(), told.len(), state.as_ptr(), state.len(), media.as_ptr(), media.len(),
                offset, dst.as_mut_ptr(), dst.len(),
            )
        }
    }

    fn begin(&mut self, id: u32) -> u32 {
        let Self { state, codes, ids, places, .. } = self;
        unsafe {
            session_begin(
                state.as_mut_ptr(), state.len(), id, codes.as_mut_ptr(), codes.len(), ids.as_mut_ptr(), ids.len(),
                places.as_mut_ptr(), places.len(),
            )
        }
    }
}

impl Ours {
    fn call(&mut self, call: &Call) -> Step {
        let mut read = Vec::new();
        let answer = match call {
            Call::Program(offset, bytes) => self.program(*offset, bytes),
            Call::Erase(offset, len) => self.erase(*offset, *len),
            Call::Barrier => self.barrier(),
            Call::Read(offset, len) => {
                read = vec![UNREAD; *len as usize];
                self.read(*offset, &mut read)
            }
        };
        Step { answer, image: self.media.clone(), operations: self.state[0] as usize, read }
    }

    /// Document 01's rule for a run that the harness gives: the injection fired, or it is one of the two that precede or
    /// follow everything.
    fn given(&self, armed: Option<Injection>) -> bool {
        let operations = self.state[0] as usize;
        match armed {
            None => true,
            Some(_) if self.state[3] != 0 => true,
            Some(Injection { op, progress, interruption }) => {
                let none = matches!(progress, Progress::None | Progress::Bytes(0));
                (interruption == Interruption::Watchdog && none && op == operations)
                    || (interruption == Interruption::PowerLoss
                        && progress == Progress::None
                        && op == 0
                        && operations == 0)
            }
        }
    }
}

fn ours(case: &Case) -> Answer {
    let (start, mut ours) = Ours::start(told_of(case.units, case.rejected, case.armed));
    if start != 0 {
        return Answer { start, steps: Vec::new(), given: false, ops: Vec::new() };
    }
    let steps: Vec<Step> = case.calls.iter().map(|call| ours.call(call)).collect();
    let given = ours.given(case.armed);
    let recorded = if given { ours.state[0] as usize } else { 0 };
    let ops = (0..recorded).map(|i| (ours.kinds[i], ours.offsets[i], ours.lens[i])).collect();
    Answer { start, steps, given, ops }
}

/// Small devices, and units that are refused.
const DEVICES: [[u32; 4]; 6] = [[8, 4, 2, 1], [16, 8, 4, 4], [4, 4, 1, 1], [24, 8, 4, 2], [16, 4, 4, 1], [8, 8, 8, 8]];

/// Progress and interruption as a caller could build them by hand, also where no list of crash points has them.
const PROGRESSES: [Progress; 8] = [
    Progress::None,
    Progress::Bytes(0),
    Progress::Bytes(1),
    Progress::Bytes(3),
    Progress::Bytes(4),
    Progress::Bytes(9),
    Progress::Bytes(u32::MAX),
    Progress::Whole,
];
const INTERRUPTIONS: [Interruption; 3] = [Interruption::PowerLoss, Interruption::Watchdog, Interruption::Failure];

/// The crash points that the Rust lists for the run without a fault.
fn listed(case: &Case) -> Vec<Injection> {
    let ops: Vec<Op> = rust(case)
        .ops
        .into_iter()
        .map(|(kind, offset, len)| match kind {
            0 => Op::Program { offset, len },
            1 => Op::Erase { offset, len },
            _ => Op::Barrier,
        })
        .collect();
    harness_of(case).map_or_else(|_| Vec::new(), |harness| injections(&ops, harness.geometry()))
}

/// Those built by hand: every index up to one past the end of the list, and one far away.
fn hand_built(case: &Case) -> Vec<Injection> {
    let mut found = Vec::new();
    for op in (0..case.calls.len() + 2).chain([1_000_000]) {
        for progress in PROGRESSES {
            for interruption in INTERRUPTIONS {
                found.push(Injection { op, progress, interruption });
            }
        }
    }
    found
}

fn compare(comparison: &mut Comparison) -> Result<(), Difference> {
    refused(comparison)?;
    short(comparison)?;
    // An input takes some microseconds here.
    for _ in 0..comparison.size / 4 {
        let case = random_case(&mut comparison.random);
        comparison.same(&case, rust, ours)?;
    }
    Ok(())
}

/// Units that the Rust's geometry refuses.
fn refused(comparison: &mut Comparison) -> Result<(), Difference> {
    for place in 0..24 * 9 * 9 * 9 {
        let units = [place / 729, place / 81 % 9, place / 9 % 9, place % 9];
        comparison.same(&Case { units, rejected: false, calls: vec![Call::Barrier], armed: None }, rust, ours)?;
    }
    Ok(())
}

/// Every list of up to three of these calls, under both rules, without a fault and with every crash point that the Rust
/// lists for it; with those built by hand up to two calls.
fn short(comparison: &mut Comparison) -> Result<(), Difference> {
    let calls = [
        Call::Barrier,
        Call::Program(0, vec![0x00, 0xF0]),
        Call::Program(0, vec![0x0F, 0xFF, 0x01, 0x00]),
        Call::Program(2, vec![]),
        Call::Program(2, vec![0xFF, 0xFF]),
        Call::Program(1, vec![0, 0]),
        Call::Program(6, vec![1, 2, 3, 4]),
        Call::Erase(0, 4),
        Call::Erase(0, 8),
        Call::Erase(4, 0),
        Call::Erase(4, 8),
        Call::Read(1, 7),
        Call::Read(7, 2),
    ];
    let mut lists: Vec<Vec<Call>> = vec![Vec::new()];
    let mut from = 0;
    for _ in 0..3 {
        let end = lists.len();
        for place in from..end {
            for call in &calls {
                let mut list = lists[place].clone();
                list.push(call.clone());
                lists.push(list);
            }
        }
        from = end;
    }
    for list in lists {
        for rejected in [false, true] {
            let case = Case { units: [8, 4, 2, 1], rejected, calls: list.clone(), armed: None };
            comparison.same(&case, rust, ours)?;
            let mut points = listed(&case);
            if case.calls.len() < 3 {
                points.extend(hand_built(&case));
            }
            for armed in points {
                comparison.same(&Case { armed: Some(armed), ..case.clone() }, rust, ours)?;
            }
        }
    }
    Ok(())
}

fn random_call(random: &mut Random, [capacity, erase, program, read]: [u32; 4]) -> Call {
    let kind = random.below(10);
    let unit = if kind < 5 {
        program
    } else if kind < 7 {
        erase
    } else {
        read
    };
    let mut offset = random.below(capacity + unit) / unit * unit;
    let mut len = match random.below(4) {
        0 => unit,
        1 => capacity.saturating_sub(offset),
        _ => random.below(capacity + unit) / unit * unit,
    };
    match random.below(12) {
        0 => offset = random.below(capacity + 3),
        1 => len = random.below(capacity + 3),
        2 => offset = u32::MAX - random.below(3),
        _ => {}
    }
    match kind {
        0..5 => {
            let bytes = [random.u32() as u8, 0xFF, 0x00, 0xF0];
            Call::Program(offset, (0..len).map(|_| random.pick(&bytes)).collect())
        }
        5..7 => Call::Erase(offset, len),
        7..9 => Call::Barrier,
        _ => Call::Read(offset, len),
    }
}

fn random_case(random: &mut Random) -> Case {
    let units = random.pick(&DEVICES);
    let calls = (0..random.below(12)).map(|_| random_call(random, units)).collect();
    let mut case = Case { units, rejected: random.below(2) == 1, calls, armed: None };
    let points = match random.below(8) {
        0 => return case,
        1 | 2 => hand_built(&case),
        _ => listed(&case),
    };
    case.armed = Some(random.pick(&points));
    case
}

// A session of the Rust makes its lists anew; ours is started over lent columns that are there already. Neither builds a ledger.
fn bench(_: &mut Random) {
    let bytes: Vec<u8> = (0..4096u32).map(|i| (i * 7) as u8).collect();
    let bytes = &bytes[..];
    let small = [65536, 4096, 64, 4];
    let large = [512 * 4096, 4096, 256, 4];
    bench_session("start, media of 64 KiB", 1, small, |_| 0, |_| 0);
    bench_session(
        "program of 64 bytes, 1,024 a session",
        1024,
        small,
        |session| (0..1024).filter(|place| session.program(place * 64, &bytes[..64]).is_err()).count(),
        |ours| (0..1024).filter(|place| ours.program(place * 64, &bytes[..64]) != 0).count(),
    );
    bench_session(
        "program of 4,096 bytes, 512 a session",
        512,
        large,
        |session| (0..512).filter(|place| session.program(place * 4096, bytes).is_err()).count(),
        |ours| (0..512).filter(|place| ours.program(place * 4096, bytes) != 0).count(),
    );
    bench_session(
        "erase of 4,096 bytes, 1,024 a session",
        1024,
        small,
        |session| (0..1024).filter(|place| session.erase(place % 16 * 4096, 4096).is_err()).count(),
        |ours| (0..1024).filter(|place| ours.erase(place % 16 * 4096, 4096) != 0).count(),
    );
    bench_session(
        "barrier, 1,024 a session",
        1024,
        small,
        |session| (0..1024).filter(|_| session.barrier().is_err()).count(),
        |ours| (0..1024).filter(|_| ours.barrier() != 0).count(),
    );
    bench_session(
        "read of 64 bytes, 1,024 a session",
        1024,
        small,
        |session| (0..1024).filter(|place| session.read(place * 64, black_box(&mut [0; 64])).is_err()).count(),
        |ours| (0..1024).filter(|place| ours.read(place * 64, black_box(&mut [0; 64])) != 0).count(),
    );
    bench_session(
        "begin_record, 512 a session",
        512,
        small,
        |session| (0..512).map(|id| session.begin_record(RecordId(id))).filter(|()| false).count(),
        |ours| (0..512).filter(|id| ours.begin(*id) != 0).count(),
    );
}

/// One row: the time of a call, where each session makes `calls` of them. Each side gives how many were refused.
fn bench_session(
    what: &str,
    calls: usize,
    units: [u32; 4],
    rust: impl Fn(&mut Session) -> usize,
    ours: impl Fn(&mut Ours) -> usize,
) {
    let [capacity, erase, program, read] = units;
    let geometry = Geometry::new(capacity, erase, program, read).expect("units that nest");
    let (start, lent) = Ours::start(told_of(units, false, None));
    assert_eq!(start, 0);
    let lent = RefCell::new(lent);
    let sessions = 65536 / calls.max(64);
    let left = |refused: usize, image: &[u8], operations: usize| {
        (refused + operations) as u64 + u64::from(image[0]) + u64::from(image[image.len() - 1])
    };
    bench_row(
        &format!("session: {what}"),
        sessions * calls,
        || {
            let run = |_| {
                let mut session = inside::new(Device::new(geometry), None);
                let refused = rust(&mut session);
                left(refused, session.image(), session.operations())
            };
            (0..sessions).map(run).sum()
        },
        || {
            let run = |_| {
                let mut session = lent.borrow_mut();
                let refused = session.restart() as usize + ours(&mut session);
                left(refused, &session.media, session.state[0] as usize)
            };
            (0..sessions).map(run).sum()
        },
    );
}

/// The progress that a sample's two codes stand for.
fn progress_of(kind: u32, count: u32) -> Progress {
    match kind {
        0 => Progress::None,
        1 => Progress::Bytes(count),
        _ => Progress::Whole,
    }
}

// The sample that crates/session_cases replays: the same calls and the same order as in its src/main.rt.
const SAMPLE_PROGRESSES: [(u32, u32); 6] = [(0, 0), (1, 0), (1, 1), (1, 5), (1, 9), (2, 0)];

fn sample() -> String {
    let mut text = String::new();
    for place in 0..6 * 3 * 6 {
        let (op, cause, (kind, count)) = (place / 18, place / 6 % 3, SAMPLE_PROGRESSES[place % 6]);
        let progress = progress_of(kind, count);
        let case = Case {
            units: [16, 8, 4, 4],
            rejected: false,
            calls: vec![
                Call::Barrier,
                Call::Program(4, vec![]),
                Call::Program(0, (1..9).collect()),
                Call::Erase(0, 16),
                Call::Barrier,
            ],
            armed: Some(Injection { op, progress, interruption: INTERRUPTIONS[cause] }),
        };
        let answer = rust(&case);
        let last = answer.steps.last().expect("five calls");
        let mut numbers = vec![op as u32, cause as u32, kind, count];
        numbers.extend(answer.steps.iter().map(|step| step.answer));
        numbers.push(last.operations as u32);
        numbers.extend(last.image.iter().map(|&cell| u32::from(cell)));
        let fields: Vec<String> = numbers.iter().map(u32::to_string).collect();
        text.push_str(&fields.join(" "));
        text.push('\n');
    }
    text
}
