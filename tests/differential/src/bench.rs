//! What the Rust prints for a script, as `sweep` and as `judge`: the script is read by our own reader (script_reader.rs), its lines
//! are the writer of waymaker-fault's `Harness`, and the crash points, the runs, their ledgers and the verdicts are the Rust's own.
//! From document 01 are the text, and the two limits that the Rust does not have.

use crate::oracle;
use crate::script_reader::{Head, Rows, read};
use crate::session;
use std::collections::BTreeSet;
use std::io::{self, Write};
use waymaker_fault::device::{FaultError, OneWayBits};
use waymaker_fault::inject::{Injection, Interruption, Progress};
use waymaker_fault::model::{Durability, Ledger, RecordId};
use waymaker_fault::oracle::{Recovery, verify_oracle};
use waymaker_fault::session::{Harness, HarnessError, Run, Session};
use waymaker_flash::storage::{Geometry, StableStorage};

/// An operation above these is refused with 27.
pub const MOST_OPERATIONS: usize = 1_024;
/// A mark above these is refused with 28.
pub const MOST_MARKS: usize = 512;

/// The two programs.
#[derive(Clone, Copy, PartialEq, Debug)]
pub enum Program {
    Sweep,
    Judge,
}

impl Program {
    pub fn name(self) -> &'static str {
        match self {
            Program::Sweep => "sweep",
            Program::Judge => "judge",
        }
    }

    pub fn print(self, out: &mut impl Write, swept: &Swept) -> io::Result<()> {
        match self {
            Program::Sweep => print_sweep(out, swept),
            Program::Judge => print_judge(out, swept),
        }
    }
}

/// Every run of a script, or the number and the line that refuse it.
pub type Swept = Result<Runs, (u32, u32)>;

pub struct Runs {
    pub head: Head,
    runs: Vec<Run>,
    /// Each run's stop: `-`, `p` or `w`.
    stops: Vec<u8>,
    /// Whether two records of the script have one id.
    repeated: bool,
}

/// One record of a run.
pub struct Entry {
    pub id: RecordId,
    pub state: Durability,
    pub torn: bool,
}

pub fn sweep(text: &[u8]) -> Swept {
    let mut rows = Rows::default();
    let head = read(text, &mut rows)?;
    let [capacity, erase, program, read] = head.units;
    let geometry = Geometry::new(capacity, erase, program, read).expect("the reader has tested the units");
    let rule = if head.rejected { OneWayBits::Rejected } else { OneWayBits::Absorbed };
    let mut noted = Vec::new();
    let runs = Harness::with_bit_rule(geometry, rule).run(|session| {
        let returned = write_lines(session, &head, &rows);
        noted.push((session.injection(), stop_of(session)));
        returned
    });
    let runs = runs.map_err(|error| match error {
        HarnessError::WriterFailedWithNoFaultsArmed(_) => (24, 0),
        HarnessError::WriterIsNotDeterministic { .. } => (26, 0),
        HarnessError::CrashPointNeverFired { injection } => {
            panic!("a script's lines reach every point, but: {injection:?}")
        }
    })?;
    Ok(Runs { head, stops: stops_of(&runs, noted), runs, repeated: repeats_an_id(&rows) })
}

/// The writer: it stops at the first error and returns it, or carries on and returns success.
fn write_lines(session: &mut Session, head: &Head, rows: &Rows) -> Result<(), u32> {
    let mut marks = 0;
    for row in 0..rows.kinds.len() {
        let answer = write_line(session, rows, row, &mut marks);
        if !head.carries_on {
            answer?;
        }
    }
    Ok(())
}

/// One line. The limits are document 01's: the Rust's lists grow. A call at 1,024 recorded operations changes nothing, whether it
/// is a stop, the geometry, 20 or 27 that refuses it; and to the writer each of them is an error like any other.
fn write_line(session: &mut Session, rows: &Rows, row: usize, marks: &mut usize) -> Result<(), u32> {
    let (kind, first, second) = (rows.kinds[row], rows.firsts[row], rows.seconds[row]);
    let needed = match kind {
        b'B' | b'N' => 1,
        b'M' => 2,
        _ => 0,
    };
    if *marks + needed > MOST_MARKS {
        return Err(28);
    }
    *marks += needed;
    if needed == 0 && session.operations() == MOST_OPERATIONS {
        return Err(27);
    }
    let answer = match kind {
        b'B' => {
            session.begin_record(RecordId(first));
            Ok(())
        }
        b'N' => {
            session.end_record();
            Ok(())
        }
        b'M' => {
            session.mark_operations(RecordId(first), second as usize..rows.thirds[row] as usize);
            Ok(())
        }
        b'P' => session.program(first, &rows.pool[rows.starts[row] as usize..][..second as usize]),
        b'E' => session.erase(first, second),
        b'S' => session.barrier(),
        _ => panic!("the reader gives no other letter than these: {kind}"),
    };
    answer.map_err(session::number_of)
}

/// The Rust keeps a session's stop to itself; a read of nothing tells it.
fn stop_of(session: &mut Session) -> u8 {
    match session.read(0, &mut []) {
        Ok(()) => b'-',
        Err(FaultError::PowerLoss) => b'p',
        Err(FaultError::WatchdogReset) => b'w',
        Err(error) => panic!("a read of nothing at 0 is refused by a stop alone, but: {error:?}"),
    }
}

/// Each run's stop. The harness gives the fault-free run, relabelled, for one point of an empty sequence, and runs no writer.
fn stops_of(runs: &[Run], noted: Vec<(Option<Injection>, u8)>) -> Vec<u8> {
    let free = noted[0].1;
    let mut noted = noted.into_iter().peekable();
    let stop = |run: &Run| noted.next_if(|(armed, _)| *armed == run.injection()).map_or(free, |(_, stop)| stop);
    let stops = runs.iter().map(stop).collect();
    assert!(noted.next().is_none(), "every run of the writer is one of the harness's");
    stops
}

fn repeats_an_id(rows: &Rows) -> bool {
    let mut seen = BTreeSet::new();
    let mut named = rows.kinds.iter().zip(&rows.firsts).filter(|(kind, _)| matches!(kind, b'B' | b'M'));
    !named.all(|(_, id)| seen.insert(id))
}

impl Runs {
    pub fn len(&self) -> usize {
        self.runs.len()
    }

    /// Operations of the fault-free run.
    pub fn operations(&self) -> usize {
        self.runs[0].ops().len()
    }

    pub fn stops(&self) -> &[u8] {
        &self.stops
    }

    pub fn ledgers(&self) -> impl Iterator<Item = &Ledger> {
        self.runs.iter().map(Run::ledger)
    }

    /// Each record with its own torn. The Rust tells torn by id, and there an id's first record answers for all: where ids repeat,
    /// it is read from the ledger as the Rust shows it for debugging. Only what is possibly durable can be torn.
    pub fn entries(&self, ledger: &Ledger) -> Vec<Entry> {
        let shown = if self.repeated { format!("{ledger:?}") } else { String::new() };
        let mut shown = shown.split("RecordId(").skip(1).map(|entry| entry.contains("true"));
        let entry = |(id, state)| {
            let torn = match shown.next() {
                Some(torn) => torn,
                None => state == Durability::PossiblyDurable && ledger.torn(id) == Some(true),
            };
            Entry { id, state, torn }
        };
        ledger.records().map(entry).collect()
    }

    /// The ids of committed entries that are not torn.
    fn suggested(&self, ledger: &Ledger) -> Vec<RecordId> {
        let kept = |entry: &Entry| entry.state != Durability::Attempted && !entry.torn;
        self.entries(ledger).into_iter().filter(kept).map(|entry| entry.id).collect()
    }

    /// The verdict on a ledger and its suggested history: nothing dispatched, no bank count.
    pub fn verdict(&self, ledger: &Ledger) -> (u64, Vec<RecordId>) {
        let history = self.suggested(ledger);
        (oracle::number_of(verify_oracle(ledger, &Recovery::new(&history))), history)
    }
}

/// What `sweep` prints.
fn print_sweep(out: &mut impl Write, swept: &Swept) -> io::Result<()> {
    let Some(runs) = print_first(out, swept)? else { return Ok(()) };
    for (place, (run, &stop)) in runs.runs.iter().zip(&runs.stops).enumerate() {
        write!(out, "{place}\t")?;
        print_point(out, run.injection())?;
        write!(out, "\t{}\t{}", stop as char, run.ops().len())?;
        for Entry { id, state, torn } in runs.entries(run.ledger()) {
            let state = match state {
                Durability::Attempted => 'a',
                Durability::PossiblyDurable => 'd',
                Durability::Acknowledged => 'k',
            };
            write!(out, "\t{}{state}{}", id.0, if torn { "t" } else { "" })?;
        }
        out.write_all(b"\n")?;
    }
    Ok(())
}

/// What `judge` prints.
fn print_judge(out: &mut impl Write, swept: &Swept) -> io::Result<()> {
    let Some(runs) = print_first(out, swept)? else { return Ok(()) };
    for (place, ledger) in runs.ledgers().enumerate() {
        let (verdict, history) = runs.verdict(ledger);
        write!(out, "{place}\t{verdict}")?;
        for id in history {
            write!(out, "\t{}", id.0)?;
        }
        out.write_all(b"\n")?;
    }
    Ok(())
}

/// The first line; there is no other where the script is refused.
fn print_first<'a>(out: &mut impl Write, swept: &'a Swept) -> io::Result<Option<&'a Runs>> {
    match swept {
        Ok(runs) => writeln!(out, "runs\t{}", runs.len())?,
        Err((number, line)) => writeln!(out, "refused\t{number}\t{line}")?,
    }
    Ok(swept.as_ref().ok())
}

/// Kind, index and progress.
fn print_point(out: &mut impl Write, armed: Option<Injection>) -> io::Result<()> {
    let Some(Injection { op, progress, interruption }) = armed else { return out.write_all(b"-\t-\t-") };
    let kind = match interruption {
        Interruption::PowerLoss => 'p',
        Interruption::Watchdog => 'w',
        Interruption::Failure => 'f',
    };
    write!(out, "{kind}\t{op}\t")?;
    match progress {
        Progress::None => out.write_all(b"n"),
        Progress::Bytes(count) => write!(out, "{count}"),
        Progress::Whole => out.write_all(b"a"),
    }
}
