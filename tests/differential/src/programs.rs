//! The layer `programs`: the built programs `sweep` and `judge`, a process for each script, against what the Rust prints for it
//! (bench.rs), byte for byte.

use crate::bench::{self, MOST_MARKS, MOST_OPERATIONS, Program, Swept};
use crate::common::{Comparison, Difference, Layer, Random, cuts, median, smaller_numbers, without};
use crate::program_scripts::{GROUPS, LONG};
use crate::script;
use crate::script_reader::{Head, MOST_BYTES, MOST_CAPACITY, MOST_TEXT, Rows, read};
use std::collections::BTreeMap;
use std::fmt::Write as _;
use std::io::Write as _;
use std::path::{Path, PathBuf};
use std::process::{Child, Command, Stdio};
use std::sync::OnceLock;
use std::time::{Duration, Instant};
use waymaker_fault::model::Durability;

pub const LAYER: Layer = Layer { name: "programs", compare, bench, sample };

const BOTH: [Program; 2] = [Program::Sweep, Program::Judge];

/// What the caller of the driver asked for.
pub struct Asked {
    /// The folder of the two programs.
    pub folder: PathBuf,
    /// The largest scripts too.
    pub slow: bool,
}

pub static ASKED: OnceLock<Asked> = OnceLock::new();

fn asked() -> &'static Asked {
    ASKED.get().expect("said as the driver starts")
}

/// The program that is not there, or that cannot be started.
pub fn absent(folder: &Path) -> Option<PathBuf> {
    BOTH.iter().map(|program| folder.join(program.name())).find(|path| !path.is_file())
}

// ---- both sides

/// What the Rust prints.
fn printed(program: Program, swept: &Swept) -> Vec<u8> {
    let mut out = Vec::new();
    program.print(&mut out, swept).expect("a list takes every byte");
    out
}

/// What a program printed; or how it ended, where that was not with status 0 and nothing on standard error.
type Ended = Result<Vec<u8>, String>;

/// The program's own end, of a script that is written to its standard input in so many pieces.
fn ended(program: Program, text: &[u8], pieces: usize) -> Ended {
    let path = asked().folder.join(program.name());
    let started = Command::new(&path).stdin(Stdio::piped()).stdout(Stdio::piped()).stderr(Stdio::piped()).spawn();
    let output = fed(started.map_err(|error| format!("{}: {error}", path.display()))?, text, pieces);
    if !output.status.success() || !output.stderr.is_empty() {
        return Err(format!("{}, and on standard error: \"{}\"", output.status, output.stderr.escape_ascii()));
    }
    Ok(output.stdout)
}

/// Writes a script to a process and waits for its end. A script that may not fit into a pipe is written beside the reading.
fn fed(mut child: Child, text: &[u8], pieces: usize) -> std::process::Output {
    let mut input = child.stdin.take().expect("a pipe was asked for");
    // A program that has seen enough of a script may end before it is all written: what counts is what it prints.
    let write = move || {
        for (place, piece) in text.chunks(text.len().div_ceil(pieces).max(1)).enumerate() {
            if place > 0 {
                std::thread::sleep(Duration::from_millis(2));
            }
            let _ = input.write_all(piece);
        }
        drop(input);
    };
    let wait = || child.wait_with_output().expect("the end of a process");
    if text.len() <= 4096 {
        write();
        return wait();
    }
    std::thread::scope(|scope| {
        scope.spawn(write);
        wait()
    })
}

/// Holds both programs to the Rust on one script.
fn same(comparison: &mut Comparison, seen: &mut Seen, text: &[u8], pieces: usize) -> Result<(), Difference> {
    comparison.compared += 1;
    let swept = bench::sweep(text);
    *comparison.answers.entry(swept.as_ref().err().map_or(0, |refused| refused.0)).or_default() += 1;
    seen.count(&swept);
    for program in BOTH {
        if ended(program, text, pieces).as_ref() != Ok(&printed(program, &swept)) {
            return Err(difference(program, text, pieces));
        }
    }
    Ok(())
}

// ---- a difference

/// So long a smaller script is looked for.
const SHRINKING: Duration = Duration::from_secs(90);

fn difference(program: Program, text: &[u8], pieces: usize) -> Difference {
    let differs = |text: &[u8]| ended(program, text, pieces).as_ref() != Ok(&printed(program, &bench::sweep(text)));
    let start = Instant::now();
    let dearest = cost_of(text).max(DEAREST);
    let mut least = text.to_vec();
    let fit = |next: &Vec<u8>| start.elapsed() < SHRINKING && cost_of(next) <= dearest && differs(next);
    while let Some(next) = smaller(&least).into_iter().find(fit) {
        least = next;
    }
    let name = program.name();
    let mut shown = format!("script    {}\n", shown_script(&least));
    let rust = printed(program, &bench::sweep(&least));
    match ended(program, &least, pieces) {
        Err(end) => writeln!(shown, "{name} did not end well: {end}").expect("a string takes every byte"),
        Ok(ours) => shown += &first_difference(name, &rust, &ours),
    }
    if pieces > 1 {
        writeln!(shown, "the script was written in {pieces} pieces").expect("a string takes every byte");
    }
    Difference(format!("{shown}found at  {}", shown_script(text)))
}

/// The first line that differs, of a long one what is around the first byte that does.
fn first_difference(name: &str, rust: &[u8], ours: &[u8]) -> String {
    let same = rust.iter().zip(ours).take_while(|(a, b)| a == b).count();
    let start = rust[..same].iter().rposition(|&byte| byte == b'\n').map_or(0, |place| place + 1);
    let line = rust[..start].iter().filter(|&&byte| byte == b'\n').count() + 1;
    let shown = |text: &[u8]| {
        let end = text[start..].iter().position(|&byte| byte == b'\n').map_or(text.len(), |place| start + place + 1);
        let (from, to) = (start.max(same.saturating_sub(100)), end.min(same + 100));
        let (cut, more) = (if from > start { ".." } else { "" }, if to < end { ".." } else { "" });
        let lines = text.iter().filter(|&&byte| byte == b'\n').count();
        format!("{cut}\"{}\"{more} (of {lines} lines)", text[from..to].escape_ascii())
    };
    format!("{name}, line {line}\nthe Rust  {}\nthis      {}\n", shown(rust), shown(ours))
}

/// A script with its tabs and LFs to be seen; lines that are the same once, with how often they come.
fn shown_script(text: &[u8]) -> String {
    let lines: Vec<&[u8]> = text.split_inclusive(|&byte| byte == b'\n').collect();
    let mut shown = String::new();
    for same in lines.chunk_by(|a, b| a == b) {
        let line = same[0].escape_ascii().to_string();
        match same.len() {
            times if times > 4 => shown += &format!("[{line} {times} times]"),
            times => shown += &line.repeat(times),
        }
    }
    format!("\"{shown}\" ({} bytes)", text.len())
}

/// Scripts a step smaller: without lines; with a smaller field; a short one without some bytes.
fn smaller(text: &[u8]) -> Vec<Vec<u8>> {
    let lines: Vec<&[u8]> = text.split_inclusive(|&byte| byte == b'\n').collect();
    let mut found: Vec<_> =
        cuts(lines.len()).into_iter().map(|(from, to)| without(&lines, from, to).concat()).collect();
    for (place, line) in lines.iter().enumerate().take(64) {
        let fields: Vec<&[u8]> = line.split(|byte| b"\t\n".contains(byte)).collect();
        let mut at = 0;
        for field in &fields {
            for less in smaller_fields(field, fields[0] == b"P" && at > 2) {
                let line = [&line[..at], &less[..], &line[at + field.len()..]].concat();
                found.push([&lines[..place], &[&line[..]], &lines[place + 1..]].concat().concat());
            }
            at += field.len() + 1;
        }
    }
    if text.len() <= 128 {
        found.extend(cuts(text.len()).into_iter().map(|(from, to)| without(text, from, to)));
    }
    found
}

/// A field of bytes, or a number or a letter, made smaller.
fn smaller_fields(field: &[u8], of_bytes: bool) -> Vec<Vec<u8>> {
    if of_bytes {
        let pairs = field.len() / 2;
        let shorter = smaller_numbers(pairs as u32).into_iter().map(|pairs| field[..2 * pairs as usize].to_vec());
        let zeros = vec![b'0'; field.len()];
        return shorter.chain((zeros != field).then_some(zeros)).collect();
    }
    match field {
        b"r" => vec![b"a".to_vec()],
        b"c" => vec![b"s".to_vec()],
        _ => match str::from_utf8(field).ok().and_then(|field| field.parse().ok()) {
            Some(number) => smaller_numbers(number).iter().map(|number| number.to_string().into_bytes()).collect(),
            None => Vec::new(),
        },
    }
}

// ---- what came up

/// How often each outcome was met, so that nobody believes in scripts that are all refused.
#[derive(Default)]
struct Seen {
    refusals: BTreeMap<u32, u64>,
    /// Scripts that ran, by their two letters.
    letters: BTreeMap<&'static str, u64>,
    /// Scripts that ran, by the power of ten that their runs reach.
    sizes: BTreeMap<u32, u64>,
    runs: u64,
    most_runs: usize,
    most_operations: usize,
    stops: BTreeMap<char, u64>,
    records: BTreeMap<&'static str, u64>,
    verdicts: BTreeMap<u64, u64>,
}

impl Seen {
    fn count(&mut self, swept: &Swept) {
        let runs = match swept {
            Ok(runs) => runs,
            Err((number, _)) => return *self.refusals.entry(*number).or_default() += 1,
        };
        let letters = match (runs.head.rejected, runs.head.carries_on) {
            (false, false) => "a s",
            (false, true) => "a c",
            (true, false) => "r s",
            (true, true) => "r c",
        };
        *self.letters.entry(letters).or_default() += 1;
        *self.sizes.entry(runs.len().ilog10()).or_default() += 1;
        self.runs += runs.len() as u64;
        self.most_runs = self.most_runs.max(runs.len());
        self.most_operations = self.most_operations.max(runs.operations());
        for &stop in runs.stops() {
            *self.stops.entry(stop as char).or_default() += 1;
        }
        for ledger in runs.ledgers() {
            *self.verdicts.entry(runs.verdict(ledger).0).or_default() += 1;
            for entry in runs.entries(ledger) {
                let kind = match entry.state {
                    Durability::Attempted => "a",
                    Durability::PossiblyDurable if entry.torn => "dt",
                    Durability::PossiblyDurable => "d",
                    Durability::Acknowledged => "k",
                };
                *self.records.entry(kind).or_default() += 1;
            }
        }
    }

    fn print(&self) {
        fn told<K: ToString>(counts: &BTreeMap<K, u64>) -> String {
            counts.iter().map(|(of, times)| format!("{} {times}", of.to_string())).collect::<Vec<_>>().join(", ")
        }
        let sizes = self.sizes.iter().map(|(power, times)| (format!("below {}:", 10u64.pow(power + 1)), *times));
        let row = |what: &str, counts: String| println!("  {what:<28} {counts}");
        row("refused, by number", told(&self.refusals));
        row("run, by letters", told(&self.letters));
        row("run, by how many runs", told(&sizes.collect()));
        let most = format!("; at most {} for a script, of {} operations", self.most_runs, self.most_operations);
        row("runs", format!("{}{most}", self.runs));
        row("runs, by the session's stop", told(&self.stops));
        row("records in runs", told(&self.records));
        row("verdicts of runs", told(&self.verdicts));
    }

    /// Where something of this was not met, nothing was shown of it.
    fn all_kinds(&self) -> Result<(), Difference> {
        self.print();
        let refusals = [1, 2, 3, 8, 9, 10, 24, 26].iter().all(|number| self.refusals.contains_key(number));
        let verdicts = [0, 31, 32].iter().all(|number| self.verdicts.contains_key(number));
        if refusals && verdicts && self.letters.len() == 4 && self.stops.len() == 3 && self.records.len() == 4 {
            return Ok(());
        }
        Err(Difference(String::from("no script of some kind was met")))
    }
}

// ---- scripts

/// Document 01's worked example.
const EXAMPLE: &[u8] = b"G\t4\t4\t1\t1\ta\ts\nB\t7\nP\t0\t00\nS\nN\n";
const EXAMPLE_SWEPT: &str = "\
runs 11
0 - - - - 2 7k
1 p 0 n p 1 7a
2 p 0 a p 1 7d
3 p 1 a p 2 7k
4 w 0 n w 1 7a
5 w 0 a w 1 7d
6 w 1 n w 2 7d
7 w 1 a w 2 7d
8 f 0 n - 1 7a
9 f 0 a - 1 7d
10 f 1 n - 2 7d
";

/// The Rust prints document 01's worked example, tabs for its blanks: if it did not, nothing else here would mean anything.
fn worked_example() {
    let swept = bench::sweep(EXAMPLE);
    let text = printed(Program::Sweep, &swept);
    assert_eq!(str::from_utf8(&text), Ok(&EXAMPLE_SWEPT.replace(' ', "\t")[..]), "document 01's worked example");
    let judged =
        "runs\t11\n0\t0\t7\n1\t0\n2\t0\t7\n3\t0\t7\n4\t0\n5\t0\t7\n6\t0\t7\n7\t0\t7\n8\t0\n9\t0\t7\n10\t0\t7\n";
    assert_eq!(str::from_utf8(&printed(Program::Judge, &swept)), Ok(judged), "the same, judged");
}

fn compare(comparison: &mut Comparison) -> Result<(), Difference> {
    worked_example();
    let mut seen = Seen::default();
    for (place, text) in sample_scripts().iter().enumerate() {
        same(comparison, &mut seen, text, 1 + place % 16 / 15)?;
    }
    for limit in limits() {
        if limit.slow && !asked().slow {
            continue;
        }
        let start = Instant::now();
        same(comparison, &mut seen, &limit.text, 1)?;
        println!("  {:<60} {:>6.2} s, both sides", limit.what, start.elapsed().as_secs_f64());
    }
    // A script takes some milliseconds: two processes, and the Rust.
    for _ in 0..comparison.size / 40 {
        let text = random_script(&mut comparison.random);
        same(comparison, &mut seen, &text, 1)?;
    }
    seen.all_kinds()
}

/// The scripts of the samples.
fn sample_scripts() -> Vec<Vec<u8>> {
    let mut found = Vec::new();
    for group in GROUPS {
        let group = group.strip_suffix(b";").expect("a semicolon after each script");
        found.extend(group.split(|&byte| byte == b';').map(<[u8]>::to_vec));
    }
    found.extend(LONG.iter().map(|&(head, line, times)| [head, &line.repeat(times)].concat()));
    found
}

/// A script at a limit.
struct Limit {
    what: String,
    text: Vec<u8>,
    slow: bool,
}

/// Scripts at every limit of document 01, beside it, and those whose output is longest.
fn limits() -> Vec<Limit> {
    let mut found = Vec::new();
    of_most_bytes(&mut found);
    of_most_operations(&mut found);
    of_most_marks(&mut found);
    of_largest_spans(&mut found);
    of_longest_lines(&mut found);
    let timed = timed_scripts().into_iter();
    found.extend(timed.map(|(what, text)| Limit { what: what.to_string(), text: text.into(), slow: true }));
    found
}

fn head(letters: &str) -> String {
    format!("G\t4096\t4096\t1\t1\t{letters}\n")
}

/// Bytes of a program, each of which changes four bits of an erased cell.
fn bytes(len: usize) -> String {
    "5a".repeat(len)
}

fn put(found: &mut Vec<Limit>, what: impl Into<String>, text: impl Into<Vec<u8>>) {
    found.push(Limit { what: what.into(), text: text.into(), slow: false });
}

fn put_slow(found: &mut Vec<Limit>, what: impl Into<String>, text: impl Into<Vec<u8>>) {
    found.push(Limit { what: what.into(), text: text.into(), slow: true });
}

fn of_most_bytes(found: &mut Vec<Limit>) {
    let carries_on = &head("a\tc")[..];
    for (size, what) in [(MOST_TEXT, "65,536 bytes"), (MOST_TEXT + 1, "65,537 bytes")] {
        for (lines, line) in [("N", "N\n"), ("S", "S\n"), ("empty P", "P\t0\t\n"), ("empty E", "E\t0\t0\n")] {
            put(found, format!("{what}, {lines} lines, carrying on"), script::padded(carries_on, line, size));
        }
        put(found, format!("{what}, N lines, stopping"), script::padded(&head("a\ts"), "N\n", size));
        put(found, format!("{what} of LF"), "\n".repeat(size));
        let mut unended = script::padded(carries_on, "N\n", size);
        unended[size - 1] = b'1';
        put(found, format!("{what}, the last line without LF"), unended);
        put_slow(found, format!("{what}, P lines of 4,096 bytes"), of_programs(size));
    }
    put(found, "a million bytes", "N\n".repeat(500_000));
}

/// A script of so many bytes: programs of 4,096 bytes, and one of what is left.
fn of_programs(size: usize) -> String {
    let text = head("a\ts") + &format!("P\t0\t{}\n", bytes(MOST_BYTES)).repeat(size / (2 * MOST_BYTES + 5));
    let rest = size - text.len();
    let offset = if rest % 2 == 1 { "0" } else { "10" };
    text + &format!("P\t{offset}\t{}\n", bytes((rest - offset.len() - 4) / 2))
}

fn of_most_operations(found: &mut Vec<Limit>) {
    for (count, times) in [(MOST_OPERATIONS, "1,024"), (MOST_OPERATIONS + 1, "1,025")] {
        for (letters, way) in [("a\ts", "stopping"), ("r\tc", "carrying on")] {
            for (lines, line) in [("barriers", "S\n"), ("programs", "P\t7\t00\n"), ("erases", "E\t0\t4096\n")] {
                let text = format!("{}B\t1\n{}", head(letters), line.repeat(count));
                put(found, format!("{times} {lines}, {way}"), text);
            }
        }
    }
    let late = format!("P\t0\t00\nP\t0\tff\n{}M\t9\t0\t1024\n", "S\n".repeat(MOST_OPERATIONS - 1));
    put(found, "1,024 operations, 1,025 where one failed, carrying on", head("r\tc") + &late);
    let refused = "S\n".repeat(MOST_OPERATIONS) + "P\t4096\t00\nE\t1\t1\nS\nB\t4\nN\n";
    put(found, "1,024 operations, then what 6, 4 and 27 refuse, carrying on", head("a\tc") + &refused);
}

fn of_most_marks(found: &mut Vec<Limit>) {
    let lasts = [("", ""), (", a range", "M\t8\t0\t1\n"), (", an end, a range", "N\nM\t8\t2\t3\n")];
    for marks in MOST_MARKS - 2..=MOST_MARKS + 1 {
        for (letters, way) in [("a\ts", "stopping"), ("a\tc", "carrying on")] {
            for (and, last) in lasts {
                let ends = "N\n".repeat(marks - 1);
                let text = format!("{}B\t4294967295\n{ends}P\t0\t00f0\n{last}S\nB\t9\n", head(letters));
                put(found, format!("{marks} marks{and}, {way}"), text);
            }
        }
    }
}

fn of_largest_spans(found: &mut Vec<Limit>) {
    let program = |units: &str, len: usize| format!("G\t{units}\tr\ts\nB\t1\nP\t0\t{}\nS\nN\n", bytes(len));
    put(found, "a program of 4,096 bytes, unit 1", program("4096\t4096\t1\t1", MOST_BYTES));
    put(found, "a program of 4,096 bytes, unit 4,096", program("4096\t4096\t4096\t1", MOST_BYTES));
    put(found, "a program of 4,097 bytes", program("4097\t1\t1\t1", MOST_BYTES + 1));
    let erase = |capacity: u32, unit: u32| {
        format!("G\t{capacity}\t{unit}\t1\t1\ta\tc\nB\t1\nP\t16383\t00\nE\t0\t{capacity}\nS\n")
    };
    put(found, "capacity 16,384, an erase of one block", erase(MOST_CAPACITY, MOST_CAPACITY));
    put(found, "capacity 16,384, an erase in blocks of 16", erase(MOST_CAPACITY, 16));
    put_slow(found, "capacity 16,384, an erase in blocks of 1", erase(MOST_CAPACITY, 1));
    put(found, "capacity 16,385", erase(MOST_CAPACITY + 1, 1));
    put(found, "capacity 32,768", erase(2 * MOST_CAPACITY, 16));
    // The Rust walks over all of these places.
    put_slow(found, "a range of 4,294,967,295 operations, none recorded", head("a\tc") + "M\t1\t0\t4294967295\n");
}

/// 512 records with ids of ten digits: in sweep the last one torn, at an operation and a count of several digits; in judge each of
/// them in the history.
fn of_longest_lines(found: &mut Vec<Limit>) {
    let ids = || (0..MOST_MARKS as u32).map(|place| u32::MAX - place);
    let begins: String = ids().map(|id| format!("B\t{id}\n")).collect();
    let torn = |len| format!("{}{}{begins}P\t0\t{}\n", head("a\tc"), "S\n".repeat(MOST_OPERATIONS - 1), bytes(len));
    put(found, "the longest lines of sweep, a program of 100 bytes", torn(100));
    put_slow(found, "the longest lines of sweep, a program of 4,096 bytes", torn(MOST_BYTES));
    let durable: String = ids().enumerate().map(|(place, id)| format!("B\t{id}\nP\t{place}\t00\n")).collect();
    put(found, "the longest lines of judge", format!("{}{durable}S\n", head("a\ts")));
}

// ---- random scripts

/// A script in the making: its device, its letters, and what its lines so far have done if none was refused.
struct Plan {
    units: [u32; 4],
    stops: bool,
    /// Of sixteen lines, so many are refused by the geometry.
    errors: u32,
    /// Of sixteen lines, so many are ranges.
    ranges: u32,
    operations: u32,
    points: u32,
    /// Where the next program of a journal stands.
    cursor: u32,
    programs: Vec<String>,
    ids: u32,
    text: String,
}

/// A random script is not dearer than this.
const DEAREST: u64 = 1 << 24;

/// About how many steps all runs of a script take: its points, if no line is refused by 20 or 27, by what a run handles. The Rust
/// walks over every place of a record, also where a range ends far behind the last operation.
fn cost_of(text: &[u8]) -> u64 {
    let mut rows = Rows::default();
    let Ok(Head { units: [capacity, erase, program, _], .. }) = read(text, &mut rows) else { return 0 };
    let (mut points, mut steps) = (2, u64::from(capacity));
    let (mut operations, mut begun) = (0, 0);
    for row in 0..rows.kinds.len() {
        let [first, second, third] = [rows.firsts[row], rows.seconds[row], rows.thirds[row]].map(u64::from);
        let len = if first + second <= u64::from(capacity) { second } else { 0 };
        let (found, taken) = match rows.kinds[row] {
            b'P' => (2 * len + len.div_ceil(program.into()) + 2, len),
            b'E' => (3 * len.div_ceil(erase.into()) + 2, len),
            b'S' => (4, 0),
            b'M' => (0, second.saturating_sub(begun) + third.saturating_sub(second)),
            _ => (0, 0),
        };
        begun = match rows.kinds[row] {
            b'B' => operations,
            b'N' | b'M' => u64::MAX,
            _ => begun,
        };
        operations += u64::from(found > 0);
        points += found;
        steps += 16 + taken;
    }
    points * steps
}

fn random_script(random: &mut Random) -> Vec<u8> {
    loop {
        // A few may be dearer: those that pass the limit of operations are.
        let dearest = if random.below(16) == 0 { 8 * DEAREST } else { DEAREST };
        let text = any_script(random);
        if cost_of(&text) <= dearest {
            return text;
        }
    }
}

fn any_script(random: &mut Random) -> Vec<u8> {
    let text = well_formed(random);
    match random.below(32) {
        0..4 => damaged_line(random, &text),
        4..8 => {
            let mut text = text.into_bytes();
            for _ in 0..1 + random.below(2) {
                script::change(random, &mut text);
            }
            text
        }
        8 => crowded(random, &text),
        9 if random.below(8) == 0 => script::padded(&text, "N\n", MOST_TEXT + random.below(2) as usize),
        _ => text.into_bytes(),
    }
}

/// With as many marks or operations more as a session takes, or a few less or more.
fn crowded(random: &mut Random, text: &str) -> Vec<u8> {
    let lines: Vec<&str> = text.split_inclusive('\n').collect();
    let (before, after) = lines.split_at(1 + random.below(lines.len() as u32) as usize);
    let (line, most) = match random.below(8) {
        0 => ("S\n", MOST_OPERATIONS),
        1 => ("P\t0\t\n", MOST_OPERATIONS),
        2..5 => ("N\n", MOST_MARKS),
        5 => ("M\t6\t0\t1\n", MOST_MARKS / 2),
        _ => ("B\t6\n", MOST_MARKS),
    };
    let times = (most + 2).saturating_sub(random.below(32) as usize);
    [before.concat(), line.repeat(times), after.concat()].concat().into_bytes()
}

fn well_formed(random: &mut Random) -> String {
    let most = random.pick(&[1, 2, 3, 3, 4, 5, 6, 15]);
    let mut shifts = [0, 1, 2].map(|_| random.below(most));
    shifts.sort_unstable();
    let [read, program, erase] = shifts.map(|shift| 1 << shift);
    let blocks = 1 + random.below((MOST_CAPACITY / erase).min(5));
    let capacity = if random.below(16) == 0 { MOST_CAPACITY } else { erase * blocks };
    let (rejected, stops) = (random.below(2) == 0, random.below(2) == 0);
    let (rule, mode) = (if rejected { 'r' } else { 'a' }, if stops { 's' } else { 'c' });
    let mut plan = Plan {
        units: [capacity, erase, program, read],
        stops,
        errors: random.pick(if stops { &[0, 0, 0, 0, 0, 0, 1] } else { &[0, 0, 1, 4] }),
        ranges: random.pick(if stops { &[0, 0, 1, 2] } else { &[0, 0, 1, 4] }),
        operations: 0,
        points: 0,
        cursor: 0,
        programs: Vec::new(),
        ids: random.pick(&[0, 0, 0, 1, u32::MAX - 100]),
        text: format!("G\t{capacity}\t{erase}\t{program}\t{read}\t{rule}\t{mode}\n"),
    };
    let budget = random.pick(&[30, 100, 100, 300, 300, 1000]);
    let lines = random.pick(&[0, 1, 3, 8, 8, 16, 16, 30, 60]);
    let journal = random.below(3) == 0;
    for _ in 0..lines {
        if plan.points > budget {
            break;
        }
        if journal {
            plan.record(random);
        } else {
            plan.line(random);
        }
    }
    plan.text
}

impl Plan {
    fn put(&mut self, line: &str) {
        self.text += line;
        self.text.push('\n');
    }

    /// A record as a journal has it: begun, one or two programs, now and then one of them again, a barrier, ended.
    fn record(&mut self, random: &mut Random) {
        self.begin(random);
        for _ in 0..1 + random.below(2) {
            self.program(random, true);
        }
        if random.below(4) == 0 {
            self.again(random);
        }
        for (line, often) in [("S", 7), ("N", 6)] {
            if random.below(8) < often {
                self.plain(line);
            }
        }
        if random.below(8) < self.ranges {
            self.range(random);
        }
    }

    fn line(&mut self, random: &mut Random) {
        if random.below(16) < self.ranges {
            return self.range(random);
        }
        match random.below(16) {
            0..3 => self.begin(random),
            3 => self.plain("N"),
            4..7 => self.plain("S"),
            7..9 => self.erase(random),
            9..11 => self.again(random),
            11..14 => self.program(random, true),
            _ => self.program(random, false),
        }
    }

    /// A barrier or an end.
    fn plain(&mut self, line: &str) {
        if line == "S" {
            self.operations += 1;
            self.points += 4;
        }
        self.put(line);
    }

    /// Mostly an id of its own.
    fn begin(&mut self, random: &mut Random) {
        let id = self.id(random);
        self.put(&format!("B\t{id}"));
    }

    fn id(&mut self, random: &mut Random) -> u32 {
        self.ids = self.ids.wrapping_add(1);
        match random.below(24) {
            0 => random.u32(),
            1 => random.below(4),
            _ => self.ids,
        }
    }

    /// A writer that stops meets 26 where a range names operations that there are already: mostly it names later ones.
    fn range(&mut self, random: &mut Random) {
        let id = self.id(random);
        let before = if self.stops { random.below(4) == 0 } else { random.below(4) > 0 };
        let mut place = || match random.below(16) {
            0 => random.below(3000),
            _ if before => random.below(self.operations + 2),
            _ => self.operations + random.below(4),
        };
        let (from, to) = (place(), place());
        self.put(&format!("M\t{id}\t{from}\t{to}"));
    }

    fn program(&mut self, random: &mut Random, at_cursor: bool) {
        let [capacity, _, unit, _] = self.units;
        let most = (64 / unit).max(u32::from(unit <= 512 && random.below(8) == 0));
        let most = most.min(capacity / unit).min(random.pick(&[1, 2, 4, 16, 64]));
        let mut len = if most == 0 || random.below(8) == 0 { 0 } else { unit * (1 + random.below(most)) };
        let mut offset = if at_cursor { self.cursor } else { random.below(capacity / unit + 1) * unit };
        if offset + len > capacity {
            offset = random.below(2) * (capacity - len);
        }
        if random.below(16) < self.errors {
            match random.below(3) {
                0 => offset = random.pick(&[offset + 1, capacity, u32::MAX, u32::MAX - unit + 1]),
                1 => len += 1 + random.below(3),
                _ => offset = capacity - len.min(unit),
            }
        }
        self.cursor = if offset.saturating_add(len) < capacity { offset + len } else { 0 };
        // Padding with ff changes nothing; a zero bit can be programmed again.
        let (kind, padding) = (random.below(4), random.below(len + 1));
        let byte = |place| match kind {
            _ if place >= len - padding / 2 => 0xFF,
            0 => 0x00,
            1 => random.pick(&[0x00, 0xFF, 0xF0, 0x0F]),
            _ => random.below(256),
        };
        let bytes: String = (0..len).map(byte).map(|byte| format!("{byte:02x}")).collect();
        self.programmed(format!("P\t{offset}\t{bytes}"), len);
    }

    fn programmed(&mut self, line: String, len: u32) {
        self.operations += 1;
        self.points += 2 * len + len.div_ceil(self.units[2]) + 2;
        self.put(&line);
        self.programs.push(line);
    }

    /// A program that was there, again: a retry.
    fn again(&mut self, random: &mut Random) {
        if self.programs.is_empty() {
            return self.program(random, true);
        }
        let last = self.programs.len() as u32 - 1;
        let place = if random.below(2) == 0 { last } else { random.below(last + 1) };
        let line = self.programs[place as usize].clone();
        let len = line.rsplit('\t').next().map_or(0, str::len) / 2;
        self.programmed(line, len as u32);
    }

    fn erase(&mut self, random: &mut Random) {
        let [capacity, unit, ..] = self.units;
        let blocks = capacity / unit;
        let first = random.below(blocks.min(64));
        let mut len = unit * random.below((blocks - first).min(16) + 1);
        let mut offset = first * unit;
        if random.below(16) < self.errors {
            match random.below(3) {
                0 => offset += 1,
                1 => len = random.pick(&[len + 1, u32::MAX, 0u32.wrapping_sub(unit)]),
                _ => len = capacity,
            }
        }
        self.operations += 1;
        self.points = self.points.saturating_add(3 * len.div_ceil(unit) + 2);
        self.put(&format!("E\t{offset}\t{len}"));
    }
}

/// One line of a script made one that is not, or one that says something else.
fn damaged_line(random: &mut Random, text: &str) -> Vec<u8> {
    let mut lines: Vec<Vec<u8>> = text.split_inclusive('\n').map(|line| line.as_bytes().to_vec()).collect();
    // Line 1 has the most ways to be wrong.
    let place = if random.below(3) == 0 { 0 } else { random.below(lines.len() as u32) as usize };
    let line = String::from_utf8(lines[place].clone()).expect("a script of letters and digits");
    let mut fields: Vec<String> = line.trim_end_matches('\n').split('\t').map(String::from).collect();
    let field = random.below(fields.len() as u32) as usize;
    match random.below(12) {
        0 => drop(fields.remove(field)),
        1 => fields.insert(field, random.pick(&["", "0", "a", "S"]).to_string()),
        2 => fields[field].insert(0, random.pick(&['0', '1', ' ', '+', '-', 'a'])),
        3 => fields[field].push(random.pick(&['0', 'f', 'A', '\r', ' ', '\t'])),
        4 => fields[0] = random.pick(&["G", "X", "s", "", "SS", "P", "E", "B", "N", "M"]).to_string(),
        5 => fields[field] = fields[field].to_uppercase(),
        6 => fields[field] = random.pick(&["4294967295", "4294967296", "18446744073709551617"]).to_string(),
        _ => fields[field] = random.pick(&["0", "1", "2", "3", "6", "8", "12", "16384", "16385", "32768"]).to_string(),
    }
    lines[place] =
        (fields.join("\t") + random.pick(&["\n", "\n", "\n", "\n", "\n", "\n", "\n\n", "\r\n", ""])).into_bytes();
    lines.concat()
}

// ---- times

/// The scripts that are timed.
fn timed_scripts() -> [(&'static str, String); 3] {
    let record = |place: usize, len: usize| {
        let bytes: String = (0..len).map(|i| format!("{:02x}", (place * 31 + i * 7) % 255)).collect();
        format!("B\t{place}\nP\t{}\t{bytes}\nS\nN\n", place * len)
    };
    let records = |count: usize, len: usize| (0..count).map(|place| record(place, len)).collect::<String>();
    [
        ("3 records of 4,096 bytes", format!("G\t16384\t4096\t1\t1\ta\ts\n{}", records(3, 4096))),
        ("255 records of 16 bytes, rejected", format!("G\t4096\t256\t16\t1\tr\ts\n{}", records(255, 16))),
        ("255 records of 64 bytes, carrying on", format!("G\t16384\t256\t16\t1\ta\tc\n{}", records(255, 64))),
    ]
}

/// How often each side is timed.
const ROUNDS: usize = 5;

/// Milliseconds of a process from its start to its end, with the script on its standard input and its output thrown away.
fn timed(mut command: Command, text: &[u8]) -> f64 {
    let start = Instant::now();
    let child = command.stdin(Stdio::piped()).stdout(Stdio::null()).stderr(Stdio::piped()).spawn();
    let output = fed(child.expect("a program that was there a moment ago"), text, 1);
    assert!(output.status.success(), "a program that ended well a moment ago");
    start.elapsed().as_secs_f64() * 1e3
}

fn bench(_: &mut Random) {
    println!("{:<52} {:>10} {:>10} {:>8}", "ms for each process", "the Rust", "this", "ratio");
    let driver = std::env::current_exe().expect("the driver's own path");
    for (what, text) in timed_scripts() {
        let text = text.as_bytes();
        let swept = bench::sweep(text);
        let runs = swept.as_ref().map_or(0, bench::Runs::len);
        for program in BOTH {
            let name = program.name();
            let wanted = printed(program, &swept);
            assert!(
                ended(program, text, 1).as_ref() == Ok(&wanted),
                "{name}, {what}: the two sides print different text"
            );
            let mut times = (Vec::new(), Vec::new());
            for _ in 0..ROUNDS {
                let mut rust = Command::new(&driver);
                rust.arg(format!("rust-{name}"));
                times.0.push(timed(rust, text));
                times.1.push(timed(Command::new(asked().folder.join(name)), text));
            }
            let (rust, ours) = (median(times.0), median(times.1));
            let what = format!("{name}: {what}, {runs} runs");
            println!("{what:<52} {rust:>10.1} {ours:>10.1} {:>8.2}", ours / rust);
        }
    }
}

// ---- the samples that crates/program_cases replays

pub fn sample_sweep() -> String {
    sample_of(Program::Sweep)
}

pub fn sample_judge() -> String {
    sample_of(Program::Judge)
}

fn sample() -> String {
    sample_sweep() + &sample_judge()
}

/// Each script on a line, with its tabs, LFs and CRs to be seen, of a long one how many bytes it has; then what the program prints.
fn sample_of(program: Program) -> String {
    let mut found = String::new();
    for text in sample_scripts() {
        let swept = bench::sweep(&text);
        if text.len() > 1000 {
            found += &text.len().to_string();
        } else {
            let text = str::from_utf8(&text).expect("scripts of the sample");
            found += &text.replace('\t', "\\t").replace('\n', "\\n").replace('\r', "\\r");
        }
        found.push('\n');
        found += str::from_utf8(&printed(program, &swept)).expect("letters and digits");
    }
    found
}

// ---- the sample that crates/part_cases replays

/// Parts of the Rust's text, from each line on, for buffers of several lengths.
pub fn sample_parts() -> String {
    let scripts: [&[u8]; 2] = [b"G\t4\t4\t1\t1\ta\ts\nB\t7\nP\t0\t00\nS\nN\n", b"G\t4\t4\t1\t1\ta\ts\nX\n"];
    let mut sample = String::new();
    for script in scripts {
        for room in [0, 5, 8, 17, 40, 256] {
            for from in 0..14 {
                for program in [Program::Sweep, Program::Judge] {
                    let text = printed(program, &bench::sweep(script));
                    let text = str::from_utf8(&text).expect("letters and digits");
                    sample += &format!("{} {room} {from}", program.name());
                    sample += &part(text, room, from);
                }
            }
        }
    }
    sample
}

/// As many whole lines as there is room for.
fn part(text: &str, room: usize, from: usize) -> String {
    let lines: Vec<&str> = text.split_inclusive('\n').skip(from).collect();
    let mut bytes = String::new();
    let mut taken = 0;
    while taken < lines.len() && bytes.len() + lines[taken].len() <= room {
        bytes += lines[taken];
        taken += 1;
    }
    if taken == 0 && !lines.is_empty() {
        return " refused 13\n".to_string();
    }
    format!(" {taken} {} {}\n{bytes}", bytes.len(), lines.len() - taken)
}
