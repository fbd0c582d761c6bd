//! The layers `text` and `script` against a reader of our own (script_reader.rs), written from document 01 alone: number and
//! line, line 1, and every lent column whole, with what is not to be written.

use crate::common::{self, Comparison, Difference, Input, Layer, Random, bench_row, cuts, without};
use crate::script_reader::{Head, MOST_BYTES, MOST_TEXT, Rows, read};
use std::cell::RefCell;
use std::fmt::{self, Debug, Formatter};
use std::hint::black_box;

pub const LAYER: Layer = Layer { name: "script", compare, bench, sample };

// crates/script_exported/src/lib.rt. Nothing proves that these declarations are those of that file: this is what is
// trusted here. A slice crosses as a pointer, then a length; an array as a pointer.
#[rustfmt::skip]
unsafe extern "C" {
    fn script_count_calls(text: *const u8, text_len: usize, reply: &mut Reply);
    fn script_read_script(
        text: *const u8, text_len: usize, kinds: *mut u8, kinds_len: usize, firsts: *mut u32, firsts_len: usize,
        seconds: *mut u32, seconds_len: usize, thirds: *mut u32, thirds_len: usize, starts: *mut u32, starts_len: usize,
        pool: *mut u8, pool_len: usize, reply: &mut Reply,
    );
}

/// Number and line, the four units, whether a bit set is rejected, whether the writer carries on, how many calls and bytes.
type Reply = [u32; 10];

/// What stands in a place before it is written.
const UNWRITTEN: u32 = 0xDEAD_BEEF;
const UNWRITTEN_BYTE: u8 = 0xA5;

/// A text, and by how much each of the five columns and the pool is longer than the script's lines and bytes.
#[derive(Clone)]
struct Case {
    text: Vec<u8>,
    spare: [i32; 6],
}

/// Each line once, with how often it comes: the longest scripts have thousands that are the same.
impl Debug for Case {
    fn fmt(&self, f: &mut Formatter<'_>) -> fmt::Result {
        let lines: Vec<&[u8]> = self.text.split_inclusive(|&byte| byte == b'\n').collect();
        for same in lines.chunk_by(|a, b| a == b) {
            write!(f, "\"{}\"", same[0].escape_ascii())?;
            if same.len() > 1 {
                write!(f, " {} times", same.len())?;
            }
            write!(f, " ")?;
        }
        write!(f, "({} bytes), spare {:?}", self.text.len(), self.spare)
    }
}

impl Case {
    fn new(text: impl Into<Vec<u8>>) -> Self {
        Self { text: text.into(), spare: [0; 6] }
    }

    /// How long the lent columns and the pool are: one row for each line after the first, half a byte for each digit.
    fn lent(&self) -> [usize; 6] {
        let mut rows = Rows::default();
        let lines = self.text.iter().filter(|&&byte| byte == b'\n').count().saturating_sub(1);
        let bytes = read(&self.text, &mut rows).map_or(self.text.len() / 2, |_| rows.pool.len());
        let mut lent = [lines; 6];
        lent[5] = bytes;
        for (cells, more) in lent.iter_mut().zip(self.spare) {
            *cells = cells.saturating_add_signed(more as isize);
        }
        lent
    }
}

impl Input for Case {
    fn smaller(&self) -> Vec<Self> {
        let lines: Vec<&[u8]> = self.text.split_inclusive(|&byte| byte == b'\n').collect();
        let fewer = cuts(lines.len()).into_iter().map(|(from, to)| without(&lines, from, to).concat());
        let shorter = cuts(self.text.len()).into_iter().map(|(from, to)| without(&self.text, from, to));
        let mut found: Vec<Self> = fewer.chain(shorter).map(|text| Self { text, ..self.clone() }).collect();
        for (column, _) in self.spare.iter().enumerate().filter(|(_, spare)| **spare != 0) {
            let mut less = self.clone();
            less.spare[column] = 0;
            found.push(less);
        }
        found
    }
}

/// What counting answers, what reading answers, and the columns and the pool after it.
#[derive(PartialEq, Debug)]
struct Answer {
    counted: Reply,
    read: Reply,
    rows: Rows,
}

impl common::Answer for Answer {
    fn number(&self) -> u32 {
        self.read[0]
    }
}

/// Columns and a pool of so many cells.
fn filled(lent: [usize; 6], byte: u8, number: u32) -> Rows {
    Rows {
        kinds: vec![byte; lent[0]],
        firsts: vec![number; lent[1]],
        seconds: vec![number; lent[2]],
        thirds: vec![number; lent[3]],
        starts: vec![number; lent[4]],
        pool: vec![byte; lent[5]],
    }
}

fn unwritten(lent: [usize; 6]) -> Rows {
    filled(lent, UNWRITTEN_BYTE, UNWRITTEN)
}

fn told(answer: Result<Head, (u32, u32)>, rows: &Rows) -> Reply {
    match answer {
        Err((number, line)) => [number, line, 0, 0, 0, 0, 0, 0, 0, 0],
        Ok(Head { units: [capacity, erase, program, read], rejected, carries_on }) => {
            let (rejected, carries_on) = (rejected.into(), carries_on.into());
            let (calls, bytes) = (rows.kinds.len() as u32, rows.pool.len() as u32);
            [0, 0, capacity, erase, program, read, rejected, carries_on, calls, bytes]
        }
    }
}

/// The lent column of kinds has a code for each of the reader's letters.
fn code(letter: u8) -> u8 {
    match letter {
        b'P' => 0,
        b'E' => 1,
        b'S' => 2,
        b'B' => 3,
        b'N' => 4,
        b'M' => 5,
        _ => panic!("the reader gives no other letter than these: {letter}"),
    }
}

/// The reader makes lists; here columns are lent, with codes for letters. Unequal ones are held to 12 and short ones to 13, both with line 0 and
/// after the script's own numbers; a refusal leaves every cell, and what is past the last row stays as it was.
fn held(text: &[u8], mut rows: Rows) -> Answer {
    let mut made = Rows::default();
    let answer = read(text, &mut made);
    let counted = told(answer, &made);
    let (calls, bytes) = (made.kinds.len(), made.pool.len());
    let lent = rows.kinds.len();
    let others = [&rows.firsts, &rows.seconds, &rows.thirds, &rows.starts];
    let refusal = match answer {
        Err(refusal) => Some(refusal),
        Ok(_) if others.iter().any(|column| column.len() != lent) => Some((12, 0)),
        Ok(_) if lent < calls || rows.pool.len() < bytes => Some((13, 0)),
        Ok(_) => None,
    };
    if let Some(refusal) = refusal {
        return Answer { counted, read: told(Err(refusal), &made), rows };
    }
    for (kind, &letter) in rows.kinds.iter_mut().zip(&made.kinds) {
        *kind = code(letter);
    }
    rows.firsts[..calls].copy_from_slice(&made.firsts);
    rows.seconds[..calls].copy_from_slice(&made.seconds);
    rows.thirds[..calls].copy_from_slice(&made.thirds);
    rows.starts[..calls].copy_from_slice(&made.starts);
    rows.pool[..bytes].copy_from_slice(&made.pool);
    Answer { counted, read: counted, rows }
}

fn rust(case: &Case) -> Answer {
    held(&case.text, unwritten(case.lent()))
}

fn ours(case: &Case) -> Answer {
    let mut rows = unwritten(case.lent());
    let read = our_read(&case.text, &mut rows);
    let mut counted = [UNWRITTEN; 10];
    // SAFETY: the pointer goes with the text's length, and only `counted`, which nothing else uses, is written.
    unsafe { script_count_calls(case.text.as_ptr(), case.text.len(), &mut counted) };
    Answer { counted, read, rows }
}

fn our_read(text: &[u8], rows: &mut Rows) -> Reply {
    let Rows { kinds, firsts, seconds, thirds, starts, pool } = rows;
    let mut reply = [UNWRITTEN; 10];
    // SAFETY: each pointer goes with its list's length, and what is written is borrowed here alone.
    unsafe {
        script_read_script(
            text.as_ptr(),
            text.len(),
            kinds.as_mut_ptr(),
            kinds.len(),
            firsts.as_mut_ptr(),
            firsts.len(),
            seconds.as_mut_ptr(),
            seconds.len(),
            thirds.as_mut_ptr(),
            thirds.len(),
            starts.as_mut_ptr(),
            starts.len(),
            pool.as_mut_ptr(),
            pool.len(),
            &mut reply,
        );
    }
    reply
}

/// A script that has a line of every kind.
const EVERY_KIND: &str = "G\t16\t8\t4\t2\tr\tc\nB\t7\nP\t12\t00ff9a\nP\t0\t\nE\t8\t16\nS\nN\nM\t3\t10\t2\n";
/// A line 1 for scripts of other lines.
const HEAD: &str = "G\t16384\t8\t4\t2\ta\ts\n";

fn compare(comparison: &mut Comparison) -> Result<(), Difference> {
    damaged(comparison)?;
    fields(comparison)?;
    pairs(comparison)?;
    heads(comparison)?;
    rooms(comparison)?;
    at_limits(comparison)?;
    for _ in 0..comparison.size {
        let case = random_case(&mut comparison.random);
        comparison.same(&case, rust, ours)?;
    }
    Ok(())
}

/// The script with every kind of line: cut at each place; each place and each two places left out; each place and each line
/// doubled; every byte put over and before each place.
fn damaged(comparison: &mut Comparison) -> Result<(), Difference> {
    let text = EVERY_KIND.as_bytes();
    let lines: Vec<&[u8]> = text.split_inclusive(|&byte| byte == b'\n').collect();
    let mut cases = vec![Case::new(text)];
    for place in 0..text.len() {
        cases.push(Case::new(&text[..place]));
        cases.push(Case::new(&text[place..]));
        let one = without(text, place, place + 1);
        for other in place..one.len() {
            cases.push(Case::new(without(&one, other, other + 1)));
        }
        cases.push(Case::new(one));
        for byte in 0..=u8::MAX {
            cases.push(Case::new([&text[..place], &[byte], &text[place..]].concat()));
            cases.push(Case::new([&text[..place], &[byte], &text[place + 1..]].concat()));
        }
    }
    for from in 0..lines.len() {
        for to in from..=lines.len() {
            cases.push(Case::new([&lines[..to], &lines[from..]].concat().concat()));
            cases.push(Case::new(without(&lines, from, to).concat()));
        }
    }
    for case in cases {
        comparison.same(&case, rust, ours)?;
    }
    Ok(())
}

/// What a number's field may and may not be.
#[rustfmt::skip]
const NUMBERS: [&str; 32] = [
    "0", "1", "4", "9", "10", "4294967295", "4294967294", "3999999999", "", "00", "01", "010", "4294967296", "4294967297",
    "4294967300", "9999999999", "42949672950", "04294967295", "18446744073709551615", "18446744073709551616",
    "18446744073709551620", "340282366920938463463374607431768211460", "+1", "-1", " 1", "1 ", "1\r", "0x1", "1e1", "a", "1\t1", "1\n",
];

/// Each of these in every place of every kind of line that has a number.
fn fields(comparison: &mut Comparison) -> Result<(), Difference> {
    let lines =
        ["B\t#\n", "M\t#\t1\t2\n", "M\t1\t#\t2\n", "M\t1\t2\t#\n", "P\t#\t00\n", "P\t#\t\n", "E\t#\t1\n", "E\t1\t#\n"];
    for number in NUMBERS {
        for line in lines {
            let line = line.replace('#', number);
            for text in [format!("{HEAD}{line}"), format!("{HEAD}S\n{line}N\n"), format!("{HEAD}{line}x\n")] {
                comparison.same(&Case::new(text), rust, ours)?;
            }
        }
        for head in
            ["G\t#\t8\t4\t2\ta\ts\n", "G\t16\t#\t4\t2\ta\ts\n", "G\t16\t8\t#\t2\tr\ts\n", "G\t16\t8\t4\t#\ta\tc\n"]
        {
            comparison.same(&Case::new(head.replace('#', number)), rust, ours)?;
        }
    }
    Ok(())
}

/// Programs of up to 70 bytes, with every byte in turn, and of up to 140 digits with something else at each place.
fn pairs(comparison: &mut Comparison) -> Result<(), Difference> {
    for digits in 0..=140 {
        let field: Vec<u8> = (0..digits).map(|_| comparison.random.pick(b"0123456789abcdef")).collect();
        let script = |field: &[u8]| Case::new([HEAD.as_bytes(), b"P\t3\t", field, b"\nS\n"].concat());
        comparison.same(&script(&field), rust, ours)?;
        for place in 0..digits {
            for byte in *b"/:`g@AFG \t\r\n\0\xff" {
                let mut field = field.clone();
                field[place] = byte;
                comparison.same(&script(&field), rust, ours)?;
            }
        }
    }
    for value in 0..=u16::MAX {
        comparison.same(&Case::new([HEAD.as_bytes(), b"P\t0\t", &value.to_be_bytes(), b"\n"].concat()), rust, ours)?;
    }
    Ok(())
}

/// Devices of every number, with each pair of letters and with a faulty line after: 8 for line 1 comes before 1 to 3 and 10,
/// and these before an 8 of a later line.
fn heads(comparison: &mut Comparison) -> Result<(), Difference> {
    let capacities =
        [0, 1, 3, 4, 8, 12, 16, 16_380, 16_383, 16_384, 16_385, 16_388, 32_768, 1 << 31, u32::MAX - 3, u32::MAX];
    let units = [0, 1, 2, 3, 4, 8, 12, 16_384, 32_768, 1 << 31, u32::MAX];
    for capacity in capacities {
        for place in 0..units.len().pow(3) {
            let [erase, program, read] = [place / 121, place / 11 % 11, place % 11].map(|unit| units[unit]);
            for letters in ["a\ts", "a\tc", "r\ts", "r\tc", "s\ta", "a\tx", "a\ts\t", "", "a"] {
                let head = format!("G\t{capacity}\t{erase}\t{program}\t{read}\t{letters}\n");
                comparison.same(&Case::new(head.clone()), rust, ours)?;
                comparison.same(&Case::new(head + "S\nx\n"), rust, ours)?;
            }
        }
    }
    Ok(())
}

/// The five columns and the pool each one longer, exact or one shorter, with a script of every kind of line, one without
/// bytes, one without calls, and one that is refused.
fn rooms(comparison: &mut Comparison) -> Result<(), Difference> {
    for text in [EVERY_KIND, &format!("{HEAD}S\nN\n"), HEAD, &format!("{HEAD}S\nn\n")] {
        for place in 0..3i32.pow(6) {
            let spare = [1, 3, 9, 27, 81, 243].map(|part| place / part % 3 - 1);
            comparison.same(&Case { spare, ..Case::new(text) }, rust, ours)?;
        }
        for less in 2..9 {
            comparison.same(&Case { spare: [-less; 6], ..Case::new(text) }, rust, ours)?;
        }
    }
    Ok(())
}

/// A script, then one line again and again, as long as can be; the rest is `B` lines whose ids have as many digits as it takes.
pub fn padded(start: &str, line: &str, size: usize) -> Vec<u8> {
    let mut text = start.as_bytes().to_vec();
    while text.len() + line.len() + 4 < size {
        text.extend_from_slice(line.as_bytes());
    }
    while text.len() < size {
        let digits = match size - text.len() {
            rest @ 4..=12 => rest - 3,
            rest => (rest - 7).min(9),
        };
        text.extend_from_slice(format!("B\t{}\n", "1".repeat(digits)).as_bytes());
    }
    text
}

/// Scripts of 65,535 to 65,537 bytes, whole, with a faulty last line and with columns one cell short; programs of 4,095 to
/// 4,098 bytes.
fn at_limits(comparison: &mut Comparison) -> Result<(), Difference> {
    let long = |bytes: usize| format!("P\t4294967295\t{}\n", "a5".repeat(bytes));
    for line in [
        "S\n",
        "N\n",
        "B\t4294967295\n",
        "M\t1\t2\t3\n",
        "E\t0\t8\n",
        "P\t0\t\n",
        "P\t0\t5a\n",
        &long(100),
        &long(MOST_BYTES),
    ] {
        for size in MOST_TEXT - 1..=MOST_TEXT + 1 {
            let whole = Case::new(padded(HEAD, line, size));
            assert_eq!(whole.text.len(), size);
            let mut unended = whole.clone();
            unended.text[size - 1] = b'1';
            let mut unknown = whole.clone();
            let last =
                unknown.text[..size - 1].iter().rposition(|&byte| byte == b'\n').expect("a line before the last");
            unknown.text[last + 1] = b'G';
            let short = Case { spare: [-1, -1, -1, -1, -1, 0], ..whole.clone() };
            let poor = Case { spare: [0, 0, 0, 0, 0, -1], ..whole.clone() };
            let uneven = Case { spare: [0, 0, 0, 0, -1, -1], ..whole.clone() };
            for case in [whole, unended, unknown, short, poor, uneven] {
                comparison.same(&case, rust, ours)?;
            }
        }
    }
    for bytes in MOST_BYTES - 1..=MOST_BYTES + 2 {
        for text in [format!("{HEAD}{}", long(bytes)), format!("{HEAD}{}S\nx\n", long(bytes).repeat(3))] {
            comparison.same(&Case::new(text), rust, ours)?;
        }
    }
    Ok(())
}

/// Up to a dozen lines, now and then hundreds, with up to three changes; columns now and then not of the script's size.
fn random_case(random: &mut Random) -> Case {
    let many = if random.below(256) == 0 { 400 } else { 12 };
    let mut text = random_script(random, many);
    for _ in 0..random.pick(&[0, 0, 1, 1, 1, 2, 3]) {
        change(random, &mut text);
    }
    let mut case = Case::new(text);
    match random.below(8) {
        0 => case.spare = [random.pick(&[-2, -1, 1, 2]); 6],
        1 => case.spare[random.below(6) as usize] = random.pick(&[-1, 1]),
        _ => {}
    }
    case
}

fn random_script(random: &mut Random, many: u32) -> Vec<u8> {
    let shifts = random.pick(&[5, 5, 5, 15]);
    let mut units = [0, 1, 2].map(|_| random.below(shifts));
    units.sort_unstable();
    let [read, program, erase] = units.map(|shift| 1u32 << shift);
    let capacity = erase * (1 + random.below((MOST_TEXT as u32 / 4 / erase).min(64)));
    let (rule, mode) = (random.pick(&['a', 'r']), random.pick(&['s', 'c']));
    let mut text = format!("G\t{capacity}\t{erase}\t{program}\t{read}\t{rule}\t{mode}\n").into_bytes();
    for _ in 0..random.below(many + 1) {
        text.extend_from_slice(random_line(random).as_bytes());
    }
    text
}

fn random_line(random: &mut Random) -> String {
    let mut number = || match random.below(8) {
        0 => random.u32(),
        1 => u32::MAX - random.below(3),
        2 => 10u32.pow(random.below(10)),
        _ => random.below(100),
    };
    let [a, b, c] = [number(), number(), number()];
    match random.below(6) {
        0 => format!("B\t{a}\n"),
        1 => "N\n".to_string(),
        2 => format!("M\t{a}\t{b}\t{c}\n"),
        3 => {
            let most = random.pick(&[1, 5, 5, 40, 40, 300]);
            let bytes: String = (0..random.below(most)).map(|_| format!("{:02x}", random.below(256))).collect();
            format!("P\t{a}\t{bytes}\n")
        }
        4 => format!("E\t{a}\t{b}\n"),
        _ => "S\n".to_string(),
    }
}

/// A byte left out, put in, changed or doubled, a line moved, or the text cut. What it makes may still be a script.
pub fn change(random: &mut Random, text: &mut Vec<u8>) {
    let byte = match random.below(4) {
        0 => random.u32() as u8,
        _ => random.pick(b"\t\t\t\n\n\n\r 0123456789afgAFBNMPESGarsc\x0b\0"),
    };
    let end = text.len() as u32;
    if end == 0 {
        return text.push(byte);
    }
    let place = random.below(end) as usize;
    match random.below(7) {
        0 | 1 => drop(text.remove(place)),
        2 => text.insert(place, byte),
        3 => text[place] = byte,
        4 => text.insert(place, text[place]),
        5 => text.swap(place, random.below(end) as usize),
        _ => text.truncate(place),
    }
}

/// A script of so many bytes at most: line 1, and lines as they come.
fn script_of(size: usize, mut line: impl FnMut() -> String) -> Vec<u8> {
    let mut text = HEAD.as_bytes().to_vec();
    loop {
        let line = line();
        if text.len() + line.len() > size {
            return text;
        }
        text.extend_from_slice(line.as_bytes());
    }
}

/// Four megabytes of scripts of a size, no two of them alike where lines are random, so that nothing is learned by heart. Both
/// sides read into what they were given before: no list is made while time is taken.
fn bench(random: &mut Random) {
    let program = format!("P\t128\t{}\n", "0123456789abcdef".repeat(16));
    let rows = (RefCell::new(Rows::default()), RefCell::new(unwritten([MOST_TEXT / 2; 6])));
    for (what, kind) in [("lines of every kind", 0), ("P lines of 128 bytes", 1), ("N and S lines", 2)] {
        for size in [8 << 10, 32 << 10, MOST_TEXT] {
            let line = |random: &mut Random| match kind {
                0 => random_line(random),
                1 => program.clone(),
                _ => random.pick(&["N\n", "S\n"]).to_string(),
            };
            let texts: Vec<_> = (0..(1 << 22) / size).map(|_| script_of(size, || line(random))).collect();
            let rust = |text: &Vec<u8>| {
                let rows = &mut *rows.0.borrow_mut();
                let answer = read(black_box(text), rows);
                told(answer, rows)
            };
            let ours = |text: &Vec<u8>| our_read(black_box(text), &mut rows.1.borrow_mut());
            bench_row(
                &format!("script: {what}, {} KiB, a byte", size >> 10),
                texts.iter().map(Vec::len).sum(),
                || texts.iter().flat_map(rust).map(u64::from).sum(),
                || texts.iter().flat_map(ours).map(u64::from).sum(),
            );
        }
    }
}

// The sample that crates/script_cases replays: the same texts and the same order as in its src/main.rt.
#[rustfmt::skip]
const TEXTS: [&str; 63] = [
    "G\t4\t4\t1\t1\ta\ts\nB\t7\nP\t0\t00\nS\nN\n",
    "G\t16384\t16384\t16384\t16384\tr\ts\n",
    "G\t4\t4\t1\t1\ta\tc\nB\t0\nB\t4294967295\nM\t4294967295\t4294967295\t4294967295\n",
    "G\t4\t4\t1\t1\ta\tc\nE\t4294967295\t4294967295\nE\t0\t0\nP\t4294967295\t0123456789abcdef\n",
    "",
    "\n",
    "S\n",
    "G\n",
    "G\t4\t4\t1\t1\ta\n",
    "G\t4\t4\t1\t1\ta\ts\ts\n",
    "G\t4\t4\t1\t1\ts\ta\n",
    "G\t4\t4\t1\t1\ta\ts\r\n",
    "G\t4\t4\t1\t1\ta\ts",
    "G\t4\t4\t1\t01\ta\ts\n",
    "G\t4294967296\t4\t1\t1\ta\ts\n",
    "G\t0\t3\t4\t4\ta\ts\n",
    "G\t16\t3\t4\t4\ta\ts\n",
    "G\t20\t8\t4\t4\ta\ts\n",
    "G\t16385\t1\t1\t1\ta\ts\n",
    "G\t16386\t4\t1\t1\ta\ts\n",
    "G\t4294967295\t1\t1\t1\ta\ts\n",
    "G\t0\t3\t4\t4\ta\tx\n",
    "G\t0\t3\t4\t4\ta\ts\nx\n",
    "G\t16388\t4\t4\t4\ta\ts\nx\n",
    "G\t4\t4\t1\t1\ta\ts\nX\n",
    "G\t4\t4\t1\t1\ta\ts\ns\n",
    "G\t4\t4\t1\t1\ta\ts\nS\nG\t4\t4\t1\t1\ta\ts\n",
    "G\t4\t4\t1\t1\ta\ts\nS\n\nS\n",
    "G\t4\t4\t1\t1\ta\ts\nS\nS\nS \n",
    "G\t4\t4\t1\t1\ta\ts\nS\nS\nS\nS\r\n",
    "G\t4\t4\t1\t1\ta\ts\nSS\n",
    "G\t4\t4\t1\t1\ta\ts\nS\t\n",
    "G\t4\t4\t1\t1\ta\ts\nN\t1\n",
    "G\t4\t4\t1\t1\ta\ts\nB\n",
    "G\t4\t4\t1\t1\ta\ts\nB\t1\t\n",
    "G\t4\t4\t1\t1\ta\ts\nM\t1\t2\n",
    "G\t4\t4\t1\t1\ta\ts\nM\t1\t2\t3\t4\n",
    "G\t4\t4\t1\t1\ta\ts\nE\t1\n",
    "G\t4\t4\t1\t1\ta\ts\nE\t1\t2\t3\n",
    "G\t4\t4\t1\t1\ta\ts\nP\t1\n",
    "G\t4\t4\t1\t1\ta\ts\nP\t1\t00\t00\n",
    "G\t4\t4\t1\t1\ta\ts\nB\t1\nS\nN\nB\t2\nS\nN\nB\t3\nS\nN",
    "G\t4\t4\t1\t1\ta\ts\nN\nN\nN\nN\nN\nN\nN\nN\nN\nN\n",
    "G\t4\t4\t1\t1\ta\ts\nB\t\n",
    "G\t4\t4\t1\t1\ta\ts\nB\t00\n",
    "G\t4\t4\t1\t1\ta\ts\nB\t07\n",
    "G\t4\t4\t1\t1\ta\ts\nB\t+7\n",
    "G\t4\t4\t1\t1\ta\ts\nB\t-7\n",
    "G\t4\t4\t1\t1\ta\ts\nB\t4294967296\n",
    "G\t4\t4\t1\t1\ta\ts\nS\nM\t4294967296\t0\t0\n",
    "G\t4\t4\t1\t1\ta\ts\nS\nM\t0\t4294967296\t0\n",
    "G\t4\t4\t1\t1\ta\ts\nS\nM\t0\t0\t18446744073709551616\n",
    "G\t4\t4\t1\t1\ta\ts\nS\nN\nE\t4294967300\t0\n",
    "G\t4\t4\t1\t1\ta\ts\nS\nN\nE\t0\t42949672950\n",
    "G\t4\t4\t1\t1\ta\ts\nS\nN\nP\t9999999999\t00\n",
    "G\t4\t4\t1\t1\ta\ts\nP\t0\t0\n",
    "G\t4\t4\t1\t1\ta\ts\nP\t0\t000\n",
    "G\t4\t4\t1\t1\ta\ts\nP\t0\t0F\n",
    "G\t4\t4\t1\t1\ta\ts\nP\t0\t0g\n",
    "G\t4\t4\t1\t1\ta\ts\nP\t0\t/0\n",
    "G\t4\t4\t1\t1\ta\ts\nP\t0\t:0\n",
    "G\t4\t4\t1\t1\ta\ts\nP\t0\t`0\n",
    "G\t4\t4\t1\t1\ta\ts\nP\t0\t00 \n",
];
/// With how many cells the third column has.
#[rustfmt::skip]
const ROOMS: [(usize, &str); 8] = [
    (8, "G\t4\t4\t1\t1\ta\ts\nN\nN\nN\nN\nN\nN\nN\nS\n"),
    (8, "G\t4\t4\t1\t1\ta\ts\nN\nN\nN\nN\nN\nN\nN\nS\nS\n"),
    (8, "G\t4\t4\t1\t1\ta\ts\nP\t0\t0001020304050607\n"),
    (8, "G\t4\t4\t1\t1\ta\ts\nP\t0\t0001020304050607\nP\t1\t08\n"),
    (7, "G\t4\t4\t1\t1\ta\ts\nS\n"),
    (7, "G\t4\t4\t1\t1\ta\ts\nN\nN\nN\nN\nN\nN\nN\nS\nS\n"),
    (7, "G\t4\t4\t1\t1\ta\ts\nx\n"),
    (7, "G\t16385\t1\t1\t1\ta\ts\n"),
];

/// The texts; the script with every kind of line, cut at each place, with a tab, an LF and a 0 there, and without that place;
/// then texts at the limits, of which the length and the counts are shown.
fn sample() -> String {
    let mut lines = String::new();
    for text in TEXTS {
        sample_line(&mut lines, text.as_bytes(), 8);
    }
    for (thirds, text) in ROOMS {
        sample_line(&mut lines, text.as_bytes(), thirds);
    }
    let text = EVERY_KIND.as_bytes();
    sample_line(&mut lines, text, 8);
    for place in 0..text.len() {
        sample_line(&mut lines, &text[..place], 8);
        for byte in *b"\t\n0" {
            let mut text = text.to_vec();
            text[place] = byte;
            sample_line(&mut lines, &text, 8);
        }
        sample_line(&mut lines, &without(text, place, place + 1), 8);
    }
    let program = |bytes| format!("G\t4\t4\t1\t1\ta\ts\nP\t0\t{}\n", "00".repeat(bytes));
    let newlines = |bytes| "\n".repeat(bytes);
    for text in [program(MOST_BYTES), program(MOST_BYTES + 1), newlines(MOST_TEXT), newlines(MOST_TEXT + 1)] {
        lines += &text.len().to_string();
        sample_answer(&mut lines, rust(&Case::new(text)).counted);
        lines.push('\n');
    }
    lines
}

fn sample_line(lines: &mut String, text: &[u8], thirds: usize) {
    let Answer { read, rows, .. } = held(text, filled([8, 8, 8, thirds, 8, 8], 9, 9));
    let text = str::from_utf8(text).expect("texts of the sample");
    *lines += &text.replace('\t', "\\t").replace('\n', "\\n").replace('\r', "\\r");
    sample_answer(lines, read);
    numbers(lines, " K", &rows.kinds);
    numbers(lines, " F", &rows.firsts);
    numbers(lines, " S", &rows.seconds);
    numbers(lines, " T", &rows.thirds);
    numbers(lines, " B", &rows.starts);
    numbers(lines, " P", &rows.pool);
    lines.push('\n');
}

/// Nothing but number and line where it was refused.
fn sample_answer(lines: &mut String, reply: Reply) {
    numbers(lines, " A", if reply[0] == 0 { &reply } else { &reply[..2] });
}

fn numbers<N: ToString>(lines: &mut String, letter: &str, numbers: &[N]) {
    *lines += letter;
    for number in numbers {
        lines.push(' ');
        *lines += &number.to_string();
    }
}
