//! A reader of scripts, written from document 01's "Scripts and the two programs" and "Numbers from the input" alone. The
//! Rust that this project follows has none: there the writer is a closure. One pass, line by line and field by field.

use crate::storage;
use waymaker_flash::storage::Geometry;

/// A script above this many bytes is refused with 9.
pub const MOST_TEXT: usize = 65_536;
/// A program has at most this many bytes.
pub const MOST_BYTES: usize = 4_096;
/// A capacity above this is refused with 10.
pub const MOST_CAPACITY: u32 = 16_384;

/// Line 1: capacity, erase, program and read unit, and what the two letters say.
#[derive(Clone, Copy, PartialEq, Debug)]
pub struct Head {
    pub units: [u32; 4],
    pub rejected: bool,
    pub carries_on: bool,
}

/// The calls, a row for each: its letter (in lent columns a code, script.rs), up to three numbers (0 for none; a program's second is how many bytes it has), and
/// where in the pool its bytes start.
#[derive(Clone, Default, PartialEq, Debug)]
pub struct Rows {
    pub kinds: Vec<u8>,
    pub firsts: Vec<u32>,
    pub seconds: Vec<u32>,
    pub thirds: Vec<u32>,
    pub starts: Vec<u32>,
    pub pool: Vec<u8>,
}

impl Rows {
    fn clear(&mut self) {
        self.kinds.clear();
        self.firsts.clear();
        self.seconds.clear();
        self.thirds.clear();
        self.starts.clear();
        self.pool.clear();
    }

    fn push(&mut self, kind: u8, [first, second, third]: [u32; 3], start: usize) {
        self.kinds.push(kind);
        self.firsts.push(first);
        self.seconds.push(second);
        self.thirds.push(third);
        self.starts.push(start as u32);
    }
}

/// Reads a script into rows: line 1, or document 01's number and the line.
pub fn read(text: &[u8], rows: &mut Rows) -> Result<Head, (u32, u32)> {
    rows.clear();
    if text.len() > MOST_TEXT {
        return Err((9, 0));
    }
    let mut lines = text.split_inclusive(|&byte| byte == b'\n');
    let head = lines.next().and_then(head).ok_or((8, 1))?;
    let [capacity, erase, program, read] = head.units;
    Geometry::new(capacity, erase, program, read).map_err(|error| (storage::number_of(error), 1))?;
    if capacity > MOST_CAPACITY {
        return Err((10, 1));
    }
    for (line, number) in lines.zip(2..) {
        call(line, rows).ok_or((8, number))?;
    }
    Ok(head)
}

/// A line's fields. The last line may lack its LF, and then it is none.
fn fields(line: &[u8]) -> Option<impl Iterator<Item = &[u8]>> {
    Some(line.strip_suffix(b"\n")?.split(|&byte| byte == b'\t'))
}

fn head(line: &[u8]) -> Option<Head> {
    let mut fields = fields(line)?;
    if fields.next()? != b"G" {
        return None;
    }
    let units = [number(fields.next()?)?, number(fields.next()?)?, number(fields.next()?)?, number(fields.next()?)?];
    let rejected = flag(fields.next()?, b"a", b"r")?;
    let carries_on = flag(fields.next()?, b"s", b"c")?;
    fields.next().is_none().then_some(Head { units, rejected, carries_on })
}

/// Which of two letters a field is.
fn flag(field: &[u8], no: &[u8], yes: &[u8]) -> Option<bool> {
    (field == no || field == yes).then_some(field == yes)
}

/// A line after the first, put to the rows.
fn call(line: &[u8], rows: &mut Rows) -> Option<()> {
    let mut fields = fields(line)?;
    let &[kind] = fields.next()? else { return None };
    let start = rows.pool.len();
    let numbers = match kind {
        b'B' => [number(fields.next()?)?, 0, 0],
        b'N' | b'S' => [0, 0, 0],
        b'M' => [number(fields.next()?)?, number(fields.next()?)?, number(fields.next()?)?],
        b'E' => [number(fields.next()?)?, number(fields.next()?)?, 0],
        b'P' => [number(fields.next()?)?, bytes(fields.next()?, &mut rows.pool)?, 0],
        _ => return None,
    };
    if fields.next().is_some() {
        return None;
    }
    rows.push(kind, numbers, start);
    Some(())
}

/// A u32, decimal, without leading zeros.
fn number(field: &[u8]) -> Option<u32> {
    if field.is_empty() || (field.len() > 1 && field[0] == b'0') {
        return None;
    }
    field.iter().try_fold(0u32, |value, byte| {
        let digit = byte.is_ascii_digit().then(|| u32::from(byte - b'0'))?;
        value.checked_mul(10)?.checked_add(digit)
    })
}

/// Lower-case hexadecimal pairs, put to the pool: how many.
fn bytes(field: &[u8], pool: &mut Vec<u8>) -> Option<u32> {
    if field.len() % 2 != 0 || field.len() / 2 > MOST_BYTES {
        return None;
    }
    for pair in field.chunks_exact(2) {
        pool.push(digit(pair[0])? * 16 + digit(pair[1])?);
    }
    Some(field.len() as u32 / 2)
}

fn digit(byte: u8) -> Option<u8> {
    match byte {
        b'0'..=b'9' => Some(byte - b'0'),
        b'a'..=b'f' => Some(byte - b'a' + 10),
        _ => None,
    }
}
