//! The layer `storage` against waymaker-flash's storage.rs: which geometries and spans are refused, and with what number.

use crate::common::{self, Comparison, Difference, Input, Layer, Random, bench_row, smaller_numbers};
use waymaker_flash::storage::{Geometry, GeometryError};

pub const LAYER: Layer = Layer { name: "storage", compare, bench, sample };

// crates/storage_exported/src/lib.rt. Nothing proves that these declarations are those of that file: this is what is
// trusted here. A slice crosses as a pointer, then a length; a reference as a pointer.
unsafe extern "C" {
    fn storage_new(capacity: u32, erase: u32, program: u32, read: u32, kept: *mut u32, kept_len: usize) -> u32;
    safe fn storage_erase_blocks(capacity: u32, erase: u32, program: u32, read: u32, blocks: &mut u32) -> u32;
    safe fn storage_validate_read(capacity: u32, erase: u32, program: u32, read: u32, offset: u32, len: u32) -> u32;
    safe fn storage_validate_program(capacity: u32, erase: u32, program: u32, read: u32, offset: u32, len: u32) -> u32;
    safe fn storage_validate_erase(capacity: u32, erase: u32, program: u32, read: u32, offset: u32, len: u32) -> u32;
}

/// Four units, and a span.
#[derive(Clone, Copy, Debug)]
struct Case {
    capacity: u32,
    erase: u32,
    program: u32,
    read: u32,
    offset: u32,
    len: u32,
}

impl Case {
    fn with_span(self, offset: u32, len: u32) -> Self {
        Self { offset, len, ..self }
    }

    fn as_numbers(self) -> [u32; 6] {
        [self.capacity, self.erase, self.program, self.read, self.offset, self.len]
    }

    fn of_numbers([capacity, erase, program, read, offset, len]: [u32; 6]) -> Self {
        Self { capacity, erase, program, read, offset, len }
    }
}

impl Input for Case {
    fn smaller(&self) -> Vec<Self> {
        let numbers = self.as_numbers();
        let mut found = Vec::new();
        for (place, &number) in numbers.iter().enumerate() {
            for less in smaller_numbers(number) {
                let mut numbers = numbers;
                numbers[place] = less;
                found.push(Self::of_numbers(numbers));
            }
        }
        found
    }
}

/// What the layer's functions answer: a refusal's number, or 0, and what was written through references.
#[derive(PartialEq, Debug)]
struct Answer {
    new: u32,
    kept: [u32; 4],
    erase_blocks: u32,
    blocks: u32,
    validate_read: u32,
    validate_program: u32,
    validate_erase: u32,
}

impl common::Answer for Answer {
    fn number(&self) -> u32 {
        self.validate_program
    }
}

/// What stands in a place before it is written. A refusal leaves it there.
const UNWRITTEN: u32 = 0xDEAD_BEEF;

pub fn number_of(error: GeometryError) -> u32 {
    match error {
        GeometryError::ZeroUnit => 1,
        GeometryError::UnitIsNotAPowerOfTwo => 2,
        GeometryError::UnitsDoNotNest => 3,
        GeometryError::MisalignedOffset => 4,
        GeometryError::MisalignedLength => 5,
        GeometryError::OutOfBounds => 6,
    }
}

fn refusal_of(answer: Result<(), GeometryError>) -> u32 {
    answer.map_or_else(number_of, |()| 0)
}

/// In the Rust only `new` makes a geometry, so one that it refuses meets no other call. Here each call tests the four
/// units itself, and is to answer the number with which the Rust's `new` refuses them.
fn rust(case: &Case) -> Answer {
    match Geometry::new(case.capacity, case.erase, case.program, case.read) {
        Ok(geometry) => Answer {
            new: 0,
            kept: [geometry.capacity(), geometry.erase_size(), geometry.program_size(), geometry.read_size()],
            erase_blocks: 0,
            blocks: geometry.erase_blocks(),
            validate_read: refusal_of(geometry.validate_read(case.offset, case.len)),
            validate_program: refusal_of(geometry.validate_program(case.offset, case.len)),
            validate_erase: refusal_of(geometry.validate_erase(case.offset, case.len)),
        },
        Err(error) => Answer {
            new: number_of(error),
            kept: [UNWRITTEN; 4],
            erase_blocks: number_of(error),
            blocks: UNWRITTEN,
            validate_read: number_of(error),
            validate_program: number_of(error),
            validate_erase: number_of(error),
        },
    }
}

fn ours(case: &Case) -> Answer {
    let &Case { capacity, erase, program, read, offset, len } = case;
    let mut kept = [UNWRITTEN; 4];
    let mut blocks = UNWRITTEN;
    Answer {
        // SAFETY: the pointer and the length are those of an array that nothing else uses during the call.
        new: unsafe { storage_new(capacity, erase, program, read, kept.as_mut_ptr(), kept.len()) },
        kept,
        erase_blocks: storage_erase_blocks(capacity, erase, program, read, &mut blocks),
        blocks,
        validate_read: storage_validate_read(capacity, erase, program, read, offset, len),
        validate_program: storage_validate_program(capacity, erase, program, read, offset, len),
        validate_erase: storage_validate_erase(capacity, erase, program, read, offset, len),
    }
}

fn is_accepted(case: &Case) -> bool {
    Geometry::new(case.capacity, case.erase, case.program, case.read).is_ok()
}

fn compare(comparison: &mut Comparison) -> Result<(), Difference> {
    small(comparison)?;
    at_limits(comparison)?;
    // An input takes nanoseconds here.
    for _ in 0..10 * comparison.size {
        let case = random_case(&mut comparison.random);
        comparison.same(&case, rust, ours)?;
    }
    Ok(())
}

/// Every geometry with a capacity below 40 and units below 20, and with each that is accepted every span up to 45.
fn small(comparison: &mut Comparison) -> Result<(), Difference> {
    for place in 0..40 * 20 * 20 * 20 {
        let geometry = Case {
            capacity: place / 8000,
            erase: place / 400 % 20,
            program: place / 20 % 20,
            read: place % 20,
            offset: 0,
            len: 0,
        };
        let end = if is_accepted(&geometry) { 46 } else { 2 };
        for span in 0..end * end {
            comparison.same(&geometry.with_span(span / end, span % end), rust, ours)?;
        }
    }
    Ok(())
}

/// Spans whose offset, length or end stands at or beside 0, a unit, the capacity or 2^32, on small and large devices.
fn at_limits(comparison: &mut Comparison) -> Result<(), Difference> {
    let shapes = [
        (16, 8, 4, 4),
        (24, 8, 4, 2),
        (4096, 4096, 256, 1),
        (3 << 12, 1 << 12, 1 << 8, 1 << 2),
        (1 << 31, 1 << 31, 1 << 31, 1 << 31),
        (1 << 31, 1 << 16, 1, 1),
        (u32::MAX, 1, 1, 1),
        (u32::MAX - 1, 2, 2, 1),
        (u32::MAX - 15, 16, 8, 4),
        (0xFFFF_0000, 1 << 16, 1 << 8, 1),
        (20, 8, 4, 4),
        (0, 0, 0, 0),
    ];
    for (capacity, erase, program, read) in shapes {
        let mut marks = Vec::new();
        for mark in [0, read, program, erase, capacity, capacity / 2, 0u32.wrapping_sub(capacity)] {
            for beside in [0, 1, 2, read, program, erase] {
                marks.push(mark.wrapping_add(beside));
                marks.push(mark.wrapping_sub(beside));
            }
        }
        marks.sort_unstable();
        marks.dedup();
        for &offset in &marks {
            for &len in &marks {
                let numbers = [capacity, erase, program, read, offset, len];
                comparison.same(&Case::of_numbers(numbers), rust, ours)?;
            }
        }
    }
    Ok(())
}

/// Mostly a geometry that is accepted, or one change away from it: nearly all u32 taken blindly are refused with 2.
fn random_case(random: &mut Random) -> Case {
    let mut shifts = [random.below(32), random.below(32), random.below(32)];
    shifts.sort_unstable();
    let [read, program, erase] = shifts.map(|shift| 1 << shift);
    let capacity = (random.u32() / erase).max(1) * erase;
    let mut numbers = [capacity, erase, program, read, 0, 0];
    // The span: blind, or aligned to a unit, or up to the capacity.
    let unit = random.pick(&[1, read, program, erase]);
    let within = random.pick(&[u32::MAX, capacity, unit.saturating_mul(4)]);
    numbers[4] = random.below(within) / unit * unit;
    numbers[5] = match random.below(4) {
        0 => capacity.wrapping_sub(numbers[4]),
        1 => 0u32.wrapping_sub(numbers[4]),
        _ => random.below(within) / unit * unit,
    };
    // Then, half of the time, one or two changes.
    for _ in 0..random.pick(&[0, 0, 1, 2]) {
        let place = random.below(6) as usize;
        let number = numbers[place];
        let changed = [
            random.u32(),
            0,
            number.wrapping_add(1),
            number.wrapping_sub(1),
            number.wrapping_mul(2),
            number / 2,
            number ^ (1 << random.below(32)),
        ];
        numbers[place] = random.pick(&changed);
    }
    Case::of_numbers(numbers)
}

/// Sums what one function answers over many inputs.
fn sum(cases: &[Case], answer: impl Fn(&Case) -> u32) -> u64 {
    cases.iter().map(|case| u64::from(answer(case))).sum()
}

fn bench(random: &mut Random) {
    let cases: Vec<Case> = (0..1 << 20).map(|_| random_case(random)).collect();
    let program = |case: &Case| {
        let &Case { capacity, erase, program, read, offset, len } = case;
        storage_validate_program(capacity, erase, program, read, offset, len)
    };
    // The same work on both sides: the four units are tested at each call, then the span.
    bench_row(
        "storage: new, then validate_program",
        cases.len(),
        || {
            sum(&cases, |case| match Geometry::new(case.capacity, case.erase, case.program, case.read) {
                Ok(geometry) => refusal_of(geometry.validate_program(case.offset, case.len)),
                Err(error) => number_of(error),
            })
        },
        || sum(&cases, program),
    );
    // What a caller of one device pays for the test of the units at each call: the Rust made the geometry once.
    let spans: Vec<Case> =
        cases.iter().map(|case| Case::of_numbers([3 << 20, 1 << 12, 1 << 8, 1 << 2, case.offset, case.len])).collect();
    let geometry = Geometry::new(3 << 20, 1 << 12, 1 << 8, 1 << 2).expect("units that nest");
    bench_row(
        "storage: validate_program on one device",
        spans.len(),
        || sum(&spans, |case| refusal_of(geometry.validate_program(case.offset, case.len))),
        || sum(&spans, program),
    );
}

// The sample that crates/storage_cases replays: the same tables and the same order as in its src/main.rt.
const CAPACITIES: [u32; 8] = [0, 1, 16, 20, 48, 2_147_483_648, 4_294_967_280, 4_294_967_295];
const UNITS: [u32; 6] = [0, 1, 3, 4, 8, 16];
const DEVICES: [[u32; 4]; 4] = [[16, 8, 4, 4], [48, 16, 4, 1], [4_294_967_280, 16, 8, 2], [20, 8, 4, 4]];
const SPANS: [u32; 11] = [0, 1, 2, 3, 4, 8, 12, 16, 48, 4_294_967_280, 4_294_967_295];

fn sample() -> String {
    let mut text = String::new();
    for place in 0..8 * 6 * 6 * 6 {
        let case = Case::of_numbers([
            CAPACITIES[place / 216],
            UNITS[place / 36 % 6],
            UNITS[place / 6 % 6],
            UNITS[place % 6],
            0,
            0,
        ]);
        let answer = rust(&case);
        let blocks = if answer.new == 0 { answer.blocks } else { 0 };
        line(&mut text, &[&case.as_numbers()[..4], &[answer.new, blocks]].concat());
    }
    for place in 0..4 * 11 * 11 {
        let [capacity, erase, program, read] = DEVICES[place / 121];
        let case = Case::of_numbers([capacity, erase, program, read, SPANS[place / 11 % 11], SPANS[place % 11]]);
        let answer = rust(&case);
        let refusals = [answer.validate_read, answer.validate_program, answer.validate_erase];
        line(&mut text, &[&case.as_numbers()[..], &refusals].concat());
    }
    text
}

fn line(text: &mut String, numbers: &[u32]) {
    let fields: Vec<String> = numbers.iter().map(u32::to_string).collect();
    text.push_str(&fields.join(" "));
    text.push('\n');
}
