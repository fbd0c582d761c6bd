//! The layer `inject` against waymaker-fault's inject.rs: how many crash points a list of operations has, each of them by
//! its place, and all of them in lent columns.

use crate::common::{self, Comparison, Difference, Input, Layer, Random, bench_row, smaller_numbers};
use crate::storage::number_of;
use std::cell::RefCell;
use std::hint::black_box;
use waymaker_fault::inject::{Injection, Interruption, Op, Progress, injections};
use waymaker_flash::storage::Geometry;

pub const LAYER: Layer = Layer { name: "inject", compare, bench, sample };

// crates/inject_exported/src/lib.rt. Nothing proves that these declarations are those of that file: this is what is
// trusted here. A slice crosses as a pointer, then a length; a reference as a pointer.
unsafe extern "C" {
    fn inject_count(
        kinds: *const u8,
        kinds_len: usize,
        offsets: *const u32,
        offsets_len: usize,
        lens: *const u32,
        lens_len: usize,
        capacity: u32,
        erase: u32,
        program: u32,
        read: u32,
        points: &mut u64,
    ) -> u32;
    fn inject_at(
        kinds: *const u8,
        kinds_len: usize,
        offsets: *const u32,
        offsets_len: usize,
        lens: *const u32,
        lens_len: usize,
        capacity: u32,
        erase: u32,
        program: u32,
        read: u32,
        place: u64,
        point: *mut u64,
        point_len: usize,
    ) -> u32;
    fn inject_all(
        kinds: *const u8,
        kinds_len: usize,
        offsets: *const u32,
        offsets_len: usize,
        lens: *const u32,
        lens_len: usize,
        capacity: u32,
        erase: u32,
        program: u32,
        read: u32,
        ops: *mut u32,
        ops_len: usize,
        progresses: *mut u8,
        progresses_len: usize,
        counts: *mut u32,
        counts_len: usize,
        interruptions: *mut u8,
        interruptions_len: usize,
        rows: &mut usize,
    ) -> u32;
}

/// The codes of the column of kinds.
const PROGRAM: u8 = 0;
const ERASE: u8 = 1;
const BARRIER: u8 = 2;

/// A list of operations is refused above this many.
const MOST: usize = 1024;

/// A list of up to this many operations is asked for every place, and is made smaller number by number.
const SHORT: usize = 64;

/// Four units, a list of operations in three columns, and how many cells each of the four columns for points has.
#[derive(Clone, Debug)]
struct Case {
    /// Capacity, and the erase, program and read units.
    units: [u32; 4],
    kinds: Vec<u8>,
    offsets: Vec<u32>,
    lens: Vec<u32>,
    lent: [usize; 4],
}

/// A row of the three columns: kind, offset, length.
type Row = (u8, u32, u32);

impl Case {
    /// With columns for all points and `spare` cells more, or, where the points are too many to list, with `spare` only.
    fn new(units: [u32; 4], rows: &[Row], spare: usize) -> Self {
        let mut case = Self {
            units,
            kinds: rows.iter().map(|row| row.0).collect(),
            offsets: rows.iter().map(|row| row.1).collect(),
            lens: rows.iter().map(|row| row.2).collect(),
            lent: [spare; 4],
        };
        let points = formula(&case);
        if points <= LISTED {
            case.lent = [points as usize + spare; 4];
        }
        case
    }

    fn rows(&self) -> impl Iterator<Item = Row> {
        self.kinds.iter().zip(&self.offsets).zip(&self.lens).map(|((&kind, &offset), &len)| (kind, offset, len))
    }

    /// Without the rows from one place up to another.
    fn without(&self, from: usize, to: usize) -> Self {
        let mut case = self.clone();
        case.kinds.drain(from.min(self.kinds.len())..to.min(self.kinds.len()));
        case.offsets.drain(from.min(self.offsets.len())..to.min(self.offsets.len()));
        case.lens.drain(from.min(self.lens.len())..to.min(self.lens.len()));
        case
    }

    fn with(&self, change: impl FnOnce(&mut Self)) -> Self {
        let mut case = self.clone();
        change(&mut case);
        case
    }
}

impl Input for Case {
    fn smaller(&self) -> Vec<Self> {
        let mut found = Vec::new();
        let rows = self.kinds.len().max(self.offsets.len()).max(self.lens.len());
        let mut part = rows;
        while part > rows / SHORT {
            for from in (0..rows).step_by(part) {
                found.push(self.without(from, from + part));
            }
            part /= 2;
        }
        if rows > 0 {
            found.push(self.without(rows - 1, rows));
        }
        if !self.kinds.is_empty() {
            found.push(self.with(|case| _ = case.kinds.pop()));
        }
        if !self.offsets.is_empty() {
            found.push(self.with(|case| _ = case.offsets.pop()));
        }
        if !self.lens.is_empty() {
            found.push(self.with(|case| _ = case.lens.pop()));
        }
        for (place, &unit) in self.units.iter().enumerate() {
            found.extend(smaller_numbers(unit).into_iter().map(|less| self.with(|case| case.units[place] = less)));
        }
        if let Some(least) = self.lent.iter().min().filter(|&&least| least > 0) {
            found.push(self.with(|case| case.lent = case.lent.map(|cells| cells - least)));
            found.push(self.with(|case| case.lent = case.lent.map(|cells| cells - 1)));
        }
        for (place, &cells) in self.lent.iter().enumerate() {
            let less = smaller_numbers(cells as u32);
            found.extend(less.into_iter().map(|less| self.with(|case| case.lent[place] = less as usize)));
        }
        // A whole column at once: a list of a thousand rows has too many numbers to try each.
        if self.offsets.iter().any(|&offset| offset > 0) {
            found.push(self.with(|case| case.offsets.fill(0)));
        }
        if self.lens.iter().any(|&len| len > 0) {
            found.push(self.with(|case| case.lens.fill(0)));
        }
        if rows <= SHORT {
            for (place, &len) in self.lens.iter().enumerate() {
                found.extend(smaller_numbers(len).into_iter().map(|less| self.with(|case| case.lens[place] = less)));
            }
            for (place, &kind) in self.kinds.iter().enumerate() {
                found.extend((0..kind).map(|less| self.with(|case| case.kinds[place] = less)));
            }
            for (place, &offset) in self.offsets.iter().enumerate() {
                let less = smaller_numbers(offset);
                found.extend(less.into_iter().map(|less| self.with(|case| case.offsets[place] = less)));
            }
        }
        found
    }
}

/// The four columns of points.
#[derive(Clone, PartialEq, Debug)]
struct Columns {
    ops: Vec<u32>,
    progresses: Vec<u8>,
    counts: Vec<u32>,
    interruptions: Vec<u8>,
}

/// What the layer's functions answer: a refusal's number, or 0, and what was written through references.
#[derive(PartialEq, Debug)]
struct Answer {
    count: u32,
    points: u64,
    all: u32,
    rows: usize,
    columns: Columns,
    /// Each place asked for, what it answered, and five cells, of which a point takes four.
    places: Vec<(u64, u32, [u64; 5])>,
}

impl common::Answer for Answer {
    fn number(&self) -> u32 {
        self.all
    }
}

/// What stands in a place before it is written. A refusal leaves it there.
const UNWRITTEN: u32 = 0xDEAD_BEEF;
const UNWRITTEN_BYTE: u8 = 0xA5;

fn unwritten_columns(lent: [usize; 4]) -> Columns {
    Columns {
        ops: vec![UNWRITTEN; lent[0]],
        progresses: vec![UNWRITTEN_BYTE; lent[1]],
        counts: vec![UNWRITTEN; lent[2]],
        interruptions: vec![UNWRITTEN_BYTE; lent[3]],
    }
}

fn geometry_of([capacity, erase, program, read]: [u32; 4]) -> Result<Geometry, u32> {
    Geometry::new(capacity, erase, program, read).map_err(number_of)
}

/// The Rust's operations. A barrier's row has a span too, which means nothing.
fn ops_of(case: &Case) -> Vec<Op> {
    case.rows()
        .map(|(kind, offset, len)| match kind {
            PROGRAM => Op::Program { offset, len },
            ERASE => Op::Erase { offset, len },
            _ => Op::Barrier,
        })
        .collect()
}

/// A point as its row of the columns.
fn row_of(point: Injection) -> [u64; 4] {
    let (progress, count) = match point.progress {
        Progress::None => (0, 0),
        Progress::Bytes(count) => (1, u64::from(count)),
        Progress::Whole => (2, 0),
    };
    let interruption = match point.interruption {
        Interruption::PowerLoss => 0,
        Interruption::Watchdog => 1,
        Interruption::Failure => 2,
    };
    [point.op as u64, progress, count, interruption]
}

/// The number that refuses the list. The Rust's geometry has 1 to 3, which are lower; the Rust cannot be handed the rest:
/// "a list of operations is tested for 12, then 27, then 11 and 13". `equal` tells whether the lent columns are.
fn refusal(case: &Case, equal: bool) -> u32 {
    if let Err(number) = geometry_of(case.units) {
        return number;
    }
    let rows = case.kinds.len();
    if !equal || case.offsets.len() != rows || case.lens.len() != rows || case.kinds.iter().any(|&kind| kind > BARRIER)
    {
        return 12;
    }
    if rows > MOST {
        return 27;
    }
    0
}

/// How many points a list has: "a program of length L and unit P gives 2L + ⌈L/P⌉ + 2 points, an erase of L with block E
/// gives 3⌈L/E⌉ + 2, a barrier 4; one more opens the list, and an empty list has 2."
fn formula(case: &Case) -> u128 {
    let [_, erase, program, _] = case.units.map(|unit| u128::from(unit.max(1)));
    if case.kinds.is_empty() {
        return 2;
    }
    let given = case.rows().map(|(kind, _, len)| {
        let len = u128::from(len);
        match kind {
            PROGRAM => 2 * len + len.div_ceil(program) + 2,
            ERASE => 3 * len.div_ceil(erase) + 2,
            _ => 4,
        }
    });
    1 + given.sum::<u128>()
}

/// The Rust lists the points where they are no more than these, or have room in the columns. Above, the count is held to
/// the formula.
const LISTED: u128 = 1 << 18;

fn is_listed(case: &Case) -> bool {
    formula(case) <= LISTED.max(case.lent[0] as u128)
}

/// The places asked for: each, and past the end. Where the points are not listed, the first, the last and past the end. A
/// list of more than `SHORT` operations is asked for a part of its places, since a lookup walks the operations; a refused
/// one for two.
fn places_of(case: &Case) -> Vec<u64> {
    if refusal(case, true) != 0 {
        return vec![0, u64::MAX];
    }
    let end = formula(case) as u64;
    if !is_listed(case) {
        return vec![0, end - 1, end, u64::MAX];
    }
    let walked = end * case.kinds.len() as u64;
    let step = if case.kinds.len() <= SHORT { 1 } else { 1 + (walked >> 20) as usize };
    let mut places: Vec<u64> = (0..end).step_by(step).collect();
    places.extend([end, u64::MAX]);
    places
}

/// The last point of a list that is not empty: of the last operation, under failure.
fn last_point(case: &Case) -> [u64; 4] {
    let last = case.kinds.len() - 1;
    let moves = case.kinds[last] != BARRIER && case.lens[last] > 0;
    [last as u64, if moves { 2 } else { 0 }, 0, 2]
}

fn refused(case: &Case, count: u32, all: u32) -> Answer {
    Answer {
        count,
        points: u64::from(UNWRITTEN),
        all,
        rows: UNWRITTEN as usize,
        columns: unwritten_columns(case.lent),
        places: places_of(case).into_iter().map(|place| (place, count, [u64::from(UNWRITTEN); 5])).collect(),
    }
}

/// What the Rust's list says, with document 01's numbers for what the Rust cannot be handed.
fn rust(case: &Case) -> Answer {
    let equal = case.lent.iter().all(|&cells| cells == case.lent[0]);
    let count = refusal(case, true);
    let mut all = refusal(case, equal);
    if count != 0 {
        return refused(case, count, all);
    }
    let formula = formula(case);
    if all == 0 && formula > case.lent[0] as u128 {
        all = 13;
    }
    let mut answer = Answer { points: formula as u64, ..refused(case, count, all) };
    if !is_listed(case) {
        for (place, number, cells) in &mut answer.places {
            *number = if u128::from(*place) < formula { 0 } else { 11 };
            if *number == 0 {
                cells[..4].copy_from_slice(&if *place == 0 { [0; 4] } else { last_point(case) });
            }
        }
        return answer;
    }
    let geometry = geometry_of(case.units).expect("a geometry that is not refused");
    let points: Vec<[u64; 4]> = injections(&ops_of(case), geometry).into_iter().map(row_of).collect();
    assert_eq!(points.len() as u128, formula, "document 01's formula for {case:?}");
    if all == 0 {
        answer.rows = points.len();
        for (row, point) in points.iter().enumerate() {
            answer.columns.ops[row] = point[0] as u32;
            answer.columns.progresses[row] = point[1] as u8;
            answer.columns.counts[row] = point[2] as u32;
            answer.columns.interruptions[row] = point[3] as u8;
        }
    }
    for (place, number, cells) in &mut answer.places {
        match points.get(*place as usize) {
            Some(point) => cells[..4].copy_from_slice(point),
            None => *number = 11,
        }
    }
    answer
}

fn our_count(case: &Case, points: &mut u64) -> u32 {
    let (kinds, offsets, lens) = (&case.kinds, &case.offsets, &case.lens);
    let [capacity, erase, program, read] = case.units;
    // SAFETY: each pointer and length are those of a vector that nothing changes during the call.
    unsafe {
        inject_count(
            kinds.as_ptr(),
            kinds.len(),
            offsets.as_ptr(),
            offsets.len(),
            lens.as_ptr(),
            lens.len(),
            capacity,
            erase,
            program,
            read,
            points,
        )
    }
}

fn our_point(case: &Case, place: u64, point: &mut [u64]) -> u32 {
    let (kinds, offsets, lens) = (&case.kinds, &case.offsets, &case.lens);
    let [capacity, erase, program, read] = case.units;
    // SAFETY: each pointer and length are those of a vector that nothing changes during the call, or of the slice lent.
    unsafe {
        inject_at(
            kinds.as_ptr(),
            kinds.len(),
            offsets.as_ptr(),
            offsets.len(),
            lens.as_ptr(),
            lens.len(),
            capacity,
            erase,
            program,
            read,
            place,
            point.as_mut_ptr(),
            point.len(),
        )
    }
}

fn our_points(case: &Case, columns: &mut Columns, rows: &mut usize) -> u32 {
    let (kinds, offsets, lens) = (&case.kinds, &case.offsets, &case.lens);
    let [capacity, erase, program, read] = case.units;
    // SAFETY: each pointer and length are those of a vector that nothing changes during the call, or of one lent here.
    unsafe {
        inject_all(
            kinds.as_ptr(),
            kinds.len(),
            offsets.as_ptr(),
            offsets.len(),
            lens.as_ptr(),
            lens.len(),
            capacity,
            erase,
            program,
            read,
            columns.ops.as_mut_ptr(),
            columns.ops.len(),
            columns.progresses.as_mut_ptr(),
            columns.progresses.len(),
            columns.counts.as_mut_ptr(),
            columns.counts.len(),
            columns.interruptions.as_mut_ptr(),
            columns.interruptions.len(),
            rows,
        )
    }
}

fn ours(case: &Case) -> Answer {
    let mut points = u64::from(UNWRITTEN);
    let mut rows = UNWRITTEN as usize;
    let mut columns = unwritten_columns(case.lent);
    let count = our_count(case, &mut points);
    let all = our_points(case, &mut columns, &mut rows);
    let places = places_of(case).into_iter().map(|place| {
        let mut point = [u64::from(UNWRITTEN); 5];
        let number = our_point(case, place, &mut point);
        (place, number, point)
    });
    Answer { count, points, all, rows, columns, places: places.collect() }
}

fn compare(comparison: &mut Comparison) -> Result<(), Difference> {
    small(comparison)?;
    at_limits(comparison)?;
    for _ in 0..comparison.size / 1000 {
        let case = random_case(&mut comparison.random, 40, 400);
        comparison.same(&case, rust, ours)?;
        let case = vast_case(&mut comparison.random);
        comparison.same(&case, rust, ours)?;
    }
    for _ in 0..comparison.size / 4 {
        let case = faulty_case(&mut comparison.random);
        comparison.same(&case, rust, ours)?;
    }
    Ok(())
}

/// Units that nest, each 1, 2, 4 or 8.
fn small_units() -> Vec<[u32; 4]> {
    let mut found = Vec::new();
    for place in 0..64u32 {
        let [erase, program, read] = [place / 16, place / 4 % 4, place % 4].map(|shift| 1 << shift);
        if read <= program && program <= erase {
            found.push([erase * (1 + place % 3), erase, program, read]);
        }
    }
    found
}

/// Every list of up to three operations with lengths 0 to 9, over every geometry whose units are 1, 2, 4 or 8. The offsets,
/// and the spans that stand in a barrier's row, are any numbers: no point depends on them.
fn small(comparison: &mut Comparison) -> Result<(), Difference> {
    for units in small_units() {
        for (operations, lists) in [(0, 1), (1, 21), (2, 21 * 21), (3, 21 * 21 * 21)] {
            for list in 0..lists {
                let mut rows = Vec::new();
                let mut letters = list;
                for _ in 0..operations {
                    let any = comparison.random.u32();
                    rows.push(match letters % 21 {
                        letter @ 0..10 => (PROGRAM, any, letter),
                        letter @ 10..20 => (ERASE, any, letter - 10),
                        _ => (BARRIER, any, any >> 7),
                    });
                    letters /= 21;
                }
                comparison.same(&Case::new(units, &rows, list as usize % 4), rust, ours)?;
            }
        }
    }
    Ok(())
}

/// Lengths at and beside 0, a unit and 2^32, alone and in pairs; and lists of 1,023 to 1,026 operations.
fn at_limits(comparison: &mut Comparison) -> Result<(), Difference> {
    let devices = [
        [1 << 31, 1 << 31, 1 << 31, 1 << 31],
        [1 << 31, 1 << 31, 1 << 16, 1],
        [3 << 20, 1 << 16, 1 << 8, 1 << 2],
        [u32::MAX, 1, 1, 1],
        [16, 8, 4, 4],
    ];
    for units in devices {
        let mut lens = Vec::new();
        for mark in [0, units[1], units[2], units[1].wrapping_mul(3), 1 << 31] {
            lens.extend([mark.wrapping_sub(1), mark, mark.wrapping_add(1)]);
        }
        lens.sort_unstable();
        lens.dedup();
        let mut rows = vec![(BARRIER, 0, 0)];
        rows.extend(lens.iter().flat_map(|&len| [(PROGRAM, 0, len), (ERASE, 0, len)]));
        for &first in &rows {
            comparison.same(&Case::new(units, &[first], 1), rust, ours)?;
            for &second in &rows {
                comparison.same(&Case::new(units, &[first, second], 2), rust, ours)?;
            }
        }
        for operations in MOST - 1..=MOST + 2 {
            for row in [
                (BARRIER, 0, 0),
                (PROGRAM, 0, 0),
                (PROGRAM, 0, 5),
                (PROGRAM, 0, u32::MAX),
                (ERASE, 0, 9),
                (ERASE, 0, u32::MAX),
            ] {
                comparison.same(&Case::new(units, &vec![row; operations], 3), rust, ours)?;
            }
        }
    }
    Ok(())
}

/// Units that nest, none above a power of two.
fn random_units(random: &mut Random, shift: u32) -> [u32; 4] {
    let mut shifts = [random.below(shift), random.below(shift), random.below(shift)];
    shifts.sort_unstable();
    let [read, program, erase] = shifts.map(|shift| 1 << shift);
    [(random.u32() / erase).max(1) * erase, erase, program, read]
}

fn random_rows(random: &mut Random, most: u32, len: u32) -> Vec<Row> {
    (0..random.below(most + 1)).map(|_| (random.below(3) as u8, random.u32(), random.below(len + 1))).collect()
}

/// A list that the Rust lists.
fn random_case(random: &mut Random, most: u32, len: u32) -> Case {
    let rows = random_rows(random, most, len);
    Case::new(random_units(random, 10), &rows, random.below(4) as usize)
}

/// A list of up to 1,024 operations of any length: nearly always too many points for the Rust.
fn vast_case(random: &mut Random) -> Case {
    let most = random.pick(&[4, 40, 400, 1024]);
    let mut rows = random_rows(random, most, u32::MAX - 1);
    for row in &mut rows {
        row.2 >>= random.pick(&[0, 0, 8, 16, 24, 31]);
    }
    Case::new(random_units(random, 32), &rows, random.below(4) as usize)
}

/// A short list and up to three changes, of which each may be a reason to refuse it: the order of the tests decides.
fn faulty_case(random: &mut Random) -> Case {
    let mut case = random_case(random, 6, 12);
    for _ in 0..random.below(4) {
        let column = random.below(4) as usize;
        match random.below(12) {
            0 => case.units[column] = random.pick(&[0, 3, 6, 1 << 5, 1 << 12]),
            1 if random.below(4) == 0 => case.units.swap(1, 2),
            2 => case.kinds.push(random.below(3) as u8),
            3 => _ = case.offsets.pop(),
            4 => _ = case.lens.pop(),
            5 if !case.kinds.is_empty() => {
                let row = random.below(case.kinds.len() as u32) as usize;
                case.kinds[row] = random.pick(&[3, 4, 128, 255]);
            }
            6 => case.lent[column] = case.lent[column].saturating_sub(1),
            7 => case.lent[column] += 1,
            8..=10 => {
                let less = random.pick(&[1, 2, 3, 4]);
                case.lent = case.lent.map(|cells| cells.saturating_sub(less));
            }
            // Few, since it takes a thousand rows.
            11 if random.below(20) == 0 => {
                let rows = MOST + random.below(3) as usize;
                case.kinds.resize(rows, random.pick(&[BARRIER, BARRIER, 3]));
                case.offsets.resize(rows, 0);
                case.lens.resize(rows, 0);
            }
            _ => {}
        }
    }
    case
}

/// So many times the same call, for one that takes microseconds.
const TIMES: usize = 64;

fn repeated(call: impl Fn() -> u64) -> u64 {
    (0..TIMES).map(|_| call()).sum()
}

fn bench(random: &mut Random) {
    // Programs, a barrier and an erase in turn, on a device of 4,096-byte blocks.
    let units = [3 << 20, 1 << 12, 1 << 8, 1 << 2];
    let geometry = geometry_of(units).expect("units that nest");
    let turn = [(PROGRAM, 0, 256), (PROGRAM, 256, 64), (BARRIER, 0, 0), (ERASE, 4096, 8192)];
    let rows: Vec<Row> = turn.into_iter().cycle().take(MOST).collect();
    let case = Case::new(units, &rows, 0);
    let ops = ops_of(&case);
    let our_length = || {
        let mut points = 0;
        our_count(&case, &mut points);
        points
    };
    bench_row(
        "inject: count, 1,024 operations",
        TIMES,
        || repeated(|| injections(&ops, geometry).len() as u64),
        || repeated(our_length),
    );
    let end = formula(&case) as u32;
    let places: Vec<u64> = (0..TIMES).map(|_| u64::from(random.below(end))).collect();
    let sum_of = |point: &dyn Fn(u64) -> [u64; 4]| places.iter().flat_map(|&place| point(place)).sum::<u64>();
    let our_lookup = |place| {
        let mut point = [0; 4];
        our_point(&case, place, &mut point);
        point
    };
    let rust_lookup = |place| row_of(injections(&ops, geometry).into_iter().nth(place as usize).expect("a point"));
    bench_row(
        "inject: point by place, 1,024 operations",
        places.len(),
        || sum_of(&rust_lookup),
        || sum_of(&our_lookup),
    );
    // What a caller who asks again and again pays for keeping no list.
    let listed = injections(&ops, geometry);
    bench_row(
        "inject: the same, a Rust list made before",
        places.len(),
        || sum_of(&|place| row_of(listed[place as usize])),
        || sum_of(&our_lookup),
    );
    let case = Case::new(units, &[(PROGRAM, 0, 4096)], 0);
    let ops = ops_of(&case);
    let rust_list = || black_box(injections(&ops, geometry)).len() as u64;
    let our_list = |columns: &mut Columns| {
        let mut rows = 0;
        our_points(&case, columns, &mut rows);
        black_box(columns);
        rows as u64
    };
    let lent = RefCell::new(unwritten_columns(case.lent));
    bench_row(
        "inject: all points of a 4,096-byte program",
        TIMES,
        || repeated(rust_list),
        || repeated(|| our_list(&mut lent.borrow_mut())),
    );
    bench_row(
        "inject: the same, columns made for each call",
        TIMES,
        || repeated(rust_list),
        || repeated(|| our_list(&mut unwritten_columns(case.lent))),
    );
}

// The sample that crates/inject_cases replays: the same tables and the same order as in its src/main.rt.
const DEVICES: [[u32; 2]; 2] = [[8, 4], [4, 1]];
const OPERATIONS: [(u8, u32); 7] = [(0, 0), (0, 1), (0, 5), (1, 0), (1, 8), (1, 16), (2, 0)];

/// Every list of up to two of the operations, and each of two with a third, on two devices.
fn sample() -> String {
    let mut text = String::new();
    for device in DEVICES {
        for list in 0..106 {
            let letters = match list {
                0 => vec![],
                1..8 => vec![list - 1],
                8..57 => vec![(list - 8) / 7, (list - 8) % 7],
                _ => vec![(list - 57) / 7, (list - 57) % 7, ((list - 57) / 7 + (list - 57) % 7 * 2) % 7],
            };
            let rows = letters.iter().enumerate();
            let rows: Vec<Row> =
                rows.map(|(row, &letter)| (OPERATIONS[letter].0, 16 * row as u32, OPERATIONS[letter].1)).collect();
            sample_list(&mut text, &Case::new([48, device[0], device[1], 1], &rows, 0));
        }
    }
    text
}

/// Units, operations and the number of points; then each point by place, and the number one past the end; then all points.
fn sample_list(text: &mut String, case: &Case) {
    let answer = rust(case);
    let mut numbers = vec![u64::from(case.units[1]), u64::from(case.units[2])];
    numbers.extend(case.rows().flat_map(|(kind, offset, len)| [u64::from(kind), offset.into(), len.into()]));
    numbers.push(answer.points);
    line(text, &numbers);
    let end = answer.points as usize;
    numbers = answer.places[..end].iter().flat_map(|(_, _, cells)| cells[..4].to_vec()).collect();
    numbers.push(answer.places[end].1.into());
    line(text, &numbers);
    let columns = &answer.columns;
    let row = |row: usize| {
        [
            columns.ops[row].into(),
            columns.progresses[row].into(),
            columns.counts[row].into(),
            columns.interruptions[row].into(),
        ]
    };
    numbers = (0..answer.rows).flat_map(row).collect();
    numbers.push(answer.rows as u64);
    line(text, &numbers);
}

fn line(text: &mut String, numbers: &[u64]) {
    let fields: Vec<String> = numbers.iter().map(u64::to_string).collect();
    text.push_str(&fields.join(" "));
    text.push('\n');
}
