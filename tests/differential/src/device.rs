//! The layer `device` against waymaker-fault's device.rs: what programming and erasing leave and whether a cell changed,
//! what is asked of the media, and the device's own calls, one after the other on one device.

use crate::common::{self, Comparison, Difference, Input, Layer, Random, bench_row, smaller_numbers};
use crate::storage::number_of;
use std::alloc::{Layout, alloc_zeroed};
use std::cell::RefCell;
use waymaker_fault::device::{Device, FaultError, OneWayBits};
use waymaker_fault::inside;
use waymaker_flash::storage::{Geometry, StableStorage};

pub const LAYER: Layer = Layer { name: "device", compare, bench, sample };

/// The linked functions of crates/device_exported/src/lib.rt, on slices. Nothing proves that the declarations are those of
/// that file: this is what is trusted here.
mod proved {
    // A slice crosses as a pointer, then a length; a reference as a pointer.
    unsafe extern "C" {
        fn device_fill_erased(media: *mut u8, cells: usize);
        fn device_apply_program(media: *mut u8, cells: usize, offset: u32, src: *const u8, len: usize) -> u32;
        fn device_apply_erase(media: *mut u8, cells: usize, offset: u32, len: u32) -> u32;
        fn device_would_set_a_bit(media: *const u8, cells: usize, offset: u32, src: *const u8, len: usize) -> u32;
        fn device_postimage_of(
            media: *const u8,
            cells: usize,
            offset: u32,
            src: *const u8,
            len: usize,
            out: *mut u8,
            out_len: usize,
            count: &mut usize,
        ) -> u32;
        fn device_differs_from(media: *const u8, cells: usize, offset: u32, expected: *const u8, len: usize) -> u32;
        fn device_erase_would_change(media: *const u8, cells: usize, offset: u32, len: u32) -> u32;
        fn device_read(
            capacity: u32,
            erase: u32,
            program: u32,
            read: u32,
            media: *const u8,
            cells: usize,
            offset: u32,
            dst: *mut u8,
            len: usize,
        ) -> u32;
        fn device_program(
            capacity: u32,
            erase: u32,
            program: u32,
            read: u32,
            rule: u32,
            media: *mut u8,
            cells: usize,
            offset: u32,
            src: *const u8,
            len: usize,
        ) -> u32;
        fn device_erase(
            capacity: u32,
            erase: u32,
            program: u32,
            read: u32,
            media: *mut u8,
            cells: usize,
            offset: u32,
            len: u32,
        ) -> u32;
        fn device_barrier(capacity: u32, erase: u32, program: u32, read: u32, media: *const u8, cells: usize) -> u32;
    }

    // SAFETY, of every call below: each pointer is that of a slice and stands before that slice's length, and a slice
    // that is written is borrowed by `&mut` during the call.

    pub fn fill_erased(media: &mut [u8]) {
        unsafe { device_fill_erased(media.as_mut_ptr(), media.len()) }
    }

    pub fn apply_program(media: &mut [u8], offset: u32, src: &[u8]) -> u32 {
        unsafe { device_apply_program(media.as_mut_ptr(), media.len(), offset, src.as_ptr(), src.len()) }
    }

    pub fn apply_erase(media: &mut [u8], offset: u32, len: u32) -> u32 {
        unsafe { device_apply_erase(media.as_mut_ptr(), media.len(), offset, len) }
    }

    pub fn would_set_a_bit(media: &[u8], offset: u32, src: &[u8]) -> u32 {
        unsafe { device_would_set_a_bit(media.as_ptr(), media.len(), offset, src.as_ptr(), src.len()) }
    }

    pub fn postimage_of(media: &[u8], offset: u32, src: &[u8], out: &mut [u8], count: &mut usize) -> u32 {
        let (src, len) = (src.as_ptr(), src.len());
        let (out, out_len) = (out.as_mut_ptr(), out.len());
        unsafe { device_postimage_of(media.as_ptr(), media.len(), offset, src, len, out, out_len, count) }
    }

    pub fn differs_from(media: &[u8], offset: u32, expected: &[u8]) -> u32 {
        unsafe { device_differs_from(media.as_ptr(), media.len(), offset, expected.as_ptr(), expected.len()) }
    }

    pub fn erase_would_change(media: &[u8], offset: u32, len: u32) -> u32 {
        unsafe { device_erase_would_change(media.as_ptr(), media.len(), offset, len) }
    }

    pub fn read([capacity, erase, program, read]: [u32; 4], media: &[u8], offset: u32, dst: &mut [u8]) -> u32 {
        let (dst, len) = (dst.as_mut_ptr(), dst.len());
        unsafe { device_read(capacity, erase, program, read, media.as_ptr(), media.len(), offset, dst, len) }
    }

    pub fn program(
        [capacity, erase, program, read]: [u32; 4],
        rule: u32,
        media: &mut [u8],
        offset: u32,
        src: &[u8],
    ) -> u32 {
        let (cells, media) = (media.len(), media.as_mut_ptr());
        let (src, len) = (src.as_ptr(), src.len());
        unsafe { device_program(capacity, erase, program, read, rule, media, cells, offset, src, len) }
    }

    pub fn erase([capacity, erase, program, read]: [u32; 4], media: &mut [u8], offset: u32, len: u32) -> u32 {
        unsafe { device_erase(capacity, erase, program, read, media.as_mut_ptr(), media.len(), offset, len) }
    }

    pub fn barrier([capacity, erase, program, read]: [u32; 4], media: &[u8]) -> u32 {
        unsafe { device_barrier(capacity, erase, program, read, media.as_ptr(), media.len()) }
    }
}

fn refusal_of(answer: Result<(), FaultError>) -> u32 {
    match answer {
        Ok(()) => 0,
        Err(FaultError::Geometry(error)) => number_of(error),
        Err(FaultError::BitSetWithoutErase) => 20,
        Err(FaultError::PowerLoss) => 21,
        Err(FaultError::WatchdogReset) => 22,
        Err(FaultError::InjectedFailure) => 23,
    }
}

/// The Rust's device with these units, rule and media. There is none where `new` refuses the units, or where the media are
/// not of capacity length: in the Rust a device owns its media, here units and media are handed in at each call.
fn rust_device([capacity, erase, program, read]: [u32; 4], rule: u32, media: &[u8]) -> Option<Device> {
    if media.len() != capacity as usize {
        return None;
    }
    let geometry = Geometry::new(capacity, erase, program, read).ok()?;
    let bits = if rule == 0 { OneWayBits::Absorbed } else { OneWayBits::Rejected };
    let mut device = Device::with_bit_rule(geometry, bits);
    inside::apply_program(&mut device, 0, media);
    // An erased cell holds whatever is programmed.
    assert_eq!(device.image(), media);
    Some(device)
}

/// Bytes a step smaller: fewer, or one of them less.
fn smaller_bytes(bytes: &[u8]) -> Vec<Vec<u8>> {
    let mut found = Vec::new();
    for len in smaller_numbers(bytes.len() as u32) {
        found.push(bytes[..len as usize].to_vec());
    }
    found.extend(smaller_cells(bytes));
    found
}

/// As many bytes, one of them less.
fn smaller_cells(bytes: &[u8]) -> Vec<Vec<u8>> {
    let mut found = Vec::new();
    for (place, &byte) in bytes.iter().enumerate() {
        for less in smaller_numbers(byte.into()) {
            let mut bytes = bytes.to_vec();
            bytes[place] = less as u8;
            found.push(bytes);
        }
    }
    found
}

// ---- what programming and erasing leave, and what is asked of the media, without a geometry

/// Media, a part of them, bytes for that part, and a buffer for the cells that they would leave. In the Rust a device has
/// a cell or more.
#[derive(Clone, Debug)]
struct Question {
    media: Vec<u8>,
    offset: u32,
    /// Of the part to erase. The part to program is as long as its bytes.
    len: u32,
    src: Vec<u8>,
    out: Vec<u8>,
}

impl Input for Question {
    fn smaller(&self) -> Vec<Self> {
        let mut found = Vec::new();
        found.extend(smaller_bytes(&self.media).into_iter().map(|media| Self { media, ..self.clone() }));
        found.retain(|question| !question.media.is_empty());
        found.extend(smaller_numbers(self.offset).into_iter().map(|offset| Self { offset, ..self.clone() }));
        found.extend(smaller_numbers(self.len).into_iter().map(|len| Self { len, ..self.clone() }));
        found.extend(smaller_bytes(&self.src).into_iter().map(|src| Self { src, ..self.clone() }));
        found.extend(smaller_bytes(&self.out).into_iter().map(|out| Self { out, ..self.clone() }));
        found
    }
}

/// What is answered, and every slice as it is left. A yes is 1.
#[derive(PartialEq, Debug)]
struct Told {
    fill_erased: Vec<u8>,
    apply_program: u32,
    programmed: Vec<u8>,
    apply_erase: u32,
    erased: Vec<u8>,
    would_set_a_bit: u32,
    postimage_of: u32,
    count: usize,
    out: Vec<u8>,
    differs_from: u32,
    erase_would_change: u32,
}

impl common::Answer for Told {
    fn number(&self) -> u32 {
        self.postimage_of
    }
}

/// What stands in the count of cells before it is written. A refusal leaves it there.
const UNWRITTEN: usize = usize::MAX;

/// The Rust's postimage is a vector. Here the cells go to the start of a lent buffer, and one that is too short is refused
/// with 13 and left.
fn rust_told(question: &Question) -> Told {
    let Question { media, offset, len, src, out } = question;
    let units = [media.len() as u32, 1, 1, 1];
    let device = rust_device(units, 0, media).expect("units of a byte, and media of their capacity");
    let mut programmed = device.clone();
    let apply_program = inside::apply_program(&mut programmed, *offset, src);
    let mut erased = device.clone();
    let apply_erase = inside::apply_erase(&mut erased, *offset, *len);
    let cells = inside::postimage_of(&device, *offset, src);
    let mut out = out.clone();
    let fits = cells.len() <= out.len();
    if fits {
        out[..cells.len()].copy_from_slice(&cells);
    }
    Told {
        fill_erased: Device::new(device.geometry()).into_image(),
        apply_program: apply_program.into(),
        programmed: programmed.into_image(),
        apply_erase: apply_erase.into(),
        erased: erased.into_image(),
        would_set_a_bit: inside::would_set_a_bit(&device, *offset, src).into(),
        postimage_of: if fits { 0 } else { 13 },
        count: if fits { cells.len() } else { UNWRITTEN },
        out,
        differs_from: inside::differs_from(&device, *offset, src).into(),
        erase_would_change: inside::erase_would_change(&device, *offset, *len).into(),
    }
}

fn our_told(question: &Question) -> Told {
    let Question { media, offset, len, src, out } = question;
    let mut fill_erased = media.clone();
    proved::fill_erased(&mut fill_erased);
    let mut programmed = media.clone();
    let mut erased = media.clone();
    let mut out = out.clone();
    let mut count = UNWRITTEN;
    Told {
        fill_erased,
        apply_program: proved::apply_program(&mut programmed, *offset, src),
        programmed,
        apply_erase: proved::apply_erase(&mut erased, *offset, *len),
        erased,
        would_set_a_bit: proved::would_set_a_bit(media, *offset, src),
        postimage_of: proved::postimage_of(media, *offset, src, &mut out, &mut count),
        count,
        out,
        differs_from: proved::differs_from(media, *offset, src),
        erase_would_change: proved::erase_would_change(media, *offset, *len),
    }
}

// ---- the device's own calls

#[derive(Clone, Debug)]
enum Call {
    Read { offset: u32, len: u32 },
    Program { offset: u32, src: Vec<u8> },
    Erase { offset: u32, len: u32 },
    Barrier,
}

impl Input for Call {
    fn smaller(&self) -> Vec<Self> {
        match self {
            &Self::Read { offset, len } => {
                let offsets = smaller_numbers(offset).into_iter().map(|offset| Self::Read { offset, len });
                let lens = smaller_numbers(len).into_iter().map(|len| Self::Read { offset, len });
                offsets.chain(lens).collect()
            }
            Self::Program { offset, src } => {
                let offsets = smaller_numbers(*offset).into_iter();
                let offsets = offsets.map(|offset| Self::Program { offset, src: src.clone() });
                let sources = smaller_bytes(src).into_iter().map(|src| Self::Program { offset: *offset, src });
                offsets.chain(sources).collect()
            }
            &Self::Erase { offset, len } => {
                let offsets = smaller_numbers(offset).into_iter().map(|offset| Self::Erase { offset, len });
                let lens = smaller_numbers(len).into_iter().map(|len| Self::Erase { offset, len });
                offsets.chain(lens).collect()
            }
            Self::Barrier => Vec::new(),
        }
    }
}

/// A device and the calls made on it, each on the media as the one before left them. The rule is 0 for Absorbed, 1 for
/// Rejected.
#[derive(Clone, Debug)]
struct Calls {
    units: [u32; 4],
    rule: u32,
    media: Vec<u8>,
    calls: Vec<Call>,
}

impl Input for Calls {
    fn smaller(&self) -> Vec<Self> {
        let mut found = Vec::new();
        for place in 0..self.calls.len() {
            let mut fewer = self.clone();
            fewer.calls.remove(place);
            found.push(fewer);
        }
        for (place, call) in self.calls.iter().enumerate() {
            for less in call.smaller() {
                let mut calls = self.clone();
                calls.calls[place] = less;
                found.push(calls);
            }
        }
        for place in 0..4 {
            for less in smaller_numbers(self.units[place]) {
                let mut calls = self.clone();
                calls.units[place] = less;
                found.push(calls.clone());
                // A smaller device, with media of its capacity.
                if place == 0 && (less as usize) < self.media.len() {
                    calls.media.truncate(less as usize);
                    found.push(calls);
                }
            }
        }
        found.extend(smaller_numbers(self.rule).into_iter().map(|rule| Self { rule, ..self.clone() }));
        found.extend(smaller_bytes(&self.media).into_iter().map(|media| Self { media, ..self.clone() }));
        found
    }
}

// ---- document 01's numbers for a call of the device

/// What is wrong with a call, in document 01's order: these are no session calls, and "elsewhere the lowest number comes first,
/// save that 6 for a buffer comes before 4 and 5".
#[derive(Clone, Copy, PartialEq, Eq, PartialOrd, Ord, Debug)]
enum Cause {
    Zero,
    NoPower,
    NotNested,
    Buffer,
    Offset,
    Length,
    End,
    Media,
    SetBit,
}

impl Cause {
    const ALL: [Self; 9] = [
        Self::Zero,
        Self::NoPower,
        Self::NotNested,
        Self::Buffer,
        Self::Offset,
        Self::Length,
        Self::End,
        Self::Media,
        Self::SetBit,
    ];

    fn number(self) -> u32 {
        match self {
            Self::Zero => 1,
            Self::NoPower => 2,
            Self::NotNested => 3,
            Self::Offset => 4,
            Self::Length => 5,
            Self::Buffer | Self::End => 6,
            Self::Media => 7,
            Self::SetBit => 20,
        }
    }
}

/// The kind of a call: 0 a read, 1 a program, 2 an erase, 3 a barrier.
const KINDS_OF_CALL: [&str; 4] = ["read", "program", "erase", "barrier"];

/// A call as document 01 tests it: how long its span is, which is its buffer's length for a read or a program, and the bytes that
/// it programs.
#[derive(Clone, Copy)]
struct Tested<'a> {
    kind: usize,
    offset: u32,
    len: u64,
    src: &'a [u8],
}

impl Call {
    fn tested(&self) -> Tested<'_> {
        match self {
            Self::Read { offset, len } => Tested { kind: 0, offset: *offset, len: (*len).into(), src: &[] },
            Self::Program { offset, src } => Tested { kind: 1, offset: *offset, len: src.len() as u64, src },
            Self::Erase { offset, len } => Tested { kind: 2, offset: *offset, len: (*len).into(), src: &[] },
            Self::Barrier => Tested { kind: 3, offset: 0, len: 0, src: &[] },
        }
    }
}

/// Of 0 only 0 is a multiple.
fn is_multiple(n: u64, of: u32) -> bool {
    if of == 0 { n == 0 } else { n.is_multiple_of(of.into()) }
}

/// Everything that is wrong with a call, each by itself and whatever else is wrong, in document 01's order.
fn causes(units: [u32; 4], rule: u32, media: &[u8], call: Tested) -> Vec<Cause> {
    let [capacity, erase, program, read] = units;
    let Tested { kind, offset, len, src } = call;
    let end = u64::from(offset) + len;
    // A barrier has no span.
    let (span, unit) = (kind != 3, [read, program, erase, 1][kind]);
    let is_wrong = |cause| match cause {
        // "Any of the four zero, 1".
        Cause::Zero => units.contains(&0),
        // "A unit that is no power of two, 2", which is one "exactly if just one bit is set".
        Cause::NoPower => [erase, program, read].iter().any(|unit| unit.count_ones() != 1),
        // "Capacity no multiple of the erase unit, erase below program, or program below read, 3."
        Cause::NotNested => !is_multiple(capacity.into(), erase) || erase < program || program < read,
        // "6 also for a buffer longer than u32."
        Cause::Buffer => len > u32::MAX.into(),
        // "A span is checked for offset (4), then length (5), against its call's unit, then for an end that overflows u32 or
        // passes capacity (6)."
        Cause::Offset => span && !is_multiple(offset.into(), unit),
        Cause::Length => span && !is_multiple(len, unit),
        Cause::End => span && (end > u32::MAX.into() || end > capacity.into()),
        // "7: media or withheld copy not of capacity length."
        Cause::Media => media.len() as u64 != capacity.into(),
        // "Under rule `Rejected`, a byte with a 1 where its cell has 0 refuses the call with 20."
        Cause::SetBit => {
            let cells = usize::try_from(end).ok().and_then(|end| media.get(offset as usize..end));
            kind == 1
                && rule == 1
                && cells.is_some_and(|cells| cells.iter().zip(src).any(|(cell, byte)| byte & !cell != 0))
        }
    };
    Cause::ALL.into_iter().filter(|&cause| is_wrong(cause)).collect()
}

/// Document 01's numbers, and how often each two causes came together in a call of each kind: where two never did, the
/// comparison has not shown which of them comes first.
struct Document(RefCell<[[[u64; 9]; 9]; 4]>);

impl Document {
    fn new() -> Self {
        Self(RefCell::new([[[0; 9]; 9]; 4]))
    }

    /// The number of the call's first cause, or 0.
    fn number(&self, units: [u32; 4], rule: u32, media: &[u8], call: Tested) -> u32 {
        let causes = causes(units, rule, media, call);
        for (place, &first) in causes.iter().enumerate() {
            for &second in &causes[place + 1..] {
                self.0.borrow_mut()[call.kind][first as usize][second as usize] += 1;
            }
        }
        let number = causes.first().map_or(0, |cause| cause.number());
        // The Rust's `new` has 1 to 3 as well.
        let [capacity, erase, program, read] = units;
        if let Err(error) = Geometry::new(capacity, erase, program, read) {
            assert_eq!(number_of(error), number, "the Rust's number and document 01's for {units:?}");
        }
        number
    }

    /// Every two causes that can come together did, those of a buffer where there was room for one.
    fn all_pairs(&self, buffers: bool) -> Result<(), Difference> {
        let mut pairs = Vec::new();
        for (kind, counts) in self.0.borrow().iter().enumerate() {
            for first in Cause::ALL {
                for second in Cause::ALL.into_iter().filter(|&second| can_come_together(kind, first, second)) {
                    pairs.push((counts[first as usize][second as usize], KINDS_OF_CALL[kind], first, second));
                }
            }
        }
        let (with_buffer, mut least): (Vec<_>, Vec<_>) =
            pairs.into_iter().partition(|pair| [pair.2, pair.3].contains(&Cause::Buffer));
        least = vec![least.into_iter().min().expect("two causes")];
        least.extend(with_buffer.into_iter().min().filter(|_| buffers));
        for (times, kind, first, second) in least {
            println!("  the rarest two causes in one call: {first:?} and {second:?}, in a {kind}, {times} times");
            if times == 0 {
                return Err(Difference(String::from("two causes that can come together never did")));
            }
        }
        Ok(())
    }
}

/// Whether two causes, the first of them before the second, can come together in a call of this kind.
fn can_come_together(kind: usize, first: Cause, second: Cause) -> bool {
    let of_kind = |cause| match cause {
        Cause::Zero | Cause::NoPower | Cause::NotNested | Cause::Media => true,
        Cause::Buffer => kind < 2,
        Cause::Offset | Cause::Length | Cause::End => kind < 3,
        Cause::SetBit => kind == 1,
    };
    // A buffer that long is past the end of any media.
    first < second && of_kind(first) && of_kind(second) && (first, second) != (Cause::Buffer, Cause::SetBit)
}

/// What a call answered, the media after it, and a read's buffer.
#[derive(PartialEq, Debug)]
struct Step {
    number: u32,
    media: Vec<u8>,
    buffer: Vec<u8>,
}

#[derive(PartialEq, Debug)]
struct Steps(Vec<Step>);

impl common::Answer for Steps {
    fn number(&self) -> u32 {
        self.0.last().map_or(0, |step| step.number)
    }
}

/// A read's buffer before it is written: no byte of it is that of an erased or a cleared cell. A refusal leaves it.
fn buffer_of(call: &Call) -> Vec<u8> {
    match call {
        Call::Read { len, .. } => vec![0x5A; *len as usize],
        _ => Vec::new(),
    }
}

/// The Rust's answers, which are document 01's; where the Rust has no such device, document 01's alone, and nothing changes.
fn rust_steps(calls: &Calls, document: &Document) -> Steps {
    let mut device = rust_device(calls.units, calls.rule, &calls.media);
    let step = |call: &Call| {
        let mut buffer = buffer_of(call);
        let media = device.as_ref().map_or(&calls.media[..], Device::image);
        let by_document = document.number(calls.units, calls.rule, media, call.tested());
        let Some(device) = &mut device else {
            return Step { number: by_document, media: calls.media.clone(), buffer };
        };
        let number = refusal_of(match call {
            Call::Read { offset, .. } => device.read(*offset, &mut buffer),
            Call::Program { offset, src } => device.program(*offset, src),
            Call::Erase { offset, len } => device.erase(*offset, *len),
            Call::Barrier => device.barrier(),
        });
        assert_eq!(number, by_document, "the Rust's number and document 01's for {call:?} of {calls:?}");
        Step { number, media: device.image().to_vec(), buffer }
    };
    Steps(calls.calls.iter().map(step).collect())
}

fn our_steps(calls: &Calls) -> Steps {
    let units = calls.units;
    let mut media = calls.media.clone();
    let step = |call: &Call| {
        let mut buffer = buffer_of(call);
        let number = match call {
            Call::Read { offset, .. } => proved::read(units, &media, *offset, &mut buffer),
            Call::Program { offset, src } => proved::program(units, calls.rule, &mut media, *offset, src),
            Call::Erase { offset, len } => proved::erase(units, &mut media, *offset, *len),
            Call::Barrier => proved::barrier(units, &media),
        };
        Step { number, media: media.clone(), buffer }
    };
    Steps(calls.calls.iter().map(step).collect())
}

// ---- the inputs

fn compare(comparison: &mut Comparison) -> Result<(), Difference> {
    let document = Document::new();
    let rust_steps = |calls: &Calls| rust_steps(calls, &document);
    questions(comparison)?;
    lone_calls(comparison, &rust_steps)?;
    at_limits(comparison, &rust_steps)?;
    refused_units(comparison, &rust_steps)?;
    let buffers = longer_than_u32(comparison, &document)?;
    // An input takes microseconds here.
    for _ in 0..comparison.size / 2 {
        let calls = random_calls(&mut comparison.random);
        comparison.same(&calls, rust_steps, our_steps)?;
        let wrong = wrong_calls(&mut comparison.random);
        comparison.same(&wrong, rust_steps, our_steps)?;
        let question = random_question(&mut comparison.random);
        comparison.same(&question, rust_told, our_told)?;
    }
    document.all_pairs(buffers)
}

/// The kinds of bytes: random; all 0xFF; all 0x00; half and half; all 0xFF but a bit.
const KINDS: u32 = 5;

fn bytes(random: &mut Random, kind: u32, len: u32) -> Vec<u8> {
    let len = len as usize;
    match kind {
        0 => (0..len).map(|_| random.u32() as u8).collect(),
        1 => vec![0xFF; len],
        2 => vec![0x00; len],
        3 => (0..len).map(|place| if place < len / 2 { 0xFF } else { 0x00 }).collect(),
        _ => {
            let mut bytes = vec![0xFF; len];
            if len > 0 {
                bytes[random.below(len as u32) as usize] ^= 1 << random.below(8);
            }
            bytes
        }
    }
}

/// Every part of up to 20 cells of media of 1 to 32, and parts past their end, with media and bytes of every kind, and a
/// buffer somewhat shorter than the bytes, as long or longer.
fn questions(comparison: &mut Comparison) -> Result<(), Difference> {
    for cells in 1..=32 {
        let far = [u32::MAX - 20, u32::MAX - 1, u32::MAX];
        for offset in (0..=cells + 2).chain(far) {
            for len in 0..=20 {
                for kinds in 0..KINDS * KINDS {
                    let random = &mut comparison.random;
                    let question = Question {
                        media: bytes(random, kinds / KINDS, cells),
                        offset,
                        len,
                        src: bytes(random, kinds % KINDS, len),
                        out: vec![0x5A; random.below(2 * len + 2) as usize],
                    };
                    comparison.same(&question, rust_told, our_told)?;
                }
            }
        }
    }
    Ok(())
}

/// Media of up to 600 cells, since 128 are looked at in one go: bytes that are nearly those of the media, so that a lone
/// cell decides what is answered.
fn random_question(random: &mut Random) -> Question {
    let cells = 1 + random.pick(&[8, 150, 600]);
    let cells = 1 + random.below(cells);
    let kind = random.below(KINDS);
    let media = bytes(random, kind, cells);
    let offset = random.below(cells + 2);
    let left = cells.saturating_sub(offset);
    let len = random.pick(&[left, left, left / 2, left + 1]);
    let mut src: Vec<u8> = media.iter().skip(offset as usize).copied().chain([0xFF, 0xFF]).take(len as usize).collect();
    if !src.is_empty() {
        for _ in 0..random.below(3) {
            let place = random.below(src.len() as u32) as usize;
            src[place] ^= 1 << random.below(8);
        }
    }
    let room = random.pick(&[len, len + 3, len / 2]);
    Question { media, offset, len, src, out: bytes(random, 0, room) }
}

/// Units of small devices: every unit of 1, none the same, all the same, a capacity that is no power of two.
const DEVICES: [[u32; 4]; 7] =
    [[1, 1, 1, 1], [12, 4, 4, 2], [16, 8, 4, 4], [20, 4, 2, 1], [24, 8, 8, 8], [32, 8, 4, 2], [32, 32, 8, 1]];

/// On each small device, under both rules, every call of up to 20 bytes at every offset up to past the end.
fn lone_calls(comparison: &mut Comparison, rust_steps: &impl Fn(&Calls) -> Steps) -> Result<(), Difference> {
    for units in DEVICES {
        for place in 0..2 * KINDS * KINDS * (units[0] + 3) * 21 {
            let random = &mut comparison.random;
            let (len, place) = (place % 21, place / 21);
            let (offset, place) = (place % (units[0] + 3), place / (units[0] + 3));
            let (source_kind, place) = (place % KINDS, place / KINDS);
            let (media_kind, rule) = (place % KINDS, place / KINDS);
            let media = bytes(random, media_kind, units[0]);
            let src = bytes(random, source_kind, len);
            for call in [Call::Read { offset, len }, Call::Program { offset, src }, Call::Erase { offset, len }] {
                let calls = Calls { units, rule, media: media.clone(), calls: vec![call] };
                comparison.same(&calls, rust_steps, our_steps)?;
            }
        }
    }
    Ok(())
}

/// Spans that end, start or are as long as numbers beside 0, the capacity, 2^31 and 2^32.
fn at_limits(comparison: &mut Comparison, rust_steps: &impl Fn(&Calls) -> Steps) -> Result<(), Difference> {
    for units in DEVICES {
        let mut marks = Vec::new();
        for mark in [0, units[0], 1 << 31, 0u32.wrapping_sub(units[0])] {
            for beside in [0, 1, 2, 4, 8, 16, 32] {
                marks.extend([mark.wrapping_add(beside), mark.wrapping_sub(beside)]);
            }
        }
        for &offset in &marks {
            for &len in &marks {
                let mut calls = vec![Call::Erase { offset, len }, Call::Barrier];
                if len < 100 {
                    calls.push(Call::Program { offset, src: vec![0xA5; len as usize] });
                    calls.push(Call::Read { offset, len });
                }
                for rule in 0..2 {
                    let media = bytes(&mut comparison.random, 0, units[0]);
                    let calls = Calls { units, rule, media, calls: calls.clone() };
                    comparison.same(&calls, rust_steps, our_steps)?;
                }
            }
        }
    }
    Ok(())
}

/// Every capacity up to 12 with units below 10, with media of that capacity and a cell more or less.
fn refused_units(comparison: &mut Comparison, rust_steps: &impl Fn(&Calls) -> Steps) -> Result<(), Difference> {
    for place in 0..13 * 10 * 10 * 10 {
        let units: [u32; 4] = [place / 1000, place / 100 % 10, place / 10 % 10, place % 10];
        for cells in [units[0], units[0] + 1, units[0].saturating_sub(1)] {
            let random = &mut comparison.random;
            let (offset, len) = (random.below(4), random.below(9));
            let calls = vec![
                Call::Program { offset, src: bytes(random, 0, len) },
                Call::Read { offset, len },
                Call::Erase { offset, len },
                Call::Barrier,
            ];
            let calls = Calls { units, rule: random.below(2), media: bytes(random, 0, cells), calls };
            comparison.same(&calls, rust_steps, our_steps)?;
        }
    }
    Ok(())
}

/// Mostly calls that are accepted, on media that they then share; at times units, media or a span that are refused.
fn random_calls(random: &mut Random) -> Calls {
    let mut shifts = [random.below(4), random.below(4), random.below(4)];
    shifts.sort_unstable();
    let [read, program, erase] = shifts.map(|shift| 1 << shift);
    let mut units = [erase * (1 + random.below(32 / erase)), erase, program, read];
    let calls = (0..1 + random.below(8)).map(|_| random_call(random, units)).collect();
    let mut cells = units[0];
    match random.below(32) {
        0 => units[random.below(4) as usize] = random.pick(&[0, 3, 8, 12, 20, 32]),
        1 => cells = random.pick(&[0, cells - 1, cells + 1]),
        _ => {}
    }
    // An erased device takes any program first, so that both rules go on from there.
    let kind = random.pick(&[0, 1, 1, 1, 3, 4]);
    Calls { units, rule: random.below(2), media: bytes(random, kind, cells), calls }
}

fn random_call(random: &mut Random, [capacity, erase, program, read]: [u32; 4]) -> Call {
    let kind = random.below(8);
    let unit = match kind {
        0..4 => program,
        4 | 5 => erase,
        _ => read,
    };
    let (offset, len) = match random.below(16) {
        0 => (random.below(capacity + 2), random.below(capacity + 2)),
        1 => (random.u32() / unit * unit, random.below(4) * unit),
        _ => {
            let offset = random.below(capacity / unit + 1) * unit;
            (offset, random.below((capacity - offset) / unit + 1) * unit)
        }
    };
    match kind {
        0..4 => {
            let kind = random.below(KINDS);
            Call::Program { offset, src: bytes(random, kind, len) }
        }
        4 | 5 => Call::Erase { offset, len },
        6 => Call::Read { offset, len },
        _ => Call::Barrier,
    }
}

/// Calls with several things wrong at once, each as often as not: units, the media's length, a span's offset, length and end,
/// and bits to be set.
fn wrong_calls(random: &mut Random) -> Calls {
    let mut units = random.pick(&DEVICES);
    let calls = (0..1 + random.below(3)).map(|_| wrong_call(random, units)).collect();
    for _ in 0..random.pick(&[0, 0, 1, 2]) {
        units[random.below(4) as usize] = random.pick(&[0, 1, 2, 3, 6, 8, 12, 20, 64]);
    }
    let capacity = units[0];
    let cells = random.pick(&[capacity, capacity, 0, capacity.saturating_sub(1), capacity + 1, capacity + 40]);
    let kind = random.pick(&[0, 2, 2, 3]);
    Calls { units, rule: random.pick(&[0, 1, 1]), media: bytes(random, kind, cells), calls }
}

/// The span is fit for these units, or moved, made longer, or both, by a byte, some bytes or a unit, or past the end.
fn wrong_call(random: &mut Random, [capacity, erase, program, read]: [u32; 4]) -> Call {
    let kind = random.below(8);
    let unit = [read, read, program, program, program, erase, erase, 1][kind as usize];
    let mut offset = random.below(capacity / unit) * unit;
    let mut len = random.pick(&[0, unit, unit, capacity - offset]);
    let moves = [1, 1, 3, unit, capacity];
    if random.below(2) == 0 {
        offset += random.pick(&moves);
    }
    if random.below(2) == 0 {
        len += random.pick(&moves);
    }
    if random.below(16) == 0 {
        offset = 0u32.wrapping_sub(random.pick(&moves));
    }
    match kind {
        0 | 1 => Call::Read { offset, len },
        2..5 => {
            let kind = random.pick(&[0, 1, 1, 3]);
            Call::Program { offset, src: bytes(random, kind, len) }
        }
        5 | 6 => Call::Erase { offset, len },
        _ => Call::Barrier,
    }
}

// ---- buffers longer than a u32 can count

/// A device and a buffer of zeros of so many bytes. There is nothing smaller of the kind.
#[derive(Clone, Debug)]
struct Long {
    units: [u32; 4],
    media: Vec<u8>,
    offset: u32,
    len: usize,
}

impl Input for Long {
    fn smaller(&self) -> Vec<Self> {
        Vec::new()
    }
}

/// What is answered to the buffer, and the media as they are left.
#[derive(PartialEq, Debug)]
struct LongTold {
    read: u32,
    program: u32,
    apply_program: u32,
    would_set_a_bit: u32,
    postimage_of: usize,
    differs_from: u32,
    media: Vec<u8>,
}

impl common::Answer for LongTold {
    fn number(&self) -> u32 {
        self.program
    }
}

/// Where the Rust has no such device, what is asked of the media without a geometry is held to a device of as many cells.
fn rust_long(long: &Long, buffer: &mut [u8], document: &Document) -> LongTold {
    let cells = long.media.len() as u32;
    let mut media =
        rust_device([cells, 1, 1, 1], 0, &long.media).expect("units of a byte, and media of their capacity");
    let by_document = [0, 1].map(|kind| {
        let call = Tested { kind, offset: long.offset, len: long.len as u64, src: buffer };
        document.number(long.units, 0, &long.media, call)
    });
    if let Some(mut device) = rust_device(long.units, 0, &long.media) {
        let rust = [refusal_of(device.read(long.offset, buffer)), refusal_of(device.program(long.offset, buffer))];
        assert_eq!(rust, by_document, "the Rust's numbers and document 01's for {long:?}");
    }
    let [read, program] = by_document;
    LongTold {
        read,
        program,
        apply_program: inside::apply_program(&mut media, long.offset, buffer).into(),
        would_set_a_bit: inside::would_set_a_bit(&media, long.offset, buffer).into(),
        postimage_of: inside::postimage_of(&media, long.offset, buffer).len(),
        differs_from: inside::differs_from(&media, long.offset, buffer).into(),
        media: media.into_image(),
    }
}

fn our_long(long: &Long, buffer: &mut [u8]) -> LongTold {
    let mut media = long.media.clone();
    let mut count = UNWRITTEN;
    LongTold {
        read: proved::read(long.units, &media, long.offset, buffer),
        program: proved::program(long.units, 0, &mut media, long.offset, buffer),
        apply_program: proved::apply_program(&mut media, long.offset, buffer),
        would_set_a_bit: proved::would_set_a_bit(&media, long.offset, buffer),
        postimage_of: {
            proved::postimage_of(&media, long.offset, buffer, &mut [], &mut count);
            count
        },
        differs_from: proved::differs_from(&media, long.offset, buffer),
        media,
    }
}

/// Zeros that take no memory until somebody looks at them, as nobody is to do here; none where the machine has no room.
fn zeros(len: usize) -> Option<Vec<u8>> {
    let layout = Layout::array::<u8>(len).ok()?;
    // SAFETY: the layout is not empty; what comes back, where it is not null, was allocated with it and is all zeros.
    unsafe {
        let start = alloc_zeroed(layout);
        (!start.is_null()).then(|| Vec::from_raw_parts(start, len, len))
    }
}

/// A buffer of 2^32 bytes or more, with units, offsets, lengths and media that are refused and that are not. Whether there was
/// room for one.
fn longer_than_u32(comparison: &mut Comparison, document: &Document) -> Result<bool, Difference> {
    const LENS: [usize; 4] = [1 << 32, (1 << 32) + 8, (1 << 32) + 1, (1 << 32) + 6];
    let Some(buffer) = zeros(LENS[1]) else {
        eprintln!("run: note: there is no room for 4 GiB, so no buffer longer than a u32 can count was compared");
        return Ok(false);
    };
    let buffer = RefCell::new(buffer);
    let rust = |long: &Long| rust_long(long, &mut buffer.borrow_mut()[..long.len], document);
    let ours = |long: &Long| our_long(long, &mut buffer.borrow_mut()[..long.len]);
    for units in [[16, 8, 4, 4], [16, 3, 4, 4], [20, 8, 4, 4], [1, 1, 1, 1], [0, 8, 4, 4], [16, 4, 8, 4]] {
        for place in 0..3 * 4 * 4 {
            let cells = [units[0], units[0] + 1, 1][place % 3];
            let len = LENS[place / 3 % 4];
            let offset = [0, 2, 4, u32::MAX][place / 12];
            if cells > 0 {
                let long = Long { units, media: bytes(&mut comparison.random, 0, cells), offset, len };
                comparison.same(&long, rust, ours)?;
            }
        }
    }
    Ok(true)
}

// ---- times

const CELLS: usize = 4096;
const CALLS: usize = 4096;

/// Makes the calls one after the other on one device, and sums what each gave.
fn sum(call: impl FnMut(usize) -> u64) -> u64 {
    (0..CALLS).map(call).sum()
}

fn bench(random: &mut Random) {
    let units = [CELLS as u32, CELLS as u32, 256, 4];
    let erased = vec![0xFF; CELLS];
    let device = |rule: u32| rust_device(units, rule, &erased).expect("units that nest");
    let random_sources: Vec<Vec<u8>> = (0..64).map(|_| bytes(random, 0, CELLS as u32)).collect();
    // Programming 0x00 sets no bit, so that under Rejected every byte is looked at.
    let rows = [("Absorbed", 0, random_sources.clone()), ("Rejected", 1, vec![vec![0; CELLS]])];
    for (name, rule, sources) in &rows {
        bench_row(
            &format!("device: program of 4,096, {name}"),
            CALLS,
            || {
                let mut device = device(*rule);
                sum(|call| {
                    let number = refusal_of(device.program(0, &sources[call % sources.len()]));
                    u64::from(number) + u64::from(device.image()[call])
                })
            },
            || {
                let mut media = erased.clone();
                sum(|call| {
                    let number = proved::program(units, *rule, &mut media, 0, &sources[call % sources.len()]);
                    u64::from(number) + u64::from(media[call])
                })
            },
        );
    }
    bench_row(
        "device: apply_program of 4,096",
        CALLS,
        || {
            let mut device = device(0);
            sum(|call| inside::apply_program(&mut device, 0, &random_sources[call % 64]).into())
        },
        || {
            let mut media = erased.clone();
            sum(|call| proved::apply_program(&mut media, 0, &random_sources[call % 64]).into())
        },
    );
    bench_erase(&erased, &device(0));
    bench_row(
        "device: read of 4,096",
        CALLS,
        || {
            let (mut device, mut buffer) = (device(0), vec![0; CELLS]);
            sum(|call| u64::from(refusal_of(device.read(0, &mut buffer))) + u64::from(buffer[call]))
        },
        || {
            let mut buffer = vec![0; CELLS];
            sum(|call| u64::from(proved::read(units, &erased, 0, &mut buffer)) + u64::from(buffer[call]))
        },
    );
}

fn bench_erase(erased: &[u8], device: &Device) {
    const LEN: u32 = CELLS as u32;
    bench_row(
        "device: apply_erase of 4,096, erased before",
        CALLS,
        || {
            let mut device = device.clone();
            sum(|call| u64::from(inside::apply_erase(&mut device, 0, LEN)) + u64::from(device.image()[call]))
        },
        || {
            let mut media = erased.to_vec();
            sum(|call| u64::from(proved::apply_erase(&mut media, 0, LEN)) + u64::from(media[call]))
        },
    );
    // A cell is programmed anew before each erase.
    for (name, at) in [("first", 0), ("last", LEN - 1)] {
        bench_row(
            &format!("device: apply_erase of 4,096, {name} written"),
            CALLS,
            || {
                let mut device = device.clone();
                sum(|_| {
                    let written = inside::apply_program(&mut device, at, &[0]);
                    u64::from(written) + u64::from(inside::apply_erase(&mut device, 0, LEN))
                })
            },
            || {
                let mut media = erased.to_vec();
                sum(|_| {
                    let written = proved::apply_program(&mut media, at, &[0]);
                    u64::from(written) + u64::from(proved::apply_erase(&mut media, 0, LEN))
                })
            },
        );
    }
    bench_row(
        "device: erase_would_change of 4,096, erased",
        CALLS,
        || sum(|call| u64::from(inside::erase_would_change(device, 0, LEN)) + call as u64),
        || sum(|call| u64::from(proved::erase_would_change(erased, 0, LEN)) + call as u64),
    );
}

// ---- the sample that crates/device_cases replays: the same tables and the same order as in its src/main.rt

const SAMPLE_DEVICES: [[u32; 4]; 5] = [[16, 8, 4, 4], [24, 8, 2, 1], [20, 8, 4, 4], [16, 8, 4, 4], [0, 0, 0, 0]];
const SAMPLE_CELLS: [usize; 5] = [16, 24, 20, 15, 1];
const OFFSETS: [u32; 7] = [0, 2, 4, 8, 15, 16, 4_294_967_292];
const BYTES: [u8; 16] =
    [0xFF, 0xF0, 0x00, 0x0F, 0xA5, 0xFF, 0x7F, 0x5A, 0xFE, 0x80, 0xFF, 0x3C, 0x01, 0xFF, 0xC3, 0x00];

/// So many bytes of the table, from a place on and around.
fn of_table(from: usize, len: usize) -> Vec<u8> {
    (from..from + len).map(|place| BYTES[place % 16]).collect()
}

fn sample() -> String {
    let mut text = String::new();
    for rule in 0..2 {
        for (units, cells) in SAMPLE_DEVICES.into_iter().zip(SAMPLE_CELLS) {
            let calls = Calls { units, rule, media: vec![0xFF; cells], calls: sample_calls() };
            for (call, step) in calls.calls.iter().zip(rust_steps(&calls, &Document::new()).0) {
                let (kind, offset, len) = match call {
                    Call::Program { offset, src } => (0, *offset, src.len() as u32),
                    Call::Read { offset, len } => (1, *offset, *len),
                    Call::Erase { offset, len } => (2, *offset, *len),
                    Call::Barrier => (3, 0, 0),
                };
                let left = if kind == 1 { step.buffer } else { step.media };
                line(&mut text, &[kind, rule, units[0], cells as u32, offset, len, step.number], &left);
            }
        }
    }
    for place in 0..2 * 14 * 5 {
        let (offset, len) = (place / 5 % 14, place % 5);
        let media = if place < 70 { vec![0xFF; 12] } else { of_table(5, 12) };
        let src = of_table(place as usize, len as usize);
        let told = rust_told(&Question { media, offset, len, src, out: vec![0x5A; 3] });
        let answers = [told.would_set_a_bit, told.differs_from, told.erase_would_change, told.apply_program];
        line(&mut text, &[&[offset, len], &answers[..]].concat(), &told.programmed);
        line(&mut text, &[told.postimage_of, if told.count == UNWRITTEN { 0 } else { told.count as u32 }], &told.out);
        line(&mut text, &[told.apply_erase], &told.erased);
    }
    text
}

/// At each offset with each length of 0 to 8: a program, a read and an erase; a barrier at the end.
fn sample_calls() -> Vec<Call> {
    let mut calls = Vec::new();
    for place in 0..7 * 9 {
        let (offset, len) = (OFFSETS[place / 9], place % 9);
        calls.push(Call::Program { offset, src: of_table(place, len) });
        calls.push(Call::Read { offset, len: len as u32 });
        calls.push(Call::Erase { offset, len: len as u32 });
    }
    calls.push(Call::Barrier);
    calls
}

/// Numbers, a colon, and bytes.
fn line(text: &mut String, numbers: &[u32], bytes: &[u8]) {
    for number in numbers {
        text.push_str(&format!("{number} "));
    }
    text.push(':');
    for byte in bytes {
        text.push_str(&format!(" {byte}"));
    }
    text.push('\n');
}
