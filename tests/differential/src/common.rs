//! What every layer's comparison shares: inputs from a seed, the smallest input at which two sides differ, counts,
//! and times.

use std::collections::BTreeMap;
use std::fmt::Debug;
use std::hint::black_box;
use std::time::Instant;

/// One layer of the project, held against the Rust it follows.
pub struct Layer {
    pub name: &'static str,
    /// Runs both sides on the same inputs, and stops at the first difference.
    pub compare: fn(&mut Comparison) -> Result<(), Difference>,
    /// Times both sides on the same inputs.
    pub bench: fn(&mut Random),
    /// What the Rust answers to the inputs of crates/NAME_cases, as that program prints it.
    pub sample: fn() -> String,
}

/// The first difference found, written out for a reader.
pub struct Difference(pub String);

/// Pseudorandom numbers (xorshift64*): the same seed gives the same inputs on every machine.
pub struct Random(u64);

impl Random {
    pub fn new(seed: u64) -> Self {
        // The state is never 0, from which nothing else would follow.
        Self(seed.wrapping_mul(0x9E37_79B9_7F4A_7C15) | 1)
    }

    pub fn u64(&mut self) -> u64 {
        self.0 ^= self.0 >> 12;
        self.0 ^= self.0 << 25;
        self.0 ^= self.0 >> 27;
        self.0.wrapping_mul(0x2545_F491_4F6C_DD1D)
    }

    pub fn u32(&mut self) -> u32 {
        (self.u64() >> 32) as u32
    }

    /// A number below `end`, which is not 0.
    pub fn below(&mut self, end: u32) -> u32 {
        ((u64::from(self.u32()) * u64::from(end)) >> 32) as u32
    }

    pub fn pick<T: Copy>(&mut self, of: &[T]) -> T {
        of[self.below(of.len() as u32) as usize]
    }
}

/// An input that knows inputs a step smaller, the smallest first.
pub trait Input: Clone + Debug {
    fn smaller(&self) -> Vec<Self>;
}

/// What a side answers to an input.
pub trait Answer: PartialEq + Debug {
    /// Document 01's number, 0 where nothing is refused. The comparison tells how often each came, so that a reader sees
    /// which answers its inputs reach.
    fn number(&self) -> u32;
}

/// Numbers a step smaller than `n`, the smallest first.
pub fn smaller_numbers(n: u32) -> Vec<u32> {
    let mut found = vec![0, n / 2, n.saturating_sub(n / 8), n.saturating_sub(1)];
    found.retain(|&m| m < n);
    found.dedup();
    found
}

/// Parts of a list to leave out: all, a half, a quarter, and so on down to one. A long list is not cut into parts that are
/// that small, since each makes a copy.
pub fn cuts(len: usize) -> Vec<(usize, usize)> {
    let mut found = Vec::new();
    let mut part = len;
    while part > 0 && len / part <= 512 {
        found.extend((0..len).step_by(part).map(|from| (from, (from + part).min(len))));
        part /= 2;
    }
    found
}

/// A list without the cells from one place to another.
pub fn without<T: Copy>(list: &[T], from: usize, to: usize) -> Vec<T> {
    let (from, to) = (from.min(list.len()), to.min(list.len()));
    [&list[..from], &list[to..]].concat()
}

/// One layer's comparison: where its inputs come from, and how many were compared.
pub struct Comparison {
    pub random: Random,
    /// How many random inputs to try.
    pub size: u64,
    pub compared: u64,
    /// How often the Rust answered each number.
    pub answers: BTreeMap<u32, u64>,
}

impl Comparison {
    pub fn new(seed: u64, size: u64) -> Self {
        Self { random: Random::new(seed), size, compared: 0, answers: BTreeMap::new() }
    }

    /// Asks both sides for their answer to one input. Where they differ, looks for the smallest such input.
    pub fn same<I: Input, A: Answer>(
        &mut self,
        input: &I,
        rust: impl Fn(&I) -> A,
        ours: impl Fn(&I) -> A,
    ) -> Result<(), Difference> {
        self.compared += 1;
        let answer = rust(input);
        *self.answers.entry(answer.number()).or_default() += 1;
        if answer == ours(input) {
            return Ok(());
        }
        let least = smallest(input, |i| rust(i) != ours(i));
        Err(Difference(format!(
            "input     {least:?}\nthe Rust  {:?}\nthis      {:?}\nfound at  {input:?}",
            rust(&least),
            ours(&least)
        )))
    }
}

/// Goes from an input that differs to a smaller one that still does, until there is none.
fn smallest<I: Input>(start: &I, differs: impl Fn(&I) -> bool) -> I {
    let mut least = start.clone();
    while let Some(next) = least.smaller().into_iter().find(&differs) {
        least = next;
    }
    least
}

/// How often each side of a benchmark is timed. The median is printed.
const REPETITIONS: usize = 11;

/// Times both sides in turn and prints a row. Each side does `items` pieces of work and answers a sum of what it found,
/// so that no work can be left out, and the two sums are equal.
pub fn bench_row(what: &str, items: usize, rust: impl Fn() -> u64, ours: impl Fn() -> u64) {
    let timed = |side: &dyn Fn() -> u64| {
        let start = Instant::now();
        let sum = black_box(side());
        (start.elapsed().as_secs_f64() * 1e9 / items as f64, sum)
    };
    let mut times = (Vec::new(), Vec::new());
    for _ in 0..REPETITIONS {
        let (rust_time, rust_sum) = timed(&rust);
        let (our_time, our_sum) = timed(&ours);
        assert_eq!(rust_sum, our_sum, "{what}: the two sides did different work");
        times.0.push(rust_time);
        times.1.push(our_time);
    }
    let (rust, ours) = (median(times.0), median(times.1));
    println!("{what:<44} {rust:>10.2} {ours:>10.2} {:>8.2}", ours / rust);
}

pub fn median(mut times: Vec<f64>) -> f64 {
    times.sort_by(f64::total_cmp);
    times[times.len() / 2]
}
