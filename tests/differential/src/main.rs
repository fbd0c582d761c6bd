//! Holds the proved functions against the original Rust, on the same inputs, in one process. `run` builds and starts it.

mod bench;
mod common;
mod device;
mod inject;
mod oracle;
mod program_scripts;
mod programs;
mod script;
mod script_reader;
mod session;
mod storage;

use bench::Program;
use common::{Comparison, Layer, Random};
use std::io::{BufWriter, Read, Write};
use std::path::PathBuf;
use std::process::ExitCode;
use std::time::Instant;

/// The layers, lowest first.
const LAYERS: &[Layer] = &[
    storage::LAYER,
    device::LAYER,
    inject::LAYER,
    oracle::LAYER,
    script::LAYER,
    session::LAYER,
    session::ledger::LAYER,
    session::ledger::held::LAYER,
    session::replay::LAYER,
    programs::LAYER,
];

/// A sample that is no layer's, by its name.
type Sample = (&'static str, fn() -> String);

const SAMPLES: [Sample; 3] =
    [("sweep", programs::sample_sweep), ("judge", programs::sample_judge), ("parts", programs::sample_parts)];

/// Random inputs to each layer, where the caller does not say how many.
const SIZE: u64 = 1_000_000;

enum Task {
    Compare,
    Bench,
    Sample,
    /// What a program is held to, for the script on standard input.
    Answer(Program),
}

struct Words {
    task: Task,
    layers: Vec<&'static Layer>,
    samples: Vec<fn() -> String>,
    seed: u64,
    size: u64,
    /// Where the built programs are.
    folder: PathBuf,
    slow: bool,
}

fn main() -> ExitCode {
    let words = match read_words(std::env::args().skip(1)) {
        Ok(words) => words,
        Err(message) => {
            eprintln!("run: {message}");
            return ExitCode::from(2);
        }
    };
    let asked = programs::Asked { folder: words.folder.clone(), slow: words.slow };
    programs::ASKED.get_or_init(|| asked);
    match words.task {
        Task::Compare => compare(&words),
        Task::Bench => {
            println!("{:<44} {:>10} {:>10} {:>8}", "ns for each", "the Rust", "this", "ratio");
            for layer in &words.layers {
                (layer.bench)(&mut Random::new(words.seed));
            }
            ExitCode::SUCCESS
        }
        Task::Sample => {
            for layer in &words.layers {
                print!("{}", (layer.sample)());
            }
            for sample in &words.samples {
                print!("{}", sample());
            }
            ExitCode::SUCCESS
        }
        Task::Answer(program) => match answer(program) {
            Ok(()) => ExitCode::SUCCESS,
            Err(error) => {
                eprintln!("run: {error}");
                ExitCode::from(2)
            }
        },
    }
}

fn compare(words: &Words) -> ExitCode {
    for layer in &words.layers {
        let start = Instant::now();
        let mut comparison = Comparison::new(words.seed, words.size);
        if let Err(difference) = (layer.compare)(&mut comparison) {
            println!("{}: a difference after {} inputs", layer.name, comparison.compared);
            println!("{}", difference.0);
            return ExitCode::from(1);
        }
        let seconds = start.elapsed().as_secs_f64();
        println!("{}: {} inputs compared, no difference ({seconds:.1} s)", layer.name, comparison.compared);
        let answers = comparison.answers.iter().map(|(number, times)| format!("{number}: {times}"));
        println!("  answers by number: {}", answers.collect::<Vec<_>>().join(", "));
    }
    ExitCode::SUCCESS
}

fn answer(program: Program) -> std::io::Result<()> {
    let mut text = Vec::new();
    std::io::stdin().lock().read_to_end(&mut text)?;
    let mut out = BufWriter::new(std::io::stdout().lock());
    program.print(&mut out, &bench::sweep(&text))?;
    out.flush()
}

fn read_words(mut given: impl Iterator<Item = String>) -> Result<Words, String> {
    let mut words = Words {
        task: Task::Compare,
        layers: Vec::new(),
        samples: Vec::new(),
        seed: 1,
        size: SIZE,
        folder: PathBuf::from(concat!(env!("CARGO_MANIFEST_DIR"), "/../../target/bin")),
        slow: false,
    };
    while let Some(word) = given.next() {
        match word.as_str() {
            "bench" => words.task = Task::Bench,
            "sample" => words.task = Task::Sample,
            "--seed" => words.seed = number(&word, given.next())?,
            "--size" => words.size = number(&word, given.next())?,
            "--programs" => words.folder = given.next().ok_or("--programs is followed by a folder")?.into(),
            "--slow" => words.slow = true,
            "rust-sweep" => words.task = Task::Answer(Program::Sweep),
            "rust-judge" => words.task = Task::Answer(Program::Judge),
            name => {
                let sample = SAMPLES.iter().find(|sample| sample.0 == name);
                match (LAYERS.iter().find(|layer| layer.name == name), sample, &words.task) {
                    (Some(layer), ..) => words.layers.push(layer),
                    (None, Some(sample), Task::Sample) => words.samples.push(sample.1),
                    _ => return Err(format!("there is no layer {name}; there are: {}", names())),
                }
            }
        }
    }
    if words.layers.is_empty() && words.samples.is_empty() {
        if let Task::Sample = words.task {
            return Err(format!("sample is followed by a layer: {}, or by sweep, judge or parts", names()));
        }
        words.layers.extend(LAYERS);
    }
    if let (Task::Compare | Task::Bench, Some(program)) = (&words.task, programs::absent(&words.folder))
        && words.layers.iter().any(|layer| layer.name == programs::LAYER.name)
    {
        return Err(format!("there is no program {}: `rt check sweep judge` makes both", program.display()));
    }
    Ok(words)
}

fn names() -> String {
    LAYERS.iter().map(|layer| layer.name).collect::<Vec<_>>().join(", ")
}

fn number(word: &str, given: Option<String>) -> Result<u64, String> {
    given.and_then(|text| text.parse().ok()).ok_or_else(|| format!("{word} is followed by a number"))
}
