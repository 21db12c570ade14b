//! Calls per second of the linked library and of the model, on the same inputs
//! in the same run, as a table in Markdown.
//!
//! `bench [--seconds N]`: so many seconds for each input and program, 2 unless
//! said otherwise. `bench --write FOLDER`: the inputs as files of frames, for
//! other measurements, and nothing else.

use endrusp::generate::Generator;
use endrusp::model::{self, Call, Cell, LONGEST_INPUT, State};
use std::env;
use std::fs;
use std::hint::black_box;
use std::path::{Path, PathBuf};
use std::process::ExitCode;
use std::time::{Duration, Instant};

/// Rounds of each measurement; the best one counts.
const ROUNDS: u32 = 10;

/// An input and what the state is like while it runs.
struct Input {
    name: &'static str,
    /// What its file is called.
    file: &'static str,
    text: Vec<u8>,
    frames: usize,
    /// Live cells, live entries and messages, on average over the frames.
    live: [f64; 3],
    /// Frames that are refused, of a hundred.
    refused: f64,
}

fn main() -> ExitCode {
    if cfg!(debug_assertions) {
        eprintln!("the benchmark is to be built with --release");
        return ExitCode::from(2);
    }
    let wanted = match wanted() {
        Ok(wanted) => wanted,
        Err(message) => {
            eprintln!("{message}");
            eprintln!("bench [--seconds N | --write FOLDER]");
            return ExitCode::from(2);
        }
    };
    let inputs = [nearly_empty(), busy(), full_slots()];
    let seconds = match wanted {
        Wanted::Table(seconds) => seconds,
        Wanted::Files(folder) => return write(&inputs, &folder),
    };
    for input in &inputs {
        if endrusp::run(&input.text) != model::run_text(&input.text) {
            eprintln!("{}: library and model differ; run the differential test", input.name);
            return ExitCode::from(1);
        }
    }
    println!("Command: `cargo run --release --bin bench -- --seconds {seconds}`");
    println!();
    println!("| input | frames | live cells | live entries | messages | refused |");
    println!("|---|---:|---:|---:|---:|---:|");
    for Input { name, frames, live: [cells, entries, messages], refused, .. } in &inputs {
        println!(
            "| {name} | {frames} | {cells:.1} | {entries:.1} | {messages:.1} | {refused:.0} % |"
        );
    }
    println!();
    println!(
        "| input | library, calls/s | model, calls/s | model / library \
         | model without the test, calls/s | share of the test in the model |"
    );
    println!("|---|---:|---:|---:|---:|---:|");
    for input in &inputs {
        let [library, model, untested] = measure(input, Duration::from_secs(seconds));
        println!(
            "| {} | {} | {} | {:.2} | {} | {:.0} % |",
            input.name,
            thousands(library),
            thousands(model),
            model / library,
            thousands(untested),
            100.0 * (1.0 - model / untested)
        );
    }
    println!();
    println!(
        "Live cells, entries and messages are averages over the frames of an input. Each input \
         is run again and again; the best of {ROUNDS} rounds counts, and the rounds of the three \
         programs take turns. Reading the frames and writing the answers is in all the numbers. \
         Model / library says how many times as fast as the library the model is; the test is \
         that of soundness, which the library always makes."
    );
    ExitCode::SUCCESS
}

/// What the command line asks for.
enum Wanted {
    /// The table, with so many seconds for each input and program.
    Table(u64),
    /// The inputs as files in this folder.
    Files(PathBuf),
}

fn wanted() -> Result<Wanted, String> {
    let words: Vec<String> = env::args().skip(1).collect();
    match words.iter().map(String::as_str).collect::<Vec<_>>().as_slice() {
        [] => Ok(Wanted::Table(2)),
        ["--seconds", number] => match number.parse() {
            Ok(seconds) if seconds > 0 => Ok(Wanted::Table(seconds)),
            _ => Err(format!("{number} is not a number above 0")),
        },
        ["--write", folder] => Ok(Wanted::Files(PathBuf::from(folder))),
        _ => Err("these options are not known".to_string()),
    }
}

/// The inputs as files, and their names.
fn write(inputs: &[Input], folder: &Path) -> ExitCode {
    for input in inputs {
        let path = folder.join(input.file);
        if let Err(error) = fs::create_dir_all(folder).and_then(|()| fs::write(&path, &input.text))
        {
            eprintln!("{}: {error}", path.display());
            return ExitCode::from(1);
        }
        println!("{}", path.display());
    }
    ExitCode::SUCCESS
}

// ------------------------------------------------------------------ the inputs

/// One VAR exported, read from afar, set and dropped, again and again: the run
/// that document 01 prints.
fn nearly_empty() -> Input {
    let mut generator = Generator::new(1, LONGEST_INPUT);
    generator.call(Call::Start { p: 2 });
    let mut round = 0;
    while !generator.full() {
        for call in [
            Call::New { w: 0, caller: 0 },
            Call::Export { w: 0, c: 0, to: 1 },
            Call::Deliver { s: 0 },
            Call::Read { w: 1, c: 0 },
            Call::Set { w: 0, c: 0, n: round },
            Call::Deliver { s: 0 },
            Call::Deliver { s: 0 },
            Call::Read { w: 1, c: 0 },
            Call::Drop { w: 1, c: 0 },
            Call::Deliver { s: 0 },
            Call::Drop { w: 0, c: 0 },
        ] {
            generator.call(call);
        }
        round += 1;
    }
    described("nearly empty, 2 workers", "nearly-empty.frames", generator)
}

/// Eight workers with tables about half full and messages on their way.
fn busy() -> Input {
    let mut generator = Generator::new(2, LONGEST_INPUT);
    generator.grow_busy();
    generator.stay_busy();
    described("busy, 8 workers", "busy.frames", generator)
}

/// The same with all 64 slots full, or one short of it.
fn full_slots() -> Input {
    let mut generator = Generator::new(3, LONGEST_INPUT);
    generator.grow_busy();
    generator.stay_full();
    described("full slots, 8 workers", "full-slots.frames", generator)
}

/// Runs the input once more, to see what is live.
fn described(name: &'static str, file: &'static str, generator: Generator) -> Input {
    let (text, _) = generator.finish();
    let mut state = State::closed();
    let mut sums = [0, 0, 0];
    let (mut frames, mut refusals) = (0, 0);
    for line in text.trim_ascii_end().split(|byte| *byte == b'\n') {
        let outcome = model::decode(line).map(|call| state.call(call));
        frames += 1;
        refusals += usize::from(!matches!(outcome, Some(Ok(_))));
        sums[0] += state.cells.as_flattened().iter().filter(|cell| **cell != Cell::Free).count();
        sums[1] += state.entries.as_flattened().iter().flatten().count();
        sums[2] += state.messages().count();
    }
    let live = sums.map(|sum| sum as f64 / frames as f64);
    Input { name, file, text, frames, live, refused: 100.0 * refusals as f64 / frames as f64 }
}

// --------------------------------------------------------------- the measuring

/// A text program: an input to what it prints.
type Program = fn(&[u8]) -> Vec<u8>;

/// Calls per second of the library, of the model, and of the model without the
/// test of soundness.
fn measure(input: &Input, budget: Duration) -> [f64; 3] {
    let programs: [Program; 3] = [endrusp::run, model::run_text, model::run_text_with::<false>];
    let mut best = [0.0_f64; 3];
    for _ in 0..ROUNDS {
        for (program, best) in programs.iter().zip(&mut best) {
            *best = best.max(round(input, *program, budget / ROUNDS));
        }
    }
    best
}

/// One round: runs over the input until the time is over, at least one.
fn round(input: &Input, program: Program, time: Duration) -> f64 {
    let mut runs = 0;
    let begun = Instant::now();
    loop {
        black_box(program(black_box(&input.text)));
        runs += 1;
        let taken = begun.elapsed();
        if taken >= time {
            return (runs * input.frames) as f64 / taken.as_secs_f64();
        }
    }
}

/// A whole number with commas.
fn thousands(number: f64) -> String {
    let digits = format!("{number:.0}");
    let groups: Vec<&str> = digits
        .as_bytes()
        .rchunks(3)
        .rev()
        .map(|group| std::str::from_utf8(group).unwrap_or("?"))
        .collect();
    groups.join(",")
}
