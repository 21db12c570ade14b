//! Compares the linked library with the model, byte for byte, on inputs made
//! from seeds.
//!
//! `differential [--seconds N] [--seed N] [--cases N]`
//!
//! Cases are run from the seed (1) upward until the seconds are over, 40 or
//! what the environment variable ENDRUSP_SECONDS says, or until so many cases
//! are run. Without `--cases` at least the first 180 are run, so that all there
//! is to meet is met. Exit status: 0 all the same, 1 a difference, 2 something
//! was not met or an argument is wrong.
//!
//! No answer holds a caller: a wrong refusal 16 shows here, a caller that is
//! lost or changed does not.

use endrusp::generate::{self, Case, Coverage, EVENTS, POSSIBLE};
use endrusp::{model, shrink};
use std::env;
use std::process::ExitCode;
use std::time::{Duration, Instant};

/// As many cases as surely meet all there is to meet.
const FEWEST_CASES: u64 = 180;

/// How many lines of a difference are shown: so many from its beginning and so
/// many up to the first line that differs.
const ROWS: usize = 40;

/// The longest time that is spent on making a difference smaller.
const SHRINKING: Duration = Duration::from_secs(30);

struct Options {
    budget: Duration,
    first_seed: u64,
    cases: Option<u64>,
}

fn main() -> ExitCode {
    let options = match options() {
        Ok(options) => options,
        Err(message) => {
            eprintln!("{message}");
            eprintln!("differential [--seconds N] [--seed N] [--cases N]");
            return ExitCode::from(2);
        }
    };
    let begun = Instant::now();
    let mut coverage = Coverage::default();
    let mut seed = options.first_seed;
    let (mut cases, mut bytes, mut lines) = (0, 0, 0);
    println!("first seed {seed}, {} s", options.budget.as_secs());
    loop {
        let over = match options.cases {
            Some(wanted) => cases == wanted,
            None => cases >= FEWEST_CASES && begun.elapsed() >= options.budget,
        };
        if over {
            break;
        }
        let case = generate::case(seed);
        let answers = model::run_text(&case.text);
        if endrusp::run(&case.text) != answers {
            show_difference(&case);
            return ExitCode::from(1);
        }
        cases += 1;
        bytes += case.text.len();
        lines += answers.len() / 11;
        coverage.add(&case.coverage);
        seed = seed.wrapping_add(1);
    }
    let last = seed.wrapping_sub(1);
    println!(
        "seeds {} to {last}: {cases} inputs, {lines} lines, {bytes} bytes, no difference, {:.1} s",
        options.first_seed,
        begun.elapsed().as_secs_f64()
    );
    show_coverage(&coverage);
    let gaps = coverage.gaps();
    for gap in &gaps {
        println!("GAP: {gap}");
    }
    // A few cases that were asked for need not meet everything.
    if gaps.is_empty() || options.cases.is_some() { ExitCode::SUCCESS } else { ExitCode::from(2) }
}

fn options() -> Result<Options, String> {
    let number = |name: &str, text: Option<String>| {
        let text = text.ok_or(format!("{name} needs a number"))?;
        text.parse::<u64>().map_err(|_| format!("{name}: {text} is not a number"))
    };
    let mut seconds = match env::var("ENDRUSP_SECONDS") {
        Ok(text) => number("ENDRUSP_SECONDS", Some(text))?,
        Err(_) => 40,
    };
    let mut first_seed = 1;
    let mut cases = None;
    let mut words = env::args().skip(1);
    while let Some(word) = words.next() {
        match word.as_str() {
            "--seconds" => seconds = number(&word, words.next())?,
            "--seed" => first_seed = number(&word, words.next())?,
            "--cases" => cases = Some(number(&word, words.next())?),
            _ => return Err(format!("{word} is not an option")),
        }
    }
    Ok(Options { budget: Duration::from_secs(seconds), first_seed, cases })
}

// ---------------------------------------------------------------- a difference

/// Shows a case that differs, made as small as it gets.
fn show_difference(case: &Case) {
    println!("DIFFERENCE: seed {}, scenario {}", case.seed, case.scenario);
    println!("again: differential --seed {} --cases 1", case.seed);
    let differs = |text: &[u8]| endrusp::run(text) != model::run_text(text);
    let smallest = shrink::shrink(&case.text, SHRINKING, differs);
    let library = endrusp::run(&smallest);
    let model = model::run_text(&smallest);
    println!("of {} bytes these {} still differ:", case.text.len(), smallest.len());
    println!();
    println!("frame             library     model");
    let mut frames = lines(&smallest);
    let (mut left, mut right) = (lines(&library), lines(&model));
    let mut rows = Vec::new();
    loop {
        let row = (frames.next(), left.next(), right.next());
        if row == (None, None, None) {
            break;
        }
        rows.push(row);
    }
    let first = rows.iter().position(|(_, left, right)| left != right).unwrap_or(0);
    for (number, (frame, left, right)) in rows.iter().enumerate() {
        if number == ROWS && first > 2 * ROWS {
            println!("({} lines with the same answers)", first - 2 * ROWS);
        }
        let begins = number < ROWS;
        let is_near = number + ROWS >= first && number <= first + ROWS / 4;
        if begins || is_near {
            show_row(frame.unwrap_or(b""), *left, *right);
        }
    }
    if library.len() != model.len() {
        println!("the library wrote {} bytes, the model {}", library.len(), model.len());
    }
}

fn show_row(frame: &[u8], left: Option<&[u8]>, right: Option<&[u8]>) {
    let call = match model::decode(frame) {
        Some(call) => call.to_string(),
        None => "not a frame".to_string(),
    };
    let mark = if left == right { " " } else { "*" };
    println!("{:16}  {:10}  {:10} {mark} {call}", shown(frame), text(left), text(right));
}

/// The lines of a text, without their newlines.
fn lines(text: &[u8]) -> impl Iterator<Item = &[u8]> + Clone {
    let lines = text.split_inclusive(|byte| *byte == b'\n');
    lines.map(|line| line.strip_suffix(b"\n").unwrap_or(line))
}

fn text(answer: Option<&[u8]>) -> String {
    answer.map_or_else(|| "(none)".to_string(), shown)
}

fn shown(line: &[u8]) -> String {
    line.escape_ascii().to_string()
}

// -------------------------------------------------------------------- coverage

fn show_coverage(coverage: &Coverage) {
    println!();
    println!("| call | answers: code and how often |");
    println!("|---|---|");
    for (call, codes) in POSSIBLE {
        let counts: Vec<String> = codes
            .iter()
            .map(|code| format!("{code:02x}: {}", coverage.count(call, *code)))
            .collect();
        println!("| {call} | {} |", counts.join(", "));
    }
    println!("| input too long | ffffffffff: {} |", coverage.too_long);
    println!();
    println!("Refusal 02, a state that is not sound, cannot be reached from a start.");
    println!();
    println!("| branch of a rule | how often |");
    println!("|---|---|");
    for event in EVENTS {
        println!("| {event} | {} |", coverage.events.get(event).copied().unwrap_or(0));
    }
}
