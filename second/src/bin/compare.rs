//! Plays the examples and many made files through the second program and, if
//! one is named, through another program that prints the same lines.

#[path = "../compare/answer.rs"]
mod answer;
#[path = "../compare/damage.rs"]
mod damage;
#[path = "../compare/dice.rs"]
mod dice;
#[path = "../compare/draft.rs"]
mod draft;
#[path = "../compare/examples.rs"]
mod examples;
#[path = "../compare/programs.rs"]
mod programs;
#[path = "../compare/whole.rs"]
mod whole;

use answer::Answer;
use dice::Dice;
use draft::Draft;
use examples::Example;
use programs::{first_difference, keep, shown, Output, Program, Scratch};
use std::path::Path;
use std::process::ExitCode;
use std::time::{Duration, Instant};

const USAGE: &str = "usage: compare [--seed N] [--files M] [--bench PATH]";

struct Options {
    seed: u64,
    files: u64,
    second: Program,
    bench: Option<Program>,
    examples: String,
}

fn options() -> Result<Options, String> {
    let (mut seed, mut files) = (1, 2000);
    let (mut second, mut bench, mut examples) = (None, None, None);
    let mut arguments = std::env::args().skip(1);
    while let Some(name) = arguments.next() {
        let value = arguments.next().ok_or(USAGE)?;
        let number = || value.parse::<u64>().map_err(|_| format!("{name} needs a number"));
        match name.as_str() {
            "--seed" => seed = number()?,
            "--files" => files = number()?,
            "--second" => second = Some(Program::new("second", &value)?),
            "--bench" => bench = Some(Program::new("bench", &value)?),
            "--examples" => examples = Some(value),
            _ => return Err(USAGE.to_string()),
        }
    }
    let second = second.ok_or("the wrapper names the second program with --second")?;
    let examples = examples.ok_or("the wrapper names the examples with --examples")?;
    Ok(Options { seed, files, second, bench, examples })
}

/// The text that is printed when a program's output is not as it should be.
fn difference(title: &str, file: &[u8], saved: &str, outputs: [(&str, &[u8]); 2]) -> String {
    let [(one, one_bytes), (other, other_bytes)] = outputs;
    format!(
        "DIFFERENCE: {title}\n\
         --- the file ({} bytes, saved as {saved})\n{}\n\
         --- {one}\n{}\n\
         --- {other}\n{}\n\
         --- the outputs part at byte {}\n",
        file.len(),
        shown(file),
        shown(one_bytes),
        shown(other_bytes),
        first_difference(one_bytes, other_bytes),
    )
}

/// Plays one example through one program.
fn play_example(program: &Program, example: &Example, scratch: &Scratch) -> Result<(), String> {
    scratch.put(&example.file)?;
    let output = program.run(&scratch.file)?;
    if output.bytes == example.output && output.status.is_some() {
        return Ok(());
    }
    let title = format!("example {}, {} program", example.name, program.name);
    let saved = keep(&example.file, &format!("compare-{}.txt", example.name));
    let outputs = [("expected", &example.output[..]), (program.name, &output.bytes[..])];
    Err(difference(&title, &example.file, &saved, outputs))
}

fn play_examples(options: &Options, scratch: &Scratch) -> Result<(), String> {
    let kept = examples::kept(Path::new(&options.examples))?;
    let made = examples::made();
    for program in std::iter::once(&options.second).chain(&options.bench) {
        for example in kept.iter().chain(&made) {
            play_example(program, example, scratch)?;
        }
        eprintln!(
            "compare: the {} program gives the {} kept and {} made examples",
            program.name,
            kept.len(),
            made.len()
        );
    }
    Ok(())
}

/// Sets the budget at what the run needs, one below or one above. The need is
/// what the second program counts with the largest budget.
fn set_budget(
    options: &Options,
    number: u64,
    draft: &mut Draft,
    scratch: &Scratch,
) -> Result<(), String> {
    draft.budget = 16384;
    scratch.put(&draft.bytes())?;
    let output = options.second.run(&scratch.file)?;
    if let Ok(Answer::Run(run)) = answer::parse(&output.bytes) {
        let offset = (number / 10 % 3) as usize;
        draft.budget = (run.remote + offset).saturating_sub(1).min(16384);
    }
    Ok(())
}

/// The file of this number: whole when the number is odd, damaged when even.
/// Every tenth one is whole with its budget set next to the need.
fn make_file(
    options: &Options,
    number: u64,
    scratch: &Scratch,
) -> Result<(Vec<u8>, Option<Draft>), String> {
    let mut dice = Dice::new(options.seed, number);
    if number.is_multiple_of(2) {
        return Ok((damage::any(&mut dice), None));
    }
    let mut draft = whole::any(&mut dice);
    if number % 10 == 5 {
        set_budget(options, number, &mut draft, scratch)?;
    }
    Ok((draft.bytes(), Some(draft)))
}

/// Checks the second program's answer to a made file by itself; gives the
/// number of refusal, 0 for an accepted file.
fn check_answer(output: &Output, file: &[u8], draft: Option<&Draft>) -> Result<usize, String> {
    if output.status != Some(0) {
        return Err("the exit status is not 0".to_string());
    }
    let answer = answer::parse(&output.bytes)?;
    answer.check(file.len(), draft)?;
    Ok(match answer {
        Answer::Run(_) => 0,
        Answer::Refused { number, .. } => number,
    })
}

/// Plays one made file; gives the number of refusal, 0 for an accepted file.
fn play_file(options: &Options, number: u64, scratch: &Scratch) -> Result<usize, String> {
    let (file, draft) = make_file(options, number, scratch)?;
    scratch.put(&file)?;
    let title = format!("seed {}, file {number}", options.seed);
    let saved = || keep(&file, &format!("compare-seed-{}-file-{number}.txt", options.seed));
    let repeat = format!("--- to repeat: --seed {} --files {number}\n", options.seed);
    let output = options.second.run(&scratch.file)?;
    if let Some(bench) = &options.bench {
        let other = bench.run(&scratch.file)?;
        if other.bytes != output.bytes || other.status.is_none() {
            let outputs =
                [(options.second.name, &output.bytes[..]), (bench.name, &other.bytes[..])];
            return Err(difference(&title, &file, &saved(), outputs) + &repeat);
        }
    }
    check_answer(&output, &file, draft.as_ref()).map_err(|fault| {
        format!(
            "FAULT: {title}: {fault}\n--- the file, saved as {}\n{}\n--- the output\n{}\n{repeat}",
            saved(),
            shown(&file),
            shown(&output.bytes)
        )
    })
}

/// Plays all made files; gives how many were accepted and how many refused
/// with each number.
fn play_files(options: &Options, scratch: &Scratch) -> Result<[u64; 6], String> {
    let mut counts = [0; 6];
    let mut told = Instant::now();
    for number in 1..=options.files {
        counts[play_file(options, number, scratch)?] += 1;
        if told.elapsed() >= Duration::from_secs(2) {
            eprintln!("compare: {number} of {} files", options.files);
            told = Instant::now();
        }
    }
    Ok(counts)
}

/// Gives the summary line, or the report of the first difference.
fn compare(options: &Options) -> Result<String, String> {
    let scratch = Scratch::new()?;
    play_examples(options, &scratch)?;
    let [accepted, one, two, three, four, five] = play_files(options, &scratch)?;
    let refused = one + two + three + four + five;
    let end = if options.bench.is_some() { "both programs alike" } else { "second program alone" };
    Ok(format!(
        "compare: seed {}, {} files, {accepted} accepted, {refused} refused \
         (1: {one}, 2: {two}, 3: {three}, 4: {four}, 5: {five}), {end}",
        options.seed, options.files
    ))
}

fn main() -> ExitCode {
    let options = match options() {
        Ok(options) => options,
        Err(fault) => {
            eprintln!("compare: {fault}");
            return ExitCode::from(2);
        }
    };
    let (text, code) = match compare(&options) {
        Ok(summary) => (summary, ExitCode::SUCCESS),
        Err(report) => (report, ExitCode::FAILURE),
    };
    println!("{text}");
    code
}
