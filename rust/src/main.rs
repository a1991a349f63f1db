//! The commands: `compare SEED COUNT`, `self SEED COUNT`, `case LETTER`, `stack BYTES`, `bench`,
//! `bench finding`, `bench drawing`; and for other programs `floor NAME PLAN STANDS`, which writes
//! a floor of the benchmark and the stands tried on it into two files, and
//! `inputs SEED COUNT FILE`, which writes generated inputs of the printing program into one.

use manopluea_compare::calls::Calls;
use manopluea_compare::paper::Paper;
use manopluea_compare::program::Program;
use manopluea_compare::proved::Proved;
use manopluea_compare::{bench, compare, examples, generate, stack};
use std::fs::{self, File};
use std::io::{self, BufWriter, Write};
use std::process::ExitCode;

const USAGE: &str =
    "usage: manopluea-compare compare SEED COUNT | self SEED COUNT | case a..l | stack BYTES | bench \
     [finding | drawing] | floor cathedral|corridor|largest|splitting PLAN STANDS | inputs SEED COUNT \
     FILE";

fn main() -> ExitCode {
    let arguments: Vec<String> = std::env::args().skip(1).collect();
    let words: Vec<&str> = arguments.iter().map(String::as_str).collect();
    let done = match words[..] {
        ["compare", seed, count] => run(seed, count, compare_with_proved),
        ["self", seed, count] => run(seed, count, compare_with_itself),
        ["case", letter] => show_example(letter),
        ["stack", bytes] => ask_on_stack(bytes),
        ["bench"] => bench_proved(bench::report),
        ["bench", "finding"] => bench_proved(bench::report_finding),
        ["bench", "drawing"] => bench_proved(bench::report_drawing),
        ["floor", name, plan, stands] => write_floor(name, plan, stands),
        ["inputs", seed, count, file] => {
            run(seed, count, |seed, count| write_inputs(seed, count, file))
        }
        _ => Err(USAGE.to_string()),
    };
    match done {
        Ok(()) => ExitCode::SUCCESS,
        Err(fault) => {
            eprintln!("{fault}");
            ExitCode::FAILURE
        }
    }
}

fn run(
    seed: &str,
    count: &str,
    compare: impl FnOnce(u64, u64) -> Result<(), String>,
) -> Result<(), String> {
    match (seed.parse(), count.parse()) {
        (Ok(_), Ok(0)) => Err("with no case there is nothing to compare".to_string()),
        (Ok(seed), Ok(count)) => compare(seed, count),
        _ => Err(USAGE.to_string()),
    }
}

/// Puts the paper program against the proved library and the printing program.
fn compare_with_proved(seed: u64, count: u64) -> Result<(), String> {
    let program = Program::find()?;
    let begin = std::time::Instant::now();
    let tally =
        compare::compare(&Paper, &Proved, seed, count).map_err(|fault| fault.to_string())?;
    print!("{tally}");
    let inputs = compare::compare_program(|input| program.print(input), seed, count)
        .map_err(|fault| fault.to_string())?;
    println!("printing program: {inputs} inputs");
    println!("{:.1} seconds", begin.elapsed().as_secs_f64());
    Ok(())
}

/// Times the proved library.
fn bench_proved(report: fn(&dyn Calls) -> String) -> Result<(), String> {
    print!("{}", report(&Proved));
    Ok(())
}

fn write_floor(name: &str, plan: &str, stands: &str) -> Result<(), String> {
    let (file, csv) = bench::files(name).ok_or(USAGE)?;
    fs::write(plan, file).map_err(|fault| not_written(plan, &fault))?;
    fs::write(stands, csv).map_err(|fault| not_written(stands, &fault))
}

fn write_inputs(seed: u64, count: u64, path: &str) -> Result<(), String> {
    let written = File::create(path).and_then(|file| {
        let mut file = BufWriter::new(file);
        generate::write_inputs(seed, count, &mut file)?;
        file.flush()
    });
    written.map_err(|fault| not_written(path, &fault))
}

fn not_written(path: &str, fault: &io::Error) -> String {
    format!("{path} is not written: {fault}")
}

/// Puts the paper program to itself: what this tests is the generator, and
/// the paper program against the demands.
fn compare_with_itself(seed: u64, count: u64) -> Result<(), String> {
    let tally = compare::compare(&Paper, &Paper, seed, count).map_err(|fault| fault.to_string())?;
    print!("{tally}");
    Ok(())
}

/// Puts every function of the proved library to the deepest floors and the fullest
/// plan, on a stack of so many bytes.
fn ask_on_stack(bytes: &str) -> Result<(), String> {
    stack::ask_every_function(bytes.parse().map_err(|_| USAGE)?)
}

fn show_example(letter: &str) -> Result<(), String> {
    let example = examples::all()
        .into_iter()
        .find(|example| letter == example.letter.to_string())
        .ok_or(USAGE)?;
    let found = example.ask(&Paper);
    println!("{letter}: {found:?}");
    if found != example.expected {
        return Err(format!("expected {:?}", example.expected));
    }
    Ok(())
}
