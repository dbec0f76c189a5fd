//! second check COUNT SEED
//!     runs COUNT samples and pairs through all checks of this program;
//! second compare step|reduce|popov|determinant COUNT SEED
//!     compares with the proved program (feature `proved`);
//! second print
//!     is the printer: it answers the text at its standard input;
//! second fuzz PRINTER COUNT SEED
//!     compares with the program PRINTER on COUNT texts.
//! But for `print`, the last line says how many passed and how many failed, and
//! standard error tells how far a long run has come.

use second::progress::Progress;
use second::refuse::Service;
use second::{check, fuzz, printer, refuse, sample};
use std::io::{self, Read, Write};
use std::process::ExitCode;

const USAGE: &str = "\
use: second check COUNT SEED
     second compare step|reduce|popov|determinant COUNT SEED
     second print
     second fuzz PRINTER COUNT SEED";

fn main() -> ExitCode {
    let arguments: Vec<String> = std::env::args().skip(1).collect();
    let arguments: Vec<&str> = arguments.iter().map(String::as_str).collect();
    let result = match arguments[..] {
        ["check", count, seed] => numbers(count, seed).map(check_all).map(counted),
        ["compare", what, count, seed] => service(what)
            .and_then(|service| compare(service, numbers(count, seed)?))
            .map(counted),
        ["print"] => print().map_err(|error| error.to_string()),
        ["fuzz", printer, count, seed] => numbers(count, seed)
            .and_then(|numbers| compare_printers(printer, numbers))
            .map(counted),
        _ => Err(USAGE.to_string()),
    };
    result.unwrap_or_else(|message| {
        eprintln!("{message}");
        ExitCode::from(2)
    })
}

/// Prints the last line.
fn counted((passed, failed): (u64, u64)) -> ExitCode {
    println!("{passed} passed, {failed} failed");
    match failed {
        0 => ExitCode::SUCCESS,
        _ => ExitCode::FAILURE,
    }
}

fn service(name: &str) -> Result<Service, String> {
    let found = refuse::SERVICES.into_iter().find(|s| s.name() == name);
    found.ok_or(USAGE.to_string())
}

/// Count and seed.
fn numbers(count: &str, seed: &str) -> Result<(u64, u64), String> {
    match (count.parse(), seed.parse()) {
        (Ok(count), Ok(seed)) => Ok((count, seed)),
        _ => Err(USAGE.to_string()),
    }
}

fn print() -> io::Result<ExitCode> {
    let mut text = Vec::new();
    io::stdin().read_to_end(&mut text)?;
    io::stdout().write_all(printer::answer(&text).as_bytes())?;
    Ok(ExitCode::SUCCESS)
}

fn compare_printers(printer: &str, (count, seed): (u64, u64)) -> Result<(u64, u64), String> {
    let tally = fuzz::compare(printer, count, seed)
        .map_err(|error| format!("{printer} can't be run: {error}"))?;
    println!("texts by refusal number, from 0: {:?}", tally.numbers);
    Ok((tally.passed, tally.failed))
}

#[cfg(feature = "proved")]
fn compare(service: Service, (count, seed): (u64, u64)) -> Result<(u64, u64), String> {
    let tally = second::proved::compare(service, count, seed);
    println!(
        "{}: {} samples, {} of them square, {} calls with bad input or next to it",
        service.name(),
        tally.samples,
        tally.square,
        tally.refusals
    );
    Ok((tally.passed, tally.failed))
}

#[cfg(not(feature = "proved"))]
fn compare(_: Service, _: (u64, u64)) -> Result<(u64, u64), String> {
    Err("built without the proved program: build with --features proved".to_string())
}

/// The refusal inputs of all services, then the samples, each with every check
/// and each followed by a pair.
fn check_all((count, seed): (u64, u64)) -> (u64, u64) {
    let mut passed = 0;
    let mut failed = 0;
    let mut add = |label: String, faults: check::Faults| {
        if faults.is_empty() {
            passed += 1;
        } else {
            failed += 1;
            println!("{label}: {}", faults.join("; "));
        }
    };
    for service in refuse::SERVICES {
        let inputs = sample::refusal_inputs(service, seed);
        for (number, input) in inputs.iter().enumerate() {
            let answer = refuse::refusal(&input.call);
            let faults = if answer == input.answer {
                Vec::new()
            } else {
                vec![format!("{answer:?}, wanted {:?}", input.answer)]
            };
            let label = &input.label;
            add(
                format!("refusal input {number}, {service:?}, {label}"),
                faults,
            );
        }
    }
    let progress = Progress::new("check", count);
    for number in 0..count {
        let sample = sample::sample(seed, number);
        let label = format!("sample {number} of seed {seed}, {:?}", sample.kind);
        add(label, check::check_sample(&sample));
        let pair = sample::pair(seed, number);
        add(
            format!("pair {number} of seed {seed}"),
            check::check_pair(&pair),
        );
        progress.step();
    }
    (passed, failed)
}
