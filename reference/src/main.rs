//! The commands of the reference.

use std::env;
use std::fs::File;
use std::io::{self, BufWriter, Read, Write};
use std::path::Path;
use std::process::ExitCode;

use reference::cases::{cases, Tally};
use reference::file::{COORDINATED, FLOW_BASED};
use reference::{batch, compare, generate, hourbook};

const USAGE: &str = "\
reference judge < FILE
reference make SEED [--method 1|2]
reference count COUNT FIRST_SEED [--method 1|2]
reference compare PROGRAM COUNT FIRST_SEED [--method 1|2]
reference batch COUNT FIRST_SEED FILES_OUT RESULTS_OUT [--method 1|2]";

const USAGE_STATUS: u8 = 2;

fn main() -> ExitCode {
    let arguments: Vec<String> = env::args().skip(1).collect();
    let words: Vec<&str> = arguments.iter().map(String::as_str).collect();
    let (words, method) = match words.as_slice() {
        [words @ .., "--method", "1"] => (words, Some(FLOW_BASED)),
        [words @ .., "--method", "2"] => (words, Some(COORDINATED)),
        words => (words, None),
    };
    match run(words, method) {
        Ok(Some(status)) => status,
        Ok(None) => {
            eprintln!("{USAGE}");
            ExitCode::from(USAGE_STATUS)
        }
        Err(error) => {
            eprintln!("reference: {error}");
            ExitCode::FAILURE
        }
    }
}

/// The exit status, or none if the words are no command.
fn run(words: &[&str], method: Option<u8>) -> io::Result<Option<ExitCode>> {
    match *words {
        ["judge"] => judge()?,
        ["make", seed] => {
            let Ok(seed) = seed.parse() else { return Ok(None) };
            io::stdout().write_all(&generate::hour_file(seed, method))?;
        }
        ["count", count, first] => {
            let Some((count, first)) = numbers(count, first) else { return Ok(None) };
            let mut tally = Tally::default();
            cases(first, method).take(count).for_each(|case| tally.add(&case));
            println!("{tally}");
        }
        ["compare", program, count, first] => {
            let Some((count, first)) = numbers(count, first) else { return Ok(None) };
            let program = Path::new(program);
            let different =
                compare::compare(program, count, first, method, &mut io::stdout().lock())?;
            if different > 0 {
                return Ok(Some(ExitCode::FAILURE));
            }
        }
        ["batch", count, first, files, results] => {
            let Some((count, first)) = numbers(count, first) else { return Ok(None) };
            let mut files = BufWriter::new(File::create(files)?);
            let mut results = BufWriter::new(File::create(results)?);
            println!("{}", batch::write(count, first, method, &mut files, &mut results)?);
        }
        _ => return Ok(None),
    }
    Ok(Some(ExitCode::SUCCESS))
}

fn judge() -> io::Result<()> {
    let mut input = Vec::new();
    io::stdin().take(hourbook::MOST_BYTES as u64).read_to_end(&mut input)?;
    io::stdout().write_all(&hourbook::judge(&input))
}

fn numbers(count: &str, first_seed: &str) -> Option<(usize, u64)> {
    Some((count.parse().ok()?, first_seed.parse().ok()?))
}
