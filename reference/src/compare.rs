//! Feeding files to another program and comparing what it prints, byte for byte.

use std::io::{self, Write};
use std::path::Path;
use std::process::{Command, Output, Stdio};
use std::thread;

use crate::cases::{cases, Case, Tally};

/// More differences than these are counted but not shown.
const MOST_SHOWN: usize = 5;

/// Compares `count` files; the answer is the number of different results.
pub fn compare(
    program: &Path,
    count: usize,
    first_seed: u64,
    method: Option<u8>,
    report: &mut impl Write,
) -> io::Result<usize> {
    let mut tally = Tally::default();
    let mut different = 0;
    for case in cases(first_seed, method).take(count) {
        let got = run(program, &case.file)?;
        if !is_as_expected(&case, &got) {
            different += 1;
            if different <= MOST_SHOWN {
                show(&case, &got, report)?;
            }
        }
        tally.add(&case);
    }
    writeln!(report, "{tally}")?;
    writeln!(report, "{count} compared, {different} different")?;
    Ok(different)
}

fn run(program: &Path, input: &[u8]) -> io::Result<Output> {
    let mut child = Command::new(program)
        .stdin(Stdio::piped())
        .stdout(Stdio::piped())
        .stderr(Stdio::piped())
        .spawn()?;
    let mut stdin = child.stdin.take().expect("standard input is piped");
    thread::scope(|scope| {
        // The program may stop reading early, which breaks the pipe: that is allowed.
        scope.spawn(move || stdin.write_all(input).is_ok());
        child.wait_with_output()
    })
}

fn is_as_expected(case: &Case, got: &Output) -> bool {
    got.status.code() == Some(0) && got.stderr.is_empty() && got.stdout == case.expected()
}

fn show(case: &Case, got: &Output, report: &mut impl Write) -> io::Result<()> {
    writeln!(report, "seed {}, {} bytes", case.seed, case.file.len())?;
    writeln!(report, "{}", hex(&case.file))?;
    writeln!(report, "expected\n{}", text(&case.expected()))?;
    writeln!(report, "got, with {}\n{}", got.status, text(&got.stdout))?;
    if !got.stderr.is_empty() {
        writeln!(report, "on standard error\n{}", text(&got.stderr))?;
    }
    Ok(())
}

fn hex(bytes: &[u8]) -> String {
    bytes.iter().map(|byte| format!("{byte:02X}")).collect()
}

/// Line ends stay as they are, all other unusual bytes are shown by their escapes.
fn text(bytes: &[u8]) -> String {
    bytes.escape_ascii().to_string().replace("\\n", "\n")
}
