//! Batches: many hour files in one stream, and the expected results in another.

use std::io::{self, Write};

use crate::cases::{cases, Tally};

/// Writes a frame for each file, a length of four bytes with the highest first and then the bytes,
/// and the results with a blank line between them. Only bytes that are judged are written, so that
/// the result does not depend on how a reader treats longer frames.
pub fn write(
    count: usize,
    first_seed: u64,
    method: Option<u8>,
    input: &mut impl Write,
    expected: &mut impl Write,
) -> io::Result<Tally> {
    let mut tally = Tally::default();
    for (index, case) in cases(first_seed, method).take(count).enumerate() {
        if index > 0 {
            expected.write_all(b"\n")?;
        }
        expected.write_all(&case.expected())?;
        let length = case.judged().len() as u32;
        input.write_all(&length.to_be_bytes())?;
        input.write_all(case.judged())?;
        tally.add(&case);
    }
    input.flush()?;
    expected.flush()?;
    Ok(tally)
}
