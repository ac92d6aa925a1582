//! The program: from the bytes of one hour file to what is printed.

use crate::book::{Entry, RestingBook};
use crate::file::{self, HourFile};
use crate::refusal::Refusal;
use crate::region::Region;

/// Later bytes of the input are ignored.
pub const MOST_BYTES: usize = 65_536;

/// The entries and the work places of the largest hour: 128 owner rows, 64 lines.
const ENTRY_PLACES: usize = 128;
const WORK_PLACES: usize = 128;

/// The bytes that hourbook prints for this input.
pub fn judge(input: &[u8]) -> Vec<u8> {
    printed(&outcome(input))
}

pub fn printed(outcome: &Result<Vec<u8>, Refusal>) -> Vec<u8> {
    match outcome {
        Ok(statements) => statements.clone(),
        Err(refusal) => format!("{refusal}\n").into_bytes(),
    }
}

/// The statements of all owners, or the refusal.
pub fn outcome(input: &[u8]) -> Result<Vec<u8>, Refusal> {
    let hour_file = file::read(&input[..input.len().min(MOST_BYTES)])?;
    let region = region_of(&hour_file)?;
    let mut memory = [Entry::BLANK; ENTRY_PLACES];
    let book = settled_book(&hour_file, &region, &mut memory)?;
    statements(&hour_file, &book, &memory)
}

/// The region of the file's method under the file's losses.
pub fn region_of(hour_file: &HourFile) -> Result<Region, Refusal> {
    let region = Region::build(&hour_file.network, &hour_file.prices)?;
    Ok(region.under_losses(&hour_file.losses))
}

fn settled_book(
    hour_file: &HourFile,
    region: &Region,
    memory: &mut [Entry],
) -> Result<RestingBook, Refusal> {
    let mut work = [0; WORK_PLACES];
    let book =
        RestingBook::empty().open(hour_file.hour, memory).map_err(|refused| refused.refusal)?;
    let book = book
        .settle(region, &hour_file.ownership, &mut work, memory)
        .map_err(|refused| refused.refusal)?;
    book.post(memory).map_err(|refused| refused.refusal)
}

fn statements(
    hour_file: &HourFile,
    book: &RestingBook,
    memory: &[Entry],
) -> Result<Vec<u8>, Refusal> {
    // The longest statement of n entries has 34 × n + 25 bytes.
    let mut statement = [0; 34 * ENTRY_PLACES + 25];
    let mut printed = Vec::new();
    for owner in hour_file.ownership.owners() {
        let length = book.statement(owner.into(), memory, &mut statement)?;
        printed.extend_from_slice(&statement[..length]);
    }
    Ok(printed)
}
