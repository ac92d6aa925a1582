//! Inputs around and past the 65,536 bytes that are judged.

use super::damage::unknown_kind;
use super::lawful::{self, place_for};
use super::random::Random;
use super::scene::Theme;
use super::Size;
use crate::file::FLOW_BASED;
use crate::hourbook::MOST_BYTES;
use crate::record::{bytes_of, Kind, Record};

pub fn input(random: &mut Random, method: u8) -> Vec<u8> {
    let near_the_end = random.pick(&[-1, 0, 0, 1, 2, 3, 5, 400]);
    let length = (MOST_BYTES as i64 + near_the_end) as usize;
    match random.below(4) {
        0 => ends_only(random, length),
        1 => followed_by_junk(random, method, length),
        2 => too_many_records(random, method, length),
        _ => long_tables(random, length),
    }
}

/// Nothing but E, and perhaps one unknown kind near the last byte that is judged.
fn ends_only(random: &mut Random, length: usize) -> Vec<u8> {
    let mut bytes = vec![Kind::End.letter(); length];
    if random.chance(70) {
        let place = length - 1 - random.below(3);
        bytes[place] = unknown_kind(random);
    }
    bytes
}

/// A lawful file, records E up to the length, and at the end perhaps an unknown kind.
fn followed_by_junk(random: &mut Random, method: u8, length: usize) -> Vec<u8> {
    let mut bytes = bytes_of(&lawful::records(random, method, Theme::Ordinary, Size::Small));
    bytes.resize(length, Kind::End.letter());
    if random.chance(70) {
        bytes[length - 1] = unknown_kind(random);
    }
    bytes
}

/// Thousands of records of a kind that has a maximum; the last one may be cut.
fn too_many_records(random: &mut Random, method: u8, length: usize) -> Vec<u8> {
    let mut records = lawful::records(random, method, Theme::Ordinary, Size::Small);
    let mut repeated = records[random.count(1, records.len() - 2)];
    if repeated.kind().most().is_none() {
        repeated = records[1];
    }
    let end = place_for(&records, repeated.kind());
    let missing = length - bytes_of(&records).len();
    let copies = missing / repeated.kind().length();
    records.splice(end..end, std::iter::repeat_n(repeated, copies));
    let mut bytes = bytes_of(&records);
    bytes.resize(length, Kind::End.letter());
    bytes
}

/// A flow-based file whose factors and losses fill the length exactly. It is in order, so that only
/// a far range, a repeated record, or what the cut leaves away can be at fault.
fn long_tables(random: &mut Random, length: usize) -> Vec<u8> {
    let mut records = lawful::records(random, FLOW_BASED, Theme::Ordinary, Size::Small);
    let missing = length - bytes_of(&records).len();
    // Factors have 5 bytes and losses 4, and 4 × 4 is 1 more than a multiple of 5.
    let losses = 4 * missing % 5;
    let factors = (missing - 4 * losses) / 5;
    let last_factor = if random.chance(50) { 10_001 } else { 10_000 };
    let loss = if random.chance(30) { 1_001 } else { 0 };

    let end = place_for(&records, Kind::Loss);
    records.splice(end..end, std::iter::repeat_n(Record::Loss { line: 1, loss }, losses));
    let end = place_for(&records, Kind::Factor);
    let factor = |number: usize| Record::Factor {
        leg: 1,
        zone: 1,
        factor: if number == factors { last_factor } else { 1 },
    };
    records.splice(end..end, (1..=factors).map(factor));
    let bytes = bytes_of(&records);
    assert_eq!(bytes.len(), length);
    bytes
}
