//! Damage to lawful files, one function for each refusal that a file can earn.
//!
//! A damage aims at its refusal and may miss: what a file earns is for the judge to say.

use super::lawful::place_for;
use super::random::Random;
use crate::file::{COORDINATED, FLOW_BASED};
use crate::record::{bytes_of, Kind, Record};

#[derive(Clone, Copy, Debug)]
pub enum Damage {
    Order,
    Counts,
    Ranges,
    Names,
    Legs,
    Keys,
    Balance,
}

pub const DAMAGES: [Damage; 7] = [
    Damage::Order,
    Damage::Counts,
    Damage::Ranges,
    Damage::Names,
    Damage::Legs,
    Damage::Keys,
    Damage::Balance,
];

impl Damage {
    pub fn apply(self, random: &mut Random, records: &mut Vec<Record>) {
        match self {
            Damage::Order => order(random, records),
            Damage::Counts => counts(random, records),
            Damage::Ranges => ranges(random, records),
            Damage::Names => names(random, records),
            Damage::Legs => legs(random, records),
            Damage::Keys => keys(random, records),
            Damage::Balance => balance(random, records),
        }
    }
}

/// Refusal 1: bytes that are no records. The records are those that the bytes were made of.
pub fn bytes(random: &mut Random, records: &[Record], bytes: &mut Vec<u8>) {
    if records.is_empty() {
        return bytes.push(unknown_kind(random));
    }
    let target = random.place(records.len());
    let start = bytes_of(&records[..target]).len();
    let length = records[target].kind().length();
    match random.below(6) {
        0 | 1 => bytes[start] = unknown_kind(random),
        2 => bytes.truncate(start + random.count(1, length.max(2) - 1)),
        3 => bytes.push(unknown_kind(random)),
        4 => bytes.insert(start + random.below(length), random.byte()),
        _ => {
            bytes.remove(start + random.below(length));
        }
    }
}

pub fn unknown_kind(random: &mut Random) -> u8 {
    let any = random.byte();
    let byte = random.pick(&[0x0A, 0x00, 0xFF, b'h', b'z', b'e', b'A', any]);
    match Kind::of_letter(byte) {
        Some(_) => b' ',
        None => byte,
    }
}

/// Bytes changed without aim.
pub fn noise(random: &mut Random, bytes: &mut [u8]) {
    for _ in 0..random.count(1, 4) {
        let place = random.place(bytes.len());
        bytes[place] = match random.below(3) {
            0 => random.byte(),
            1 => bytes[place] ^ (1 << random.below(8)),
            _ => bytes[place].wrapping_add(1),
        };
    }
}

/// Refusal 2.
fn order(random: &mut Random, records: &mut Vec<Record>) {
    let place = random.place(records.len());
    match random.below(10) {
        0 => records.truncate(place),
        1 => {
            records.remove(0);
        }
        2 => {
            records.pop();
        }
        3 => records.push(Record::End),
        4 => {
            let moved = records.remove(place);
            records.insert(random.below(records.len() + 1), moved);
        }
        5 => {
            let other = random.place(records.len());
            records.swap(place, other);
        }
        6 => records.insert(place, records[0]),
        7 => records.insert(place, Record::End),
        8 => records.extend_from_within(..),
        _ => records.push(records[place]),
    }
}

/// Refusal 3: one record too many or more, of one kind or several, or none where one is needed.
fn counts(random: &mut Random, records: &mut Vec<Record>) {
    let limited = [Kind::Zone, Kind::Border, Kind::Leg, Kind::OwnerRow];
    match random.below(10) {
        0 => records.retain(|record| record.kind() != Kind::Zone),
        1 => {
            records.retain(|record| record.kind() != Kind::Border);
            if let Some(Record::Header { method, .. }) = records.first_mut() {
                // An unknown method needs no border.
                *method = random.pick(&[*method, *method, 3]);
            }
        }
        2 => {
            let (missing, full) =
                random.pick(&[(Kind::Zone, Kind::Border), (Kind::Border, Kind::Leg)]);
            records.retain(|record| record.kind() != missing);
            overfill(random, records, full);
        }
        3 => {
            for kind in limited {
                if random.chance(50) {
                    overfill(random, records, kind);
                }
            }
        }
        choice => overfill(random, records, limited[choice % 4]),
    }
}

/// Copies and plain records of the kind, until there are more than its maximum.
fn overfill(random: &mut Random, records: &mut Vec<Record>, kind: Kind) {
    let most = kind.most().expect("only kinds with a maximum are overfilled");
    let present: Vec<Record> =
        records.iter().filter(|record| record.kind() == kind).copied().collect();
    let extra = random.pick(&[0, 1, 1, 1, 2, 30]);
    for _ in present.len()..most + extra {
        let copy = if present.is_empty() { plain(kind) } else { random.pick(&present) };
        records.insert(place_for(records, kind), copy);
    }
}

fn plain(kind: Kind) -> Record {
    match kind {
        Kind::Header => Record::Header { hour: 1, region: 1, method: COORDINATED },
        Kind::Zone => Record::Zone { price: 0, net_position: 0 },
        Kind::Border => Record::Border { near: 1, far: 2, capacity: 0 },
        Kind::Leg => Record::Leg { line: 1, contribution: 1 },
        Kind::Factor => Record::Factor { leg: 1, zone: 1, factor: 0 },
        Kind::Loss => Record::Loss { line: 1, loss: 0 },
        Kind::OwnerRow => Record::OwnerRow { leg: 1, owner: 1, key: 0 },
        Kind::End => Record::End,
    }
}

/// The place of some record of the kind, if the file has any.
fn place_of(random: &mut Random, records: &[Record], kind: Kind) -> Option<usize> {
    let places: Vec<usize> =
        (0..records.len()).filter(|place| records[*place].kind() == kind).collect();
    if places.is_empty() {
        None
    } else {
        Some(places[random.place(places.len())])
    }
}

/// Refusal 4, at one record or at two. A kind that the file does not have is added for it.
fn ranges(random: &mut Random, records: &mut Vec<Record>) {
    let kinds = [Kind::Header, Kind::Zone, Kind::Border, Kind::Factor, Kind::Loss, Kind::OwnerRow];
    for _ in 0..random.count(1, 2) {
        let kind = random.pick(&kinds);
        let place = place_of(random, records, kind).unwrap_or_else(|| {
            let end = place_for(records, kind);
            records.insert(end, plain(kind));
            end
        });
        out_of_range(random, &mut records[place]);
    }
}

fn out_of_range(random: &mut Random, record: &mut Record) {
    let sign = random.sign() as i32;
    match record {
        Record::Header { hour, region, method } => match random.below(3) {
            0 => *hour = 0,
            1 => *region = random.pick(&[0, 33, 33, 255]),
            _ => *method = random.pick(&[0, 3, 255]),
        },
        Record::Zone { price, .. } if random.chance(50) => {
            *price = random.pick(&[sign * 500_001, sign * 1_000_000, i32::MIN, i32::MAX]);
        }
        Record::Zone { net_position, .. } => {
            *net_position = random.pick(&[sign * 1_000_001, sign * 2_000_000, i32::MIN, i32::MAX]);
        }
        Record::Border { capacity, .. } => {
            *capacity = random.pick(&[sign * 200_001, sign * 300_000, sign, i32::MIN, i32::MAX]);
        }
        Record::Factor { factor, .. } => {
            *factor = random.pick(&[sign as i16 * 10_001, i16::MIN, i16::MAX]);
        }
        Record::Loss { loss, .. } => *loss = random.pick(&[1_001, 1_001, 2_000, u16::MAX]),
        Record::OwnerRow { owner, .. } if random.chance(50) => {
            *owner = random.pick(&[0, 65, 65, 255]);
        }
        Record::OwnerRow { key, .. } => *key = random.pick(&[10_001, 20_000, u16::MAX]),
        Record::Leg { .. } | Record::End => {}
    }
}

/// How many zones, borders, lines and legs a file has.
struct Counts {
    zones: u8,
    borders: u8,
    lines: u8,
    legs: u8,
}

impl Counts {
    fn of(records: &[Record]) -> Counts {
        let count =
            |kind| records.iter().filter(|record| record.kind() == kind).count().min(200) as u8;
        let (zones, borders) = (count(Kind::Zone), count(Kind::Border));
        let external = if is_flow_based(records) { zones } else { 0 };
        Counts { zones, borders, lines: borders.saturating_add(external), legs: count(Kind::Leg) }
    }
}

fn is_flow_based(records: &[Record]) -> bool {
    matches!(records.first(), Some(Record::Header { method: FLOW_BASED, .. }))
}

/// Refusal 5, at one record or at two.
fn names(random: &mut Random, records: &mut Vec<Record>) {
    let wanted = random.count(1, 2);
    for _ in 0..wanted {
        let counts = Counts::of(records);
        match random.below(8) {
            0 => misplaced_factor(random, records, &counts),
            1 => repeat(random, records, Kind::Factor),
            2 => repeat(random, records, Kind::Loss),
            _ => wrong_name(random, records, &counts),
        }
    }
}

fn wrong_name(random: &mut Random, records: &mut [Record], counts: &Counts) {
    let kinds = [Kind::Border, Kind::Leg, Kind::Factor, Kind::Loss, Kind::OwnerRow];
    let kind = random.pick(&kinds);
    let Some(place) = place_of(random, records, kind).or(place_of(random, records, Kind::Leg))
    else {
        return;
    };
    match &mut records[place] {
        Record::Border { near, far, .. } => match random.below(3) {
            0 => *near = unknown_number(random, counts.zones),
            1 => *far = unknown_number(random, counts.zones),
            _ => *far = *near,
        },
        Record::Leg { line, .. } | Record::Loss { line, .. } => {
            *line = unknown_number(random, counts.lines);
        }
        Record::Factor { zone, .. } if random.chance(50) => {
            *zone = unknown_number(random, counts.zones);
        }
        Record::Factor { leg, .. } | Record::OwnerRow { leg, .. } => {
            *leg = unknown_number(random, counts.legs);
        }
        Record::Header { .. } | Record::Zone { .. } | Record::End => {}
    }
}

fn unknown_number(random: &mut Random, most: u8) -> u8 {
    random.pick(&[0, most.saturating_add(1), most.saturating_add(1), 255])
}

/// A factor in the coordinated method, or for a leg of an external line.
fn misplaced_factor(random: &mut Random, records: &mut Vec<Record>, counts: &Counts) {
    let legs = records.iter().filter_map(|record| match record {
        Record::Leg { line, .. } => Some(*line),
        _ => None,
    });
    let wrong: Vec<u8> = (1..)
        .zip(legs)
        .filter(|(_, line)| !is_flow_based(records) || *line > counts.borders)
        .map(|(leg, _)| leg)
        .collect();
    if let Some(last) = wrong.len().checked_sub(1) {
        let leg = wrong[random.place(last + 1)];
        let zone = random.count(1, usize::from(counts.zones.max(1))) as u8;
        let end = place_for(records, Kind::Factor);
        records.insert(end, Record::Factor { leg, zone, factor: random.pick(&[0, 1, 10_000]) });
    }
}

/// A second record for the same thing, with the same value or another.
fn repeat(random: &mut Random, records: &mut Vec<Record>, kind: Kind) {
    let first = match place_of(random, records, kind) {
        Some(place) => records[place],
        None => {
            let only = plain(kind);
            records.insert(place_for(records, kind), only);
            only
        }
    };
    let value = random.below(1_000);
    let second = match first {
        Record::Factor { leg, zone, factor } => {
            Record::Factor { leg, zone, factor: random.pick(&[factor, value as i16]) }
        }
        Record::Loss { line, loss } => {
            Record::Loss { line, loss: random.pick(&[loss, value as u16]) }
        }
        other => other,
    };
    records.insert(place_for(records, kind), second);
}

/// Refusal 6: a line whose legs count for nothing or belong to another line.
fn legs(random: &mut Random, records: &mut [Record]) {
    let lines = Counts::of(records).lines;
    if lines == 0 {
        return;
    }
    let target = random.place(lines.into()) as u8 + 1;
    let other = random.count(1, lines.into()) as u8;
    let moved = other != target && random.chance(50);
    for record in records {
        if let Record::Leg { line, contribution } = record {
            if *line == target && moved {
                *line = other;
            } else if *line == target {
                *contribution = 0;
            }
        }
    }
}

/// Refusal 7.
fn keys(random: &mut Random, records: &mut Vec<Record>) {
    let legs = Counts::of(records).legs;
    if legs == 0 {
        return;
    }
    let target = random.place(legs.into()) as u8 + 1;
    match random.below(6) {
        0 => records.retain(|record| !is_row_of(record, target)),
        1 => wrapping_keys(random, records, target),
        2 => {
            let key = random.pick(&[1, 10_000]);
            let end = place_for(records, Kind::OwnerRow);
            records.insert(end, Record::OwnerRow { leg: target, owner: 64, key });
        }
        3 => {
            let other = random.count(1, legs.into()) as u8;
            if let Some(Record::OwnerRow { leg, .. }) = row_of(records, target) {
                *leg = other;
            }
        }
        _ => {
            let less = random.chance(50);
            if let Some(Record::OwnerRow { key, .. }) = row_of(records, target) {
                *key = if less && *key > 0 { *key - 1 } else { key.saturating_add(1) };
            }
        }
    }
}

fn is_row_of(record: &Record, target: u8) -> bool {
    matches!(record, Record::OwnerRow { leg, .. } if *leg == target)
}

fn row_of(records: &mut [Record], target: u8) -> Option<&mut Record> {
    records.iter_mut().find(|record| is_row_of(record, target))
}

/// Keys that add to 75,536, which is 10,000 for those who count in 16 bits.
fn wrapping_keys(random: &mut Random, records: &mut Vec<Record>, target: u8) {
    records.retain(|record| !is_row_of(record, target));
    let mut keys = [10_000, 10_000, 10_000, 10_000, 10_000, 10_000, 10_000, 5_536];
    random.shuffle(&mut keys);
    for key in keys {
        let owner = random.count(1, 64) as u8;
        let end = place_for(records, Kind::OwnerRow);
        records.insert(end, Record::OwnerRow { leg: target, owner, key });
    }
}

/// Refusal 8: positions that do not add to 0, or that the capacities do not bear out.
fn balance(random: &mut Random, records: &mut [Record]) {
    let step = random.pick(&[1, 2, 100]) * random.sign() as i32;
    match random.below(6) {
        0 | 1 => change_position(random, records, step),
        2 | 3 => {
            change_position(random, records, step);
            change_position(random, records, -step);
        }
        4 => {
            let place = place_of(random, records, Kind::Border);
            if let Some(Record::Border { capacity, .. }) = place.map(|place| &mut records[place]) {
                *capacity = capacity.saturating_add(step);
            }
        }
        _ => {
            for record in records {
                if let Record::Zone { net_position, .. } = record {
                    *net_position = net_position.saturating_neg();
                }
            }
        }
    }
}

fn change_position(random: &mut Random, records: &mut [Record], step: i32) {
    let place = place_of(random, records, Kind::Zone);
    if let Some(Record::Zone { net_position, .. }) = place.map(|place| &mut records[place]) {
        *net_position = net_position.saturating_add(step);
    }
}
