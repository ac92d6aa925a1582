//! Reading an hour file: rules 1 to 7, each over the whole input before the next, then the tables.

use std::collections::{BTreeSet, HashMap, HashSet};
use std::ops::RangeInclusive;

use crate::record::{Kind, Record, KINDS};
use crate::refusal::Refusal;
use crate::units::*;

pub const FLOW_BASED: u8 = 1;
pub const COORDINATED: u8 = 2;

#[derive(Clone, Copy, Debug, PartialEq, Eq)]
pub enum Method {
    FlowBased,
    Coordinated,
}

/// The five parts that a lawful file gives.
#[derive(Clone, Debug)]
pub struct HourFile {
    pub hour: u32,
    pub network: Network,
    /// Each zone's price.
    pub prices: Vec<Price>,
    /// Each line's loss.
    pub losses: Vec<Loss>,
    pub ownership: Ownership,
}

#[derive(Clone, Debug)]
pub struct Network {
    pub method: Method,
    /// Each zone's net position.
    pub net_positions: Vec<NetPosition>,
    pub borders: Vec<Border>,
    /// Each leg's line.
    pub line_of_leg: Vec<LineNumber>,
    /// The factors that the file names; every other one is 0.
    pub factors: HashMap<(LegNumber, ZoneNumber), Factor>,
}

#[derive(Clone, Copy, Debug)]
pub struct Border {
    pub near: ZoneNumber,
    pub far: ZoneNumber,
    pub capacity: Capacity,
}

#[derive(Clone, Debug)]
pub struct Ownership {
    pub region: u8,
    /// Each line's legs in rising number.
    pub lines: Vec<Vec<Leg>>,
}

#[derive(Clone, Debug)]
pub struct Leg {
    pub number: LegNumber,
    pub contribution: Contribution,
    /// In file order.
    pub owner_rows: Vec<OwnerRow>,
}

#[derive(Clone, Copy, Debug)]
pub struct OwnerRow {
    pub owner: u8,
    pub key: Key,
}

impl Ownership {
    pub fn owner_rows(&self) -> impl Iterator<Item = &OwnerRow> {
        self.lines.iter().flatten().flat_map(|leg| &leg.owner_rows)
    }

    /// The owners of the region: each once, in rising number, also those whose keys are all 0.
    pub fn owners(&self) -> BTreeSet<u8> {
        self.owner_rows().map(|row| row.owner).collect()
    }
}

/// Reads the bytes as an hour file.
pub fn read(bytes: &[u8]) -> Result<HourFile, Refusal> {
    let records = divide(bytes)?;
    check_order(&records)?;
    check_counts(&records)?;
    check_ranges(&records)?;
    check_names(&records)?;
    check_lines_have_legs(&records)?;
    check_legs_are_owned(&records)?;
    Ok(tables(&records))
}

/// Rule 1. The place is one more than the number of whole records before the damaged one.
fn divide(bytes: &[u8]) -> Result<Vec<Record>, Refusal> {
    let mut records = Vec::new();
    let mut rest = bytes;
    while !rest.is_empty() {
        let record = Record::first_of(rest).ok_or(Refusal::at(1, records.len() + 1))?;
        rest = &rest[record.kind().length()..];
        records.push(record);
    }
    Ok(records)
}

/// Rule 2.
fn check_order(records: &[Record]) -> Result<(), Refusal> {
    let mut before = None;
    for (number, record) in numbered(records) {
        if !may_stand(before, record.kind()) {
            return Err(Refusal::at(2, number));
        }
        before = Some(record.kind());
    }
    match before {
        Some(Kind::End) => Ok(()),
        _ => Err(Refusal::at(2, 0)),
    }
}

/// Whether some file in order has the kind directly after `before`, or at the beginning.
fn may_stand(before: Option<Kind>, kind: Kind) -> bool {
    match before {
        None => kind == Kind::Header,
        Some(Kind::End) => false,
        Some(before) => kind != Kind::Header && kind >= before,
    }
}

/// Rule 3. A record past a maximum is named even if records of another kind are missing.
fn check_counts(records: &[Record]) -> Result<(), Refusal> {
    for kind in KINDS {
        let mut of_kind = numbered(records).filter(|(_, record)| record.kind() == kind);
        if let Some((number, _)) = kind.most().and_then(|most| of_kind.nth(most)) {
            // The kinds stand in file order, so the first one found is the earliest record.
            return Err(Refusal::at(3, number));
        }
    }
    let no_zone = count(records, Kind::Zone) == 0;
    let no_border = count(records, Kind::Border) == 0;
    if no_zone || (method_byte(records) == COORDINATED && no_border) {
        return Err(Refusal::at(3, 0));
    }
    Ok(())
}

/// Rule 4.
fn check_ranges(records: &[Record]) -> Result<(), Refusal> {
    let method = method_byte(records);
    match numbered(records).find(|(_, record)| !in_range(record, method)) {
        Some((number, _)) => Err(Refusal::at(4, number)),
        None => Ok(()),
    }
}

fn in_range(record: &Record, method: u8) -> bool {
    match *record {
        Record::Header { hour, region, method } => {
            hour >= 1
                && (1..=32).contains(&region)
                && (method == FLOW_BASED || method == COORDINATED)
        }
        Record::Zone { price, net_position } => {
            (-500_000..=500_000).contains(&price)
                && (-1_000_000..=1_000_000).contains(&net_position)
        }
        Record::Border { capacity, .. } => allowed_capacities(method).contains(&capacity),
        Record::Factor { factor, .. } => (-10_000..=10_000).contains(&factor),
        Record::Loss { loss, .. } => loss <= 1_000,
        Record::OwnerRow { owner, key, .. } => (1..=64).contains(&owner) && key <= 10_000,
        Record::Leg { .. } | Record::End => true,
    }
}

/// An unknown method needs no case: its header is refused before any border.
fn allowed_capacities(method: u8) -> RangeInclusive<i32> {
    match method {
        FLOW_BASED => 0..=0,
        _ => -200_000..=200_000,
    }
}

/// Rule 5.
fn check_names(records: &[Record]) -> Result<(), Refusal> {
    let names = Names::of(records);
    let mut factors_seen = HashSet::new();
    let mut losses_seen = HashSet::new();
    for (number, record) in numbered(records) {
        let good = match *record {
            Record::Border { near, far, .. } => {
                names.has_zone(near) && names.has_zone(far) && near != far
            }
            Record::Leg { line, .. } => names.has_line(line),
            Record::Factor { leg, zone, .. } => {
                names.has_leg_with_factors(leg)
                    && names.has_zone(zone)
                    && factors_seen.insert((leg, zone))
            }
            Record::Loss { line, .. } => names.has_line(line) && losses_seen.insert(line),
            Record::OwnerRow { leg, .. } => names.has_leg(leg),
            Record::Header { .. } | Record::Zone { .. } | Record::End => true,
        };
        if !good {
            return Err(Refusal::at(5, number));
        }
    }
    Ok(())
}

/// What a file has names for.
struct Names {
    method: u8,
    zones: usize,
    borders: usize,
    lines: usize,
    line_of_leg: Vec<LineNumber>,
}

impl Names {
    fn of(records: &[Record]) -> Names {
        Names {
            method: method_byte(records),
            zones: count(records, Kind::Zone),
            borders: count(records, Kind::Border),
            lines: number_of_lines(records),
            line_of_leg: lines_of_legs(records),
        }
    }

    fn has_zone(&self, zone: u8) -> bool {
        (1..=self.zones).contains(&usize::from(zone))
    }

    fn has_line(&self, line: u8) -> bool {
        (1..=self.lines).contains(&usize::from(line))
    }

    fn has_leg(&self, leg: u8) -> bool {
        (1..=self.line_of_leg.len()).contains(&usize::from(leg))
    }

    /// Only the flow-based method has factors, and only for legs of borders.
    fn has_leg_with_factors(&self, leg: u8) -> bool {
        self.method == FLOW_BASED
            && self.has_leg(leg)
            && self.line_of_leg[usize::from(leg) - 1] <= self.borders
    }
}

/// Rule 6.
fn check_lines_have_legs(records: &[Record]) -> Result<(), Refusal> {
    let counts_for = |line: LineNumber| {
        records.iter().any(|record| match *record {
            Record::Leg { line: of, contribution } => usize::from(of) == line && contribution > 0,
            _ => false,
        })
    };
    match (1..=number_of_lines(records)).find(|line| !counts_for(*line)) {
        Some(line) => Err(Refusal::at(6, line)),
        None => Ok(()),
    }
}

/// Rule 7.
fn check_legs_are_owned(records: &[Record]) -> Result<(), Refusal> {
    let sum_of_keys =
        |leg: LegNumber| -> Key { owner_rows(records, leg).iter().map(|row| row.key).sum() };
    match (1..=count(records, Kind::Leg)).find(|leg| sum_of_keys(*leg) != WHOLE) {
        Some(leg) => Err(Refusal::at(7, leg)),
        None => Ok(()),
    }
}

/// The tables of a lawful file.
fn tables(records: &[Record]) -> HourFile {
    let Some(Record::Header { hour, region, method }) = records.first() else {
        unreachable!("a file in order begins with its header");
    };
    HourFile {
        hour: *hour,
        network: network(records, *method),
        prices: prices(records),
        losses: losses(records),
        ownership: Ownership { region: *region, lines: legs_by_line(records) },
    }
}

fn network(records: &[Record], method: u8) -> Network {
    let method = if method == FLOW_BASED { Method::FlowBased } else { Method::Coordinated };
    let mut network = Network {
        method,
        net_positions: Vec::new(),
        borders: Vec::new(),
        line_of_leg: lines_of_legs(records),
        factors: HashMap::new(),
    };
    for record in records {
        match *record {
            Record::Zone { net_position, .. } => network.net_positions.push(net_position.into()),
            Record::Border { near, far, capacity } => network.borders.push(Border {
                near: near.into(),
                far: far.into(),
                capacity: capacity.into(),
            }),
            Record::Factor { leg, zone, factor } => {
                network.factors.insert((leg.into(), zone.into()), factor.into());
            }
            _ => {}
        }
    }
    network
}

fn prices(records: &[Record]) -> Vec<Price> {
    let price = |record: &Record| match *record {
        Record::Zone { price, .. } => Some(price.into()),
        _ => None,
    };
    records.iter().filter_map(price).collect()
}

fn losses(records: &[Record]) -> Vec<Loss> {
    let mut losses = vec![0; number_of_lines(records)];
    for record in records {
        if let Record::Loss { line, loss } = *record {
            losses[usize::from(line) - 1] = loss.into();
        }
    }
    losses
}

fn legs_by_line(records: &[Record]) -> Vec<Vec<Leg>> {
    let mut lines = vec![Vec::new(); number_of_lines(records)];
    let legs = records.iter().filter_map(|record| match *record {
        Record::Leg { line, contribution } => Some((usize::from(line), contribution)),
        _ => None,
    });
    for (index, (line, contribution)) in legs.enumerate() {
        let number = index + 1;
        lines[line - 1].push(Leg {
            number,
            contribution: contribution.into(),
            owner_rows: owner_rows(records, number),
        });
    }
    lines
}

/// The records with their numbers from 1.
fn numbered(records: &[Record]) -> impl Iterator<Item = (usize, &Record)> {
    (1..).zip(records)
}

fn count(records: &[Record], kind: Kind) -> usize {
    records.iter().filter(|record| record.kind() == kind).count()
}

/// The method as the header has it; the records are in order and begin with a header.
fn method_byte(records: &[Record]) -> u8 {
    match records.first() {
        Some(Record::Header { method, .. }) => *method,
        _ => unreachable!("a file in order begins with its header"),
    }
}

/// The borders and, in the flow-based method, one external line for each zone.
fn number_of_lines(records: &[Record]) -> usize {
    let external = match method_byte(records) {
        FLOW_BASED => count(records, Kind::Zone),
        _ => 0,
    };
    count(records, Kind::Border) + external
}

fn lines_of_legs(records: &[Record]) -> Vec<LineNumber> {
    let line = |record: &Record| match *record {
        Record::Leg { line, .. } => Some(line.into()),
        _ => None,
    };
    records.iter().filter_map(line).collect()
}

fn owner_rows(records: &[Record], of: LegNumber) -> Vec<OwnerRow> {
    let row = |record: &Record| match *record {
        Record::OwnerRow { leg, owner, key } if usize::from(leg) == of => {
            Some(OwnerRow { owner, key: key.into() })
        }
        _ => None,
    };
    records.iter().filter_map(row).collect()
}
