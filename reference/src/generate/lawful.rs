//! Lawful files: the records of a scene, with legs and owners.

use super::random::Random;
use super::scene::{Factors, Losses, Scene, Theme, Transfer};
use super::Size;
use crate::file::FLOW_BASED;
use crate::record::{Kind, Record};

const WHOLE: i64 = 10_000;

/// The records of a file that keeps rules 1 to 7.
pub fn records(random: &mut Random, method: u8, theme: Theme, size: Size) -> Vec<Record> {
    let scene = Scene::draw(random, method, theme, size);
    let borders = borders(random, method, &scene, size);
    let external = if method == FLOW_BASED { scene.prices.len() } else { 0 };
    let lines = borders.len() + external;
    let legs = legs(random, lines, busy_border(&scene, &borders), size);

    let mut records = vec![header(random, method)];
    records.extend(zones(&scene));
    records.extend(&borders);
    records.extend(&legs);
    if method == FLOW_BASED {
        records.extend(factors(random, &scene, &borders, &legs, size));
    }
    records.extend(losses(random, &scene.losses, lines));
    records.extend(owner_rows(random, legs.len(), size));
    records.push(Record::End);
    records
}

fn header(random: &mut Random, method: u8) -> Record {
    let hour = match random.below(8) {
        0 => 1,
        1 => u32::MAX,
        2 => random.between(1, u32::MAX.into()) as u32,
        _ => random.between(1, 20_000) as u32,
    };
    let region = random.between(1, 32) as u8;
    let region = random.pick(&[1, 32, region]);
    Record::Header { hour, region, method }
}

fn zones(scene: &Scene) -> Vec<Record> {
    let pairs = scene.prices.iter().zip(scene.net_positions());
    pairs
        .map(|(price, position)| Record::Zone {
            price: *price as i32,
            net_position: position as i32,
        })
        .collect()
}

/// Coordinated: the transfers. Flow-based: any borders, and the one that the factors need.
fn borders(random: &mut Random, method: u8, scene: &Scene, size: Size) -> Vec<Record> {
    if method != FLOW_BASED {
        let border = |each: &Transfer| Record::Border {
            near: each.from,
            far: each.to,
            capacity: each.amount as i32,
        };
        return scene.transfers.iter().map(border).collect();
    }
    let zones = scene.prices.len();
    let mut ends: Vec<(u8, u8)> = Vec::new();
    if let Factors::OverBorder { from, to, .. } = scene.factors {
        ends.push((from, to));
    }
    if zones > 1 {
        // A border with factors of its own needs room for two more legs.
        let most = if ends.is_empty() { 48 } else { 48.min(62 - zones) };
        let others = size.borders(random).min(most - ends.len());
        ends.extend((0..others).map(|_| any_ends(random, zones)));
    }
    random.shuffle(&mut ends);
    ends.into_iter().map(|(near, far)| Record::Border { near, far, capacity: 0 }).collect()
}

fn any_ends(random: &mut Random, zones: usize) -> (u8, u8) {
    let near = random.count(1, zones);
    let far = (near + random.count(1, zones - 1) - 1) % zones + 1;
    (near as u8, far as u8)
}

/// The line that needs several legs to carry its factors.
fn busy_border(scene: &Scene, borders: &[Record]) -> Option<u8> {
    let Factors::OverBorder { from, to, .. } = scene.factors else {
        return None;
    };
    let joining = Record::Border { near: from, far: to, capacity: 0 };
    Some(borders.iter().position(|border| *border == joining)? as u8 + 1)
}

/// One leg that counts for each line, and others, in any order.
fn legs(random: &mut Random, lines: usize, busy: Option<u8>, size: Size) -> Vec<Record> {
    let mut legs: Vec<Record> = (1..=lines as u8)
        .map(|line| Record::Leg { line, contribution: contribution(random).max(1) })
        .collect();
    for line in busy.into_iter().flat_map(|line| [line, line]) {
        legs.push(Record::Leg { line, contribution: contribution(random) });
    }
    let room = 64 - legs.len();
    for _ in 0..size.extra(random, room) {
        let line = random.count(1, lines) as u8;
        legs.push(Record::Leg { line, contribution: contribution(random) });
    }
    if random.chance(60) {
        random.shuffle(&mut legs);
    }
    legs
}

fn contribution(random: &mut Random) -> u16 {
    match random.below(6) {
        0 => 0,
        1 => 1,
        2 => u16::MAX,
        3 => random.between(0, u16::MAX.into()) as u16,
        _ => random.between(1, 10) as u16,
    }
}

fn factors(
    random: &mut Random,
    scene: &Scene,
    borders: &[Record],
    legs: &[Record],
    size: Size,
) -> Vec<Record> {
    let border_legs: Vec<u8> = (1..)
        .zip(legs)
        .filter(|(_, leg)| line_of(leg) <= borders.len())
        .map(|(number, _)| number)
        .collect();
    let mut factors = match scene.factors {
        Factors::Any => any_factors(random, scene.prices.len(), &border_legs, size),
        Factors::SmallExceptFor(loud) => {
            let any = any_factors(random, scene.prices.len(), &border_legs, size);
            any.into_iter().filter_map(|record| softened(record, loud)).collect()
        }
        Factors::OverBorder { from, to, total } => {
            let busy = busy_border(scene, borders).map(usize::from).unwrap_or(0);
            let on_busy = |leg: &&u8| line_of(&legs[usize::from(**leg) - 1]) == busy;
            let busy_legs: Vec<u8> = border_legs.iter().filter(on_busy).copied().collect();
            factors_over_border(&busy_legs, from, to, total)
        }
    };
    if random.chance(50) {
        random.shuffle(&mut factors);
    }
    factors
}

fn line_of(leg: &Record) -> usize {
    match *leg {
        Record::Leg { line, .. } => line.into(),
        _ => unreachable!("only legs are asked for their line"),
    }
}

/// Some of the pairs of a border's leg and a zone; in the largest files all of them.
fn any_factors(random: &mut Random, zones: usize, legs: &[u8], size: Size) -> Vec<Record> {
    let percent = match size {
        Size::Largest => 100,
        _ => random.pick(&[0, 10, 40, 80]),
    };
    let largest = random.pick(&[10, 1_000, 10_000]);
    let mut factors = Vec::new();
    for leg in legs {
        for zone in 1..=zones as u8 {
            if random.chance(percent) {
                let factor = match random.below(12) {
                    0 => largest * random.sign(),
                    _ => random.between(-largest, largest),
                };
                factors.push(Record::Factor { leg: *leg, zone, factor: factor as i16 });
            }
        }
    }
    factors
}

/// A large position with a large factor would drown the edge that the file is about.
fn softened(record: Record, loud: [u8; 2]) -> Option<Record> {
    match record {
        Record::Factor { zone, .. } if loud.contains(&zone) => None,
        Record::Factor { leg, zone, factor } => {
            Some(Record::Factor { leg, zone, factor: factor % 50 })
        }
        _ => unreachable!("only factors are softened"),
    }
}

/// Spreads the total over the legs, on the exporting zone and, negated, on the importing one.
fn factors_over_border(legs: &[u8], from: u8, to: u8, total: i64) -> Vec<Record> {
    let slots = legs.iter().flat_map(|leg| [(*leg, from, 1), (*leg, to, -1)]);
    let mut left = total;
    let mut factors = Vec::new();
    for (leg, zone, sign) in slots {
        let part = left.clamp(-WHOLE, WHOLE);
        if part != 0 {
            factors.push(Record::Factor { leg, zone, factor: (sign * part) as i16 });
        }
        left -= part;
    }
    assert_eq!(left, 0, "the busy border has legs enough");
    factors
}

fn losses(random: &mut Random, losses: &Losses, lines: usize) -> Vec<Record> {
    let mut records: Vec<Record> = match *losses {
        Losses::None => Vec::new(),
        Losses::Any => some_losses(random, lines),
        Losses::EveryLine { least } => losses_of_every_line(random, lines, least),
    };
    if random.chance(50) {
        random.shuffle(&mut records);
    }
    records
}

fn some_losses(random: &mut Random, lines: usize) -> Vec<Record> {
    let percent = random.pick(&[20, 60, 100]);
    let mut records = Vec::new();
    for line in 1..=lines as u8 {
        if random.chance(percent) {
            let loss = match random.below(5) {
                0 => random.pick(&[0, 1, 999, 1_000]),
                1 => random.between(0, 1_000),
                _ => random.between(0, 99),
            };
            records.push(Record::Loss { line, loss: loss as u16 });
        }
    }
    records
}

/// Sometimes one line loses less, so that its weight alone may be above 0.
fn losses_of_every_line(random: &mut Random, lines: usize, least: i64) -> Vec<Record> {
    let spared = if random.chance(30) { random.count(1, lines) } else { 0 };
    (1..=lines)
        .map(|line| {
            let loss = if line == spared {
                random.pick(&[0, least / 2, least - 1])
            } else {
                let more = random.between(least, 1_000);
                random.pick(&[least, more])
            };
            Record::Loss { line: line as u8, loss: loss as u16 }
        })
        .collect()
}

/// One row for each leg and others, up to 128; the keys of each leg add to the whole.
fn owner_rows(random: &mut Random, legs: usize, size: Size) -> Vec<Record> {
    let mut rows_of_leg = vec![1; legs];
    for _ in 0..size.extra(random, 128 - legs) {
        rows_of_leg[random.below(legs)] += 1;
    }
    let owners = random.pick(&[1, 3, 8, 64]);
    let lowest = random.between(1, 65 - owners);
    let mut rows = Vec::new();
    for (leg, count) in (1..).zip(rows_of_leg) {
        for key in keys(random, count) {
            let owner = random.between(lowest, lowest + owners - 1) as u8;
            rows.push(Record::OwnerRow { leg, owner, key });
        }
    }
    if random.chance(40) {
        random.shuffle(&mut rows);
    }
    rows
}

/// Differences of sorted cuts, which may fall together: then a key is 0.
fn keys(random: &mut Random, count: usize) -> Vec<u16> {
    let mut cuts: Vec<i64> = (1..count)
        .map(|_| match random.below(5) {
            0 => random.pick(&[0, 1, WHOLE / 2, WHOLE - 1, WHOLE]),
            _ => random.between(0, WHOLE),
        })
        .collect();
    cuts.extend([0, WHOLE]);
    cuts.sort();
    cuts.windows(2).map(|pair| (pair[1] - pair[0]) as u16).collect()
}

/// Where a new record of the kind belongs: behind all that must not follow it.
pub fn place_for(records: &[Record], kind: Kind) -> usize {
    records.partition_point(|record| record.kind() <= kind)
}
