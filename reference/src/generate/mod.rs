//! Hour files from seeds: lawful ones over the whole range of the format, and damaged ones.

mod damage;
mod lawful;
mod long;
mod random;
mod scene;

use crate::file::{COORDINATED, FLOW_BASED};
use crate::record::bytes_of;
use damage::{Damage, DAMAGES};
use random::Random;
use scene::Theme;

/// Every so many seeds there is an input of some 65,536 bytes. Larger numbers make smaller batches.
const SEEDS_FOR_A_LONG_INPUT: u64 = 200;

/// The hour file of a seed. A method that is given replaces the one that the seed would draw.
pub fn hour_file(seed: u64, method: Option<u8>) -> Vec<u8> {
    let mut random = Random::new(seed);
    let drawn = random.pick_by_percent(&[(35, FLOW_BASED), (65, COORDINATED)]);
    let method = method.unwrap_or(drawn);
    if seed % SEEDS_FOR_A_LONG_INPUT == SEEDS_FOR_A_LONG_INPUT / 2 {
        return long::input(&mut random, method);
    }
    let theme = random.pick_by_percent(&THEMES);
    let size = random.pick_by_percent(&SIZES);
    let mut records = lawful::records(&mut random, method, theme, size);
    match random.pick_by_percent(&INTENTS) {
        Intent::Lawful => bytes_of(&records),
        Intent::Damaged(damage) => {
            damage.apply(&mut random, &mut records);
            bytes_of(&records)
        }
        Intent::DamagedTwice => {
            // In either order, to see which rule is tried first.
            for _ in 0..2 {
                let damage = random.pick(&DAMAGES);
                if !records.is_empty() {
                    damage.apply(&mut random, &mut records);
                }
            }
            let mut bytes = bytes_of(&records);
            if random.chance(15) {
                damage::bytes(&mut random, &records, &mut bytes);
            }
            bytes
        }
        Intent::NoRecords => {
            let mut bytes = bytes_of(&records);
            damage::bytes(&mut random, &records, &mut bytes);
            bytes
        }
        Intent::Noise => {
            let mut bytes = bytes_of(&records);
            damage::noise(&mut random, &mut bytes);
            bytes
        }
    }
}

/// What is done to a lawful file.
#[derive(Clone, Copy)]
enum Intent {
    Lawful,
    Damaged(Damage),
    DamagedTwice,
    NoRecords,
    Noise,
}

const INTENTS: [(usize, Intent); 11] = [
    (45, Intent::Lawful),
    (5, Intent::NoRecords),
    (5, Intent::Damaged(Damage::Order)),
    (5, Intent::Damaged(Damage::Counts)),
    (6, Intent::Damaged(Damage::Ranges)),
    (7, Intent::Damaged(Damage::Names)),
    (5, Intent::Damaged(Damage::Legs)),
    (6, Intent::Damaged(Damage::Keys)),
    (6, Intent::Damaged(Damage::Balance)),
    (6, Intent::DamagedTwice),
    (4, Intent::Noise),
];

const THEMES: [(usize, Theme); 5] = [
    (54, Theme::Ordinary),
    (10, Theme::Eaten),
    (12, Theme::IncomeEdge),
    (12, Theme::WeightEdge),
    (12, Theme::PositionEdge),
];

/// How large a file is: how many zones, borders, legs and owner rows.
#[derive(Clone, Copy, Debug)]
pub enum Size {
    Small,
    Medium,
    Large,
    /// Every table is full.
    Largest,
}

const SIZES: [(usize, Size); 4] =
    [(78, Size::Small), (16, Size::Medium), (4, Size::Large), (2, Size::Largest)];

impl Size {
    fn zones(self, random: &mut Random, least: usize) -> usize {
        match self {
            Size::Small => random.count(least, 4.max(least)),
            Size::Medium => random.count(least, 8),
            Size::Large => random.count(8, 16),
            Size::Largest => 16,
        }
    }

    fn borders(self, random: &mut Random) -> usize {
        match self {
            Size::Small => random.count(0, 4),
            Size::Medium => random.count(1, 12),
            Size::Large => random.count(12, 45),
            Size::Largest => 48,
        }
    }

    /// Legs or owner rows beyond those that must be, where there is room for so many.
    fn extra(self, random: &mut Random, room: usize) -> usize {
        match self {
            Size::Small => random.count(0, 4).min(room),
            Size::Medium => random.count(0, 12).min(room),
            Size::Large => random.count(0, room),
            Size::Largest => room,
        }
    }
}
