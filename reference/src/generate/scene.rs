//! The money side of a lawful file: prices, transfers between zones, and what is wanted of losses
//! and factors.
//!
//! Net positions are sums of transfers, so that they always add to 0. In the coordinated method each
//! transfer is a border with its capacity; in the flow-based method only the net positions remain.

use super::random::Random;
use super::Size;
use crate::file::FLOW_BASED;

pub const HIGHEST_PRICE: i64 = 500_000;
const LARGEST_CAPACITY: i64 = 200_000;
const LARGEST_POSITION_SUM: i64 = 1_000_000;
/// Flow × spread in 0.1 cent: the income of 2,000,000,000 cents.
const LARGEST_INCOME_TENTHS: i64 = 20_000_000_000;
const LARGEST_WEIGHT_SUM: i64 = 4_000_000_000;

/// What a file is about.
#[derive(Clone, Copy, Debug)]
pub enum Theme {
    /// Anything, of every magnitude.
    Ordinary,
    /// Losses eat every spread, or all but one.
    Eaten,
    /// An income at its limit or next to it.
    IncomeEdge,
    /// A sum of weights at its limit or next to it.
    WeightEdge,
    /// Net positions whose magnitudes add to the limit or to more.
    PositionEdge,
}

pub struct Scene {
    pub prices: Vec<i64>,
    pub transfers: Vec<Transfer>,
    pub losses: Losses,
    pub factors: Factors,
}

#[derive(Clone, Copy)]
pub struct Transfer {
    pub from: u8,
    pub to: u8,
    pub amount: i64,
}

pub enum Losses {
    None,
    Any,
    /// Every line loses at least so much.
    EveryLine {
        least: i64,
    },
}

/// Which factors a flow-based file has.
pub enum Factors {
    Any,
    /// Small ones, and none for these zones with large positions.
    SmallExceptFor([u8; 2]),
    /// Only such that so many ten-thousandths of the transfer flow over one border.
    OverBorder {
        from: u8,
        to: u8,
        total: i64,
    },
}

impl Scene {
    pub fn draw(random: &mut Random, method: u8, theme: Theme, size: Size) -> Scene {
        match theme {
            Theme::Ordinary => ordinary(random, method, size),
            Theme::Eaten => eaten(random, size),
            Theme::IncomeEdge => income_edge(random, size),
            Theme::WeightEdge if method == FLOW_BASED => weight_edge_by_factors(random, size),
            Theme::WeightEdge => weight_edge_by_capacities(random, size),
            Theme::PositionEdge => position_edge(random, method, size),
        }
    }

    pub fn net_positions(&self) -> Vec<i64> {
        let mut positions = vec![0; self.prices.len()];
        for transfer in &self.transfers {
            positions[usize::from(transfer.from) - 1] += transfer.amount;
            positions[usize::from(transfer.to) - 1] -= transfer.amount;
        }
        positions
    }

    fn spread(&self, transfer: &Transfer) -> i64 {
        self.prices[usize::from(transfer.to) - 1] - self.prices[usize::from(transfer.from) - 1]
    }

    /// Halves the transfers until the net positions are within their limit.
    fn fit(&mut self) {
        let magnitudes = |scene: &Scene| -> i64 {
            scene.net_positions().iter().map(|position| position.abs()).sum()
        };
        while magnitudes(self) > LARGEST_POSITION_SUM {
            for transfer in &mut self.transfers {
                transfer.amount /= 2;
            }
        }
    }

    /// Turns every transfer along its spread (income 0 or more) or against it.
    fn turn(&mut self, sign: i64) {
        for index in 0..self.transfers.len() {
            let along = if self.spread(&self.transfers[index]) >= 0 { 1 } else { -1 };
            let transfer = &mut self.transfers[index];
            transfer.amount = sign * along * transfer.amount.abs();
        }
    }
}

fn ordinary(random: &mut Random, method: u8, size: Size) -> Scene {
    let least_zones = if method == FLOW_BASED { 1 } else { 2 };
    let zones = size.zones(random, least_zones);
    let transfers = if zones == 1 { 0 } else { size.borders(random).max(1) };
    let largest = random.pick(&[3, 100, 5_000, LARGEST_CAPACITY]);
    let mut scene = Scene {
        prices: ordinary_prices(random, zones),
        transfers: (0..transfers).map(|_| any_transfer(random, zones, largest)).collect(),
        losses: if random.chance(50) { Losses::Any } else { Losses::None },
        factors: Factors::Any,
    };
    match random.below(4) {
        0 => scene.turn(1),
        1 => scene.turn(-1),
        _ => {}
    }
    scene.fit();
    scene
}

fn ordinary_prices(random: &mut Random, zones: usize) -> Vec<i64> {
    let scale = random.pick(&[0, 10, 500, 20_000, 20_000, HIGHEST_PRICE]);
    let centre = match random.below(3) {
        0 => 0,
        1 => random.between(0, 20_000),
        _ => random.between(-HIGHEST_PRICE, HIGHEST_PRICE),
    };
    let price = |random: &mut Random| match random.below(30) {
        0 => HIGHEST_PRICE * random.sign(),
        _ => clip(centre + random.between(-scale, scale)),
    };
    (0..zones).map(|_| price(random)).collect()
}

fn clip(price: i64) -> i64 {
    price.clamp(-HIGHEST_PRICE, HIGHEST_PRICE)
}

fn any_transfer(random: &mut Random, zones: usize, largest: i64) -> Transfer {
    let [from, to] = distinct_zones(random, zones);
    let amount = match random.below(10) {
        0 => 0,
        1 => largest * random.sign(),
        _ => random.between(-largest, largest),
    };
    Transfer { from, to, amount }
}

/// Different zones in any order.
fn distinct_zones<const N: usize>(random: &mut Random, zones: usize) -> [u8; N] {
    let mut all: Vec<u8> = (1..=zones as u8).collect();
    random.shuffle(&mut all);
    std::array::from_fn(|index| all[index])
}

/// All prices lie within the least reduction of each other, so that no spread is left.
fn eaten(random: &mut Random, size: Size) -> Scene {
    let least = random.between(10, 1_000);
    let lowest = random.between(1_000, 400_000);
    let width = lowest * least / 10_000;
    let sign = random.sign();
    let zones = size.zones(random, 2);
    let price = |random: &mut Random| match random.below(4) {
        0 => sign * lowest,
        1 => sign * (lowest + width),
        _ => sign * (lowest + random.between(0, width)),
    };
    let prices = (0..zones).map(|_| price(random)).collect();
    let transfers = size.borders(random).max(1);
    let mut scene = Scene {
        prices,
        transfers: (0..transfers).map(|_| any_transfer(random, zones, 20_000)).collect(),
        losses: Losses::EveryLine { least },
        factors: Factors::Any,
    };
    if random.chance(80) {
        scene.turn(1);
    }
    scene.fit();
    scene
}

/// Two zones far apart in price, and small things around the first of them.
struct Pair {
    low: u8,
    high: u8,
    filler: u8,
    scene: Scene,
}

/// `step` is the spread from the low zone to the filler zone. No other transfer touches the high
/// zone, so that the others together count for little.
fn pair(random: &mut Random, size: Size, spread: i64, step: i64) -> Pair {
    let zones = size.zones(random, 3);
    let [low, high, filler] = distinct_zones(random, zones);
    let price = random.between(-HIGHEST_PRICE, HIGHEST_PRICE - spread);
    let mut prices: Vec<i64> =
        (0..zones).map(|_| clip(price + random.between(-500, 500))).collect();
    prices[usize::from(low) - 1] = price;
    prices[usize::from(high) - 1] = price + spread;
    prices[usize::from(filler) - 1] = price + step;
    let others = (0..random.count(0, 15))
        .map(|_| any_transfer(random, zones, 5))
        .filter(|transfer| transfer.from != high && transfer.to != high)
        .collect();
    let factors = Factors::SmallExceptFor([low, high]);
    let scene = Scene { prices, transfers: others, losses: Losses::None, factors };
    Pair { low, high, filler, scene }
}

/// An income of exactly ± 2,000,000,000, or some tenths of a cent beside it.
fn income_edge(random: &mut Random, size: Size) -> Scene {
    let spread = random.pick(&[100_000, 125_000, 200_000, 400_000, 500_000, 800_000, 1_000_000]);
    let Pair { low, high, filler, mut scene } = pair(random, size, spread, 1);
    let sign = random.sign();
    let beside = random.pick(&[-11, -10, -9, -1, 0, 0, 1, 9, 10, 11, 20]);
    let amount = sign * (LARGEST_INCOME_TENTHS / spread);
    scene.transfers.push(Transfer { from: low, to: high, amount });
    let sum: i64 = scene.transfers.iter().map(|each| each.amount * scene.spread(each)).sum();
    // The filler's spread is 1, so its amount is what is missing.
    let missing = sign * (LARGEST_INCOME_TENTHS + beside) - sum;
    scene.transfers.push(Transfer { from: low, to: filler, amount: missing });
    random.shuffle(&mut scene.transfers);
    scene
}

/// Weights that add to 4,000,000,000, or to one less or one more, by flows in both directions.
fn weight_edge_by_capacities(random: &mut Random, size: Size) -> Scene {
    let spread = random.pick(&[200_000, 400_000, 500_000, 1_000_000]);
    let Pair { low, high, filler, mut scene } = pair(random, size, spread, 10);
    let whole = LARGEST_WEIGHT_SUM * 10 / spread;
    let along = random.between(whole * 3 / 10, whole * 7 / 10);
    for amount in [along, along - (whole - 1)] {
        scene.transfers.push(Transfer { from: low, to: high, amount });
    }
    let weight = |each: &Transfer| ((each.amount * scene.spread(each)).abs() + 9) / 10;
    let sum: i64 = scene.transfers.iter().map(weight).sum();
    // The filler's spread is 10, so its amount is its weight.
    let missing = LARGEST_WEIGHT_SUM + random.pick(&[-1, 0, 0, 1]) - sum;
    let amount = missing * random.sign();
    scene.transfers.push(Transfer { from: low, to: filler, amount });
    random.shuffle(&mut scene.transfers);
    scene
}

/// The same sum of weights in the flow-based method. A border carries m times what its near zone
/// exports, and the hub brings 1 − m times as much: the weights are (|m| + |1 − m|) × income.
/// A tiny transfer between two prices in the middle adds one cent.
fn weight_edge_by_factors(random: &mut Random, size: Size) -> Scene {
    let (total, income_tenths) = random.pick(&[
        (10_000, LARGEST_INCOME_TENTHS),
        (15_000, LARGEST_INCOME_TENTHS),
        (-5_000, LARGEST_INCOME_TENTHS),
        (25_000, LARGEST_INCOME_TENTHS / 2),
        (-15_000, LARGEST_INCOME_TENTHS / 2),
        (45_000, LARGEST_INCOME_TENTHS / 4),
    ]);
    let spread = random.pick(&[100_000, 200_000, 400_000, 500_000, 1_000_000]);
    let zones = size.zones(random, 4);
    let [low, high, middle, above] = distinct_zones(random, zones);
    let price = random.between(-HIGHEST_PRICE, HIGHEST_PRICE - spread);
    let mut prices = ordinary_prices(random, zones);
    prices[usize::from(low) - 1] = price;
    prices[usize::from(high) - 1] = price + spread;
    prices[usize::from(middle) - 1] = price + spread / 2;
    prices[usize::from(above) - 1] = price + spread / 2 + 1;
    let amount = random.sign() * (income_tenths / spread);
    let tiny = random.pick(&[0, 0, 1, -1, 9]);
    Scene {
        prices,
        transfers: vec![
            Transfer { from: low, to: high, amount },
            Transfer { from: middle, to: above, amount: tiny },
        ],
        losses: Losses::None,
        factors: Factors::OverBorder { from: low, to: high, total },
    }
}

/// Exporting zones and importing zones, with magnitudes of exactly 1,000,000 together, or more.
fn position_edge(random: &mut Random, method: u8, size: Size) -> Scene {
    let zones = size.zones(random, 2);
    let exporters = random.count(1, zones - 1);
    let any_excess = random.between(500_001, 1_000_000);
    let mut left =
        random.pick(&[499_999, 500_000, 500_000, 500_001, 500_001, any_excess, 1_000_000]);
    let mut transfers = Vec::new();
    while left > 0 {
        let amount = left.min(random.between(LARGEST_CAPACITY / 2, LARGEST_CAPACITY));
        let from = random.count(1, exporters) as u8;
        let to = random.count(exporters + 1, zones) as u8;
        transfers.push(match random.chance(50) {
            true => Transfer { from, to, amount },
            false => Transfer { from: to, to: from, amount: -amount },
        });
        left -= amount;
    }
    let scale = if method == FLOW_BASED { 500 } else { 10_000 };
    let centre = random.between(-400_000, 400_000);
    let prices = (0..zones).map(|_| centre + random.between(-scale, scale)).collect();
    Scene { prices, transfers, losses: Losses::Any, factors: Factors::Any }
}
