//! What holds for the files of many seeds: the laws of regions and money, and that the seeds reach
//! the corners of the format.

use std::collections::BTreeMap;

use reference::cases::{cases, Case, Tally};
use reference::file::{self, HourFile};
use reference::hourbook::region_of;
use reference::region::{FarEnd, Region};
use reference::settlement::{income, settle, weight};
use reference::units::{Cents, Price};

const SEEDS: usize = 20_000;

fn sound_regions() -> impl Iterator<Item = (Case, HourFile, Region)> {
    cases(0, None).take(SEEDS).filter_map(|case| {
        let hour_file = file::read(case.judged()).ok()?;
        let region = region_of(&hour_file).ok()?;
        Some((case, hour_file, region))
    })
}

fn weight_sum(region: &Region) -> Cents {
    region.lines.iter().map(weight).sum()
}

/// What leaves the zone over the lines.
fn net_flow(region: &Region, zone: usize) -> i128 {
    let side = |at: bool| i128::from(at);
    region
        .lines
        .iter()
        .map(|line| line.flow * (side(line.near == zone) - side(line.far == FarEnd::Zone(zone))))
        .sum()
}

#[test]
fn sound_regions_keep_their_laws() {
    for (case, _, region) in sound_regions() {
        let seed = case.seed;
        assert!((1..=16).contains(&region.zones.len()), "zones of seed {seed}");
        assert!((1..=64).contains(&region.lines.len()), "lines of seed {seed}");
        for (number, zone) in (1..).zip(&region.zones) {
            let balance = zone.net_position * 10_000;
            assert_eq!(net_flow(&region, number), balance, "balance of seed {seed}");
        }
        let flows: i128 = region.lines.iter().map(|line| line.flow.abs()).sum();
        assert!(flows <= 2_000_000_000_000, "flows of seed {seed}");
        for line in &region.lines {
            let difference = line.far_price - line.near_price;
            let between = difference.min(0)..=difference.max(0);
            assert!(between.contains(&line.spread), "spread of seed {seed}");
            if line.far == FarEnd::Hub {
                assert_eq!(line.far_price, region.hub_price.unwrap_or(line.near_price));
                assert!(line.flow == 0 || region.hub_price.is_some(), "hub of seed {seed}");
            }
        }
    }
}

#[test]
fn no_price_is_cheaper_than_the_hub_price() {
    for (case, _, region) in sound_regions() {
        let Some(hub) = region.hub_price else { continue };
        let cost = |price: Price| -> i128 {
            let external = region.lines.iter().filter(|line| line.far == FarEnd::Hub);
            external.map(|line| (line.near_price - price).abs() * line.flow.abs()).sum()
        };
        let prices = region.zones.iter().map(|zone| zone.price);
        for price in prices.chain([hub - 1, hub + 1, -500_000, 500_000]) {
            assert!(cost(price) >= cost(hub), "price {price} of seed {}", case.seed);
        }
    }
}

#[test]
fn amounts_add_to_the_income() {
    for (case, hour_file, region) in sound_regions() {
        let Ok(settlement) = settle(&region, &hour_file.ownership, 128) else { continue };
        let seed = case.seed;
        let sum: Cents = settlement.amounts.iter().map(|owned| owned.amount).sum();
        assert_eq!(sum, settlement.income, "amounts of seed {seed}");
        if settlement.income < 0 {
            continue;
        }
        assert_eq!(settlement.line_shares.iter().sum::<Cents>(), settlement.income);
        let mut by_line: BTreeMap<usize, Cents> = BTreeMap::new();
        for owned in &settlement.amounts {
            *by_line.entry(owned.line).or_default() += owned.amount;
        }
        let by_line: Vec<Cents> = by_line.into_values().collect();
        assert_eq!(by_line, settlement.line_shares, "lines of seed {seed}");
    }
}

#[test]
fn seeds_reach_every_outcome() {
    for method in [None, Some(file::COORDINATED)] {
        let mut tally = Tally::default();
        cases(0, method).take(SEEDS).for_each(|case| tally.add(&case));
        assert!(tally.accepted() > 1_000);
        for number in [1, 2, 3, 4, 5, 6, 7, 8, 9, 12] {
            assert!(tally.refused(number) > 300, "refusal {number}");
        }
    }
}

/// Counts how often each corner is met; each must be met by both methods, several times.
#[test]
fn seeds_reach_the_corners() {
    let mut met: BTreeMap<(&str, bool), usize> = BTreeMap::new();
    for (case, hour_file, region) in sound_regions() {
        let coordinated = hour_file.network.method == file::Method::Coordinated;
        for (corner, holds) in corners(&case, &hour_file, &region) {
            *met.entry((corner, coordinated)).or_default() += usize::from(holds);
        }
    }
    for ((corner, coordinated), count) in &met {
        println!("{count:6} {corner}, coordinated: {coordinated}");
    }
    for ((corner, coordinated), count) in met {
        assert!(count >= 5, "{corner}, coordinated {coordinated}: {count}");
    }
}

fn corners(case: &Case, hour_file: &HourFile, region: &Region) -> Vec<(&'static str, bool)> {
    let accepted = case.outcome.is_ok();
    let (income, weights) = (income(region), weight_sum(region));
    let magnitudes: i128 = region.zones.iter().map(|zone| zone.net_position.abs()).sum();
    let legs: usize = hour_file.ownership.lines.iter().map(Vec::len).sum();
    let against = region.lines.iter().any(|line| line.flow * line.spread < 0);
    vec![
        ("income 2,000,000,000", income == 2_000_000_000 && accepted),
        ("income 2,000,000,001", income == 2_000_000_001 && !accepted),
        ("income -2,000,000,000", income == -2_000_000_000 && accepted),
        ("income -2,000,000,001", income == -2_000_000_001 && !accepted),
        ("weights 4,000,000,000", weights == 4_000_000_000 && accepted),
        ("weights 4,000,000,001", weights == 4_000_000_001 && income.abs() <= 2_000_000_000),
        ("weights 0, income above 0", weights == 0 && income > 0 && accepted),
        ("income -1", income == -1 && accepted),
        ("income below 0", income < 0 && accepted),
        ("flow against the spread", against && income > 0 && accepted),
        ("positions of 1,000,000", magnitudes == 1_000_000 && accepted),
        ("16 zones", region.zones.len() == 16 && accepted),
        ("48 borders", hour_file.network.borders.len() == 48 && accepted),
        ("64 legs", legs == 64 && accepted),
        ("128 owner rows", hour_file.ownership.owner_rows().count() == 128 && accepted),
        ("64 owners or nearly", hour_file.ownership.owners().len() >= 50 && accepted),
    ]
}
