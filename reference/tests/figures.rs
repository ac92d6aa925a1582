//! The worked figures of docs/RULES.md.

mod common;

use common::{bytes, FLOW_BASED_FILE, SAMPLE};
use reference::file::{self, HourFile};
use reference::hourbook::region_of;
use reference::refusal::Refusal;
use reference::region::{hub_price, reduced_spread, FarEnd, Line};
use reference::settlement::{income, settle, weight, Settlement};
use reference::sharing::share;
use reference::units::{rounded_down, rounded_up, Cents};

fn shares(amount: Cents, weights: &[i128]) -> Vec<Cents> {
    share(amount, weights, weights.len()).unwrap()
}

fn settled(hour_file: &HourFile) -> Settlement {
    settle(&region_of(hour_file).unwrap(), &hour_file.ownership, 128).unwrap()
}

#[test]
fn roundings() {
    for (dividend, down, up) in [(7, 3, 4), (-7, -4, -3), (8, 4, 4), (-8, -4, -4)] {
        assert_eq!(rounded_down(dividend, 2), down);
        assert_eq!(rounded_up(dividend, 2), up);
    }
}

#[test]
fn sharing() {
    assert_eq!(shares(1_000, &[5_000, 2_785, 2_215]), [500, 278, 222]);
    assert_eq!(shares(101, &[5_000, 5_000]), [50, 51]);
    assert_eq!(shares(5, &[0, 0]), [2, 3]);
    assert_eq!(shares(0, &[7, 0]), [0, 0]);
    assert_eq!(shares(100, &[1, 1, 1]), [33, 33, 34]);
    assert_eq!(shares(7, &[]), []);
}

#[test]
fn sharing_at_its_limits() {
    let (amount, weights) = (2_000_000_000, [3_999_999_999, 1]);
    assert_eq!(shares(amount, &weights), [1_999_999_999, 1]);
    let refused = |number| Err(Refusal::without_place(number));
    assert_eq!(share(amount, &weights, 1), refused(11));
    assert_eq!(share(amount + 1, &weights, 1), refused(11));
    assert_eq!(share(amount + 1, &weights, 2), refused(12));
    assert_eq!(share(amount, &[3_999_999_999, 2], 2), refused(12));
    assert_eq!(share(amount + 1, &[], 0), refused(12));
}

#[test]
fn hub_prices() {
    assert_eq!(hub_price(&[5_700, 5_900], &[10, -10]), Some(5_800));
    assert_eq!(hub_price(&[-5, -2], &[10, -10]), Some(-4));
    assert_eq!(hub_price(&[10, 20, 30, 40], &[5, -3, -4, 2]), Some(20));
    assert_eq!(hub_price(&[10, 20], &[0, 0]), None);
}

#[test]
fn losses() {
    let line = |spread, leaving_price| Line {
        near: 1,
        far: FarEnd::Zone(2),
        flow: 0,
        near_price: leaving_price,
        far_price: leaving_price + spread,
        spread,
    };
    assert_eq!(reduced_spread(&line(2_000, 3_000), 100), 1_970);
    assert_eq!(reduced_spread(&line(-2_000, -3_000), 100), -1_970);
    assert_eq!(reduced_spread(&line(20, 3_000), 100), 0);
    assert_eq!(reduced_spread(&line(2_000, 9_999), 1), 2_000);
    // A flow below 0 leaves the far end.
    let back = Line { flow: -1, ..line(2_000, 3_000) };
    assert_eq!(reduced_spread(&back, 100), 1_950);
}

#[test]
fn incomes_are_rounded_down_once() {
    let mut hour_file = file::read(&bytes(SAMPLE)).unwrap();
    hour_file.network.net_positions = vec![1, -1];
    hour_file.network.borders[0].capacity = 1;
    for (prices, expected) in [([5, 0], -1), ([0, 5], 0)] {
        hour_file.prices = prices.to_vec();
        assert_eq!(income(&region_of(&hour_file).unwrap()), expected);
    }
}

#[test]
fn sample_hour() {
    let hour_file = file::read(&bytes(SAMPLE)).unwrap();
    let settlement = settled(&hour_file);
    assert_eq!(settlement.income, 5_000);
    assert_eq!(settlement.weights, [5_000]);
    assert_eq!(settlement.line_shares, [5_000]);
}

#[test]
fn three_zone_hour() {
    let mut hour_file = file::read(&bytes(FLOW_BASED_FILE)).unwrap();
    hour_file.prices[2] = 4_000;
    let region = region_of(&hour_file).unwrap();
    assert_eq!(region.hub_price, Some(4_000));
    let flows: Vec<i128> = region.lines.iter().map(|line| line.flow).collect();
    assert_eq!(flows, [6_000_000, 3_000_000, 3_000_000, 1_000_000, -1_000_000, 0]);
    let spreads: Vec<i128> = region.lines.iter().map(|line| line.spread).collect();
    assert_eq!(spreads, [2_000, 1_000, 1_000, 1_000, -1_000, 0]);
    let weights: Vec<Cents> = region.lines.iter().map(weight).collect();
    assert_eq!(weights, [120_000, 30_000, 30_000, 10_000, 10_000, 0]);
    let settlement = settled(&hour_file);
    assert_eq!(settlement.income, 200_000);
    assert_eq!(settlement.line_shares, weights);
}

#[test]
fn three_zone_hour_with_a_dear_third_zone() {
    let hour_file = file::read(&bytes(FLOW_BASED_FILE)).unwrap();
    assert_eq!(region_of(&hour_file).unwrap().hub_price, Some(4_000));
    let settlement = settled(&hour_file);
    assert_eq!(settlement.income, 200_000);
    assert_eq!(settlement.weights, [120_000, 90_000, 30_000, 10_000, 10_000, 0]);
    assert_eq!(settlement.line_shares, [92_307, 69_231, 23_077, 7_692, 7_693, 0]);
}

#[test]
fn negative_income_over_three_owners() {
    let mut hour_file = file::read(&bytes(SAMPLE)).unwrap();
    hour_file.prices = vec![1_500, 1_000];
    hour_file.network.net_positions = vec![2, -2];
    hour_file.network.borders[0].capacity = 2;
    let mut third = hour_file.ownership.lines[0][0].owner_rows[0];
    (third.owner, third.key) = (3, 0);
    hour_file.ownership.lines[0][0].owner_rows.push(third);
    let settlement = settled(&hour_file);
    assert_eq!(settlement.income, -100);
    assert_eq!(settlement.weights, [100]);
    assert_eq!(settlement.line_shares, [0]);
    let amounts: Vec<Cents> = settlement.amounts.iter().map(|owned| owned.amount).collect();
    assert_eq!(amounts, [-33, -33, -34]);
}
