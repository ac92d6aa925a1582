//! Names of the quantities, their scales and limits, and the two roundings.
//!
//! Quantities are 128 bits wide, so that no sum or product of an hour comes near an overflow.

/// Cent per MWh.
pub type Price = i128;
/// Cent per MWh.
pub type Spread = i128;
/// 0.1 MW; above 0 is an export.
pub type NetPosition = i128;
/// 0.1 MW; above 0 is from the near zone to the far zone.
pub type Capacity = i128;
/// 0.00001 MW; above 0 leaves the near zone.
pub type Flow = i128;
/// One ten-thousandth.
pub type Factor = i128;
/// One ten-thousandth.
pub type Loss = i128;
/// One ten-thousandth.
pub type Key = i128;
/// A plain number.
pub type Contribution = i128;
/// Money: income, weight, share, amount, balance.
pub type Cents = i128;

/// Zones, lines and legs are numbered from 1, as in the hour file.
pub type ZoneNumber = usize;
pub type LineNumber = usize;
pub type LegNumber = usize;

/// A number of 0.1 MW times this is the same in flow units.
pub const FLOW_SCALE: i128 = 10_000;
/// Flow × spread over one hour, divided by this, is in cents.
pub const WEIGHT_DIVISOR: i128 = 100_000;
/// Net position × price over one hour, divided by this, is in cents.
pub const INCOME_DIVISOR: i128 = 10;
/// The keys of a leg add to this; a loss is divided by it.
pub const WHOLE: i128 = 10_000;
/// The largest magnitude of an income, an entry's amount, a payment.
pub const LARGEST_AMOUNT: Cents = 2_000_000_000;
/// The largest sum of weights in a sharing.
pub const LARGEST_WEIGHT_SUM: i128 = 4_000_000_000;
/// The largest sum of the magnitudes of a region's net positions.
pub const LARGEST_POSITION_SUM: NetPosition = 1_000_000;

/// The greatest whole number that is not greater than the quotient, for negative values too.
pub fn rounded_down(dividend: i128, divisor: i128) -> i128 {
    assert!(divisor > 0);
    dividend.div_euclid(divisor)
}

/// The least whole number that is not less than the quotient.
pub fn rounded_up(dividend: i128, divisor: i128) -> i128 {
    -rounded_down(-dividend, divisor)
}
