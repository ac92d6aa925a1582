//! Settling: a region's income, the weights of its lines, and the amounts of the owners.

use crate::file::{Leg, Ownership};
use crate::refusal::{refuse_if, Refusal};
use crate::region::{Line, Region};
use crate::sharing::share;
use crate::units::*;

/// What an accepted settling finds.
#[derive(Clone, Debug)]
pub struct Settlement {
    pub income: Cents,
    pub weights: Vec<Cents>,
    /// All 0 if the income is below 0.
    pub line_shares: Vec<Cents>,
    /// One for each entry of the book, in order.
    pub amounts: Vec<OwnerAmount>,
}

/// Line and leg are 0 in a share of a negative income.
#[derive(Clone, Copy, Debug, PartialEq, Eq)]
pub struct OwnerAmount {
    pub line: LineNumber,
    pub leg: LegNumber,
    pub owner: u8,
    pub amount: Cents,
}

/// Settles a sound region; reasons 10, 11, 12. `work_places` is the length of the work memory.
pub fn settle(
    region: &Region,
    ownership: &Ownership,
    work_places: usize,
) -> Result<Settlement, Refusal> {
    refuse_if(region.lines.len() != ownership.lines.len(), 10)?;
    refuse_if(work_places < 2 * region.lines.len(), 11)?;
    let income = income(region);
    let weights: Vec<Cents> = region.lines.iter().map(weight).collect();
    let weight_sum: Cents = weights.iter().sum();
    refuse_if(income.abs() > LARGEST_AMOUNT || weight_sum > LARGEST_WEIGHT_SUM, 12)?;

    if income < 0 {
        let line_shares = vec![0; weights.len()];
        let amounts = shares_of_a_deficit(-income, ownership)?;
        Ok(Settlement { income, weights, line_shares, amounts })
    } else {
        let line_shares = share(income, &weights, weights.len())?;
        let amounts = shares_of_lines(&line_shares, ownership)?;
        Ok(Settlement { income, weights, line_shares, amounts })
    }
}

/// The sum is taken, negated and divided, and then rounded once.
pub fn income(region: &Region) -> Cents {
    let sum: i128 = region.zones.iter().map(|zone| zone.net_position * zone.price).sum();
    rounded_down(-sum, INCOME_DIVISOR)
}

/// A magnitude: a flow against the spread counts as one along it.
pub fn weight(line: &Line) -> Cents {
    rounded_up((line.flow * line.spread).abs(), WEIGHT_DIVISOR)
}

fn shares_of_lines(
    line_shares: &[Cents],
    ownership: &Ownership,
) -> Result<Vec<OwnerAmount>, Refusal> {
    let mut amounts = Vec::new();
    for (index, legs) in ownership.lines.iter().enumerate() {
        let contributions: Vec<i128> = legs.iter().map(|leg| leg.contribution).collect();
        let leg_shares = share(line_shares[index], &contributions, legs.len())?;
        for (leg, leg_share) in legs.iter().zip(leg_shares) {
            amounts.extend(shares_of_a_leg(index + 1, leg, leg_share)?);
        }
    }
    Ok(amounts)
}

fn shares_of_a_leg(
    line: LineNumber,
    leg: &Leg,
    leg_share: Cents,
) -> Result<Vec<OwnerAmount>, Refusal> {
    let keys: Vec<i128> = leg.owner_rows.iter().map(|row| row.key).collect();
    let shares = share(leg_share, &keys, keys.len())?;
    let rows = leg.owner_rows.iter().zip(shares);
    Ok(rows
        .map(|(row, amount)| OwnerAmount { line, leg: leg.number, owner: row.owner, amount })
        .collect())
}

/// A negative income is borne by all owners of the region alike.
fn shares_of_a_deficit(deficit: Cents, ownership: &Ownership) -> Result<Vec<OwnerAmount>, Refusal> {
    let owners = ownership.owners();
    let shares = share(deficit, &vec![1; owners.len()], owners.len())?;
    let pairs = owners.into_iter().zip(shares);
    Ok(pairs
        .map(|(owner, amount)| OwnerAmount { line: 0, leg: 0, owner, amount: -amount })
        .collect())
}
