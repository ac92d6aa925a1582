//! Sharing an amount over rows by their weights.

use crate::refusal::{refuse_if, Refusal};
use crate::units::*;

/// The shares of the rows, in order, into a memory of so many places.
pub fn share(amount: Cents, weights: &[i128], places: usize) -> Result<Vec<Cents>, Refusal> {
    assert!(amount >= 0 && weights.iter().all(|weight| *weight >= 0));
    let counted = counted_weights(weights);
    let whole: i128 = counted.iter().sum();
    refuse_if(places < weights.len(), 11)?;
    refuse_if(amount > LARGEST_AMOUNT || whole > LARGEST_WEIGHT_SUM, 12)?;
    Ok(differences(amount, &counted, whole))
}

/// If every weight is 0, each row counts with 1.
fn counted_weights(weights: &[i128]) -> Vec<i128> {
    if weights.iter().all(|weight| *weight == 0) {
        vec![1; weights.len()]
    } else {
        weights.to_vec()
    }
}

/// Each share is the difference of two rounded sums, so that the shares add to the amount.
fn differences(amount: Cents, counted: &[i128], whole: i128) -> Vec<Cents> {
    let mut shares = Vec::new();
    let mut sum = 0;
    for weight in counted {
        let before = rounded_down(amount * sum, whole);
        sum += weight;
        shares.push(rounded_down(amount * sum, whole) - before);
    }
    shares
}
