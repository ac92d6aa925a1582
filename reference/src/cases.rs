//! Hour files with the results that they must have, and counts of these results.

use std::collections::BTreeMap;
use std::fmt;

use crate::generate;
use crate::hourbook::{self, MOST_BYTES};
use crate::refusal::Refusal;

/// The refusals from here on are those of a lawful file.
const FIRST_REFUSAL_OF_A_LAWFUL_FILE: u8 = 8;
const METHOD_OFFSET: usize = 6;

/// The file of a seed, and what hourbook has to print for it.
pub struct Case {
    pub seed: u64,
    pub file: Vec<u8>,
    pub outcome: Result<Vec<u8>, Refusal>,
}

impl Case {
    fn of_seed(seed: u64) -> Case {
        let file = generate::hour_file(seed, None);
        let outcome = hourbook::outcome(&file);
        Case { seed, file, outcome }
    }

    pub fn expected(&self) -> Vec<u8> {
        hourbook::printed(&self.outcome)
    }

    /// The bytes that are judged.
    pub fn judged(&self) -> &[u8] {
        &self.file[..self.file.len().min(MOST_BYTES)]
    }

    /// Whether the file keeps rules 1 to 7 and is settled by another method than this one.
    fn is_settled_by_another(&self, method: u8) -> bool {
        let lawful = match self.outcome {
            Ok(_) => true,
            Err(refusal) => refusal.number >= FIRST_REFUSAL_OF_A_LAWFUL_FILE,
        };
        lawful && self.file[METHOD_OFFSET] != method
    }
}

/// The cases of rising seeds. With a method, seeds whose file another method settles are left out;
/// files that break rules 1 to 7 stay, whatever their header says.
pub fn cases(first_seed: u64, method: Option<u8>) -> impl Iterator<Item = Case> {
    let left_out =
        move |case: &Case| method.is_some_and(|method| case.is_settled_by_another(method));
    (first_seed..).map(Case::of_seed).filter(move |case| !left_out(case))
}

/// How many cases had which outcome.
#[derive(Default)]
pub struct Tally {
    accepted: usize,
    refused: BTreeMap<u8, usize>,
}

impl Tally {
    pub fn add(&mut self, case: &Case) {
        match case.outcome {
            Ok(_) => self.accepted += 1,
            Err(refusal) => *self.refused.entry(refusal.number).or_default() += 1,
        }
    }

    pub fn accepted(&self) -> usize {
        self.accepted
    }

    pub fn refused(&self, number: u8) -> usize {
        self.refused.get(&number).copied().unwrap_or(0)
    }
}

impl fmt::Display for Tally {
    fn fmt(&self, out: &mut fmt::Formatter) -> fmt::Result {
        write!(out, "accepted {}", self.accepted)?;
        for (number, count) in &self.refused {
            write!(out, ", R {number}: {count}")?;
        }
        Ok(())
    }
}
