//! Refusals: a number and a place.

use std::fmt;

/// Why a file or a call is refused.
#[derive(Clone, Copy, Debug, PartialEq, Eq)]
pub struct Refusal {
    pub number: u8,
    /// A record, a line or a leg, counted from 1. 0 means that there is none to name.
    pub place: usize,
}

impl Refusal {
    pub fn at(number: u8, place: usize) -> Refusal {
        Refusal { number, place }
    }

    pub fn without_place(number: u8) -> Refusal {
        Refusal { number, place: 0 }
    }
}

/// The printed form, without the end of the line.
impl fmt::Display for Refusal {
    fn fmt(&self, out: &mut fmt::Formatter) -> fmt::Result {
        write!(out, "R {} {}", self.number, self.place)
    }
}

/// Refuses with a number without place if the reason holds; lists of reasons are chains of these.
pub fn refuse_if(reason: bool, number: u8) -> Result<(), Refusal> {
    if reason {
        Err(Refusal::without_place(number))
    } else {
        Ok(())
    }
}
