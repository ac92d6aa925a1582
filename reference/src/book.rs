//! The book: entries in a memory that the caller lends to each call.
//!
//! Each call lists its reasons to refuse first, in the order in which they are tried, and acts only
//! when none holds. A refused call gives the same book back.

use std::collections::BTreeSet;

use crate::file::Ownership;
use crate::refusal::{refuse_if, Refusal};
use crate::region::Region;
use crate::settlement::{self, Settlement};
use crate::units::*;

/// The largest number of used entries.
pub const MOST_PLACES: usize = 1_000_000;

#[derive(Clone, Copy, Debug, PartialEq, Eq)]
pub enum EntryKind {
    /// An owner's part of an income.
    Credit,
    /// A credit undone.
    TakenBack,
    /// A payment to an owner.
    Payment,
}

impl EntryKind {
    fn letter(self) -> char {
        match self {
            EntryKind::Credit => 'C',
            EntryKind::TakenBack => 'T',
            EntryKind::Payment => 'P',
        }
    }
}

/// One place of the entry memory.
#[derive(Clone, Copy, Debug, PartialEq, Eq)]
pub struct Entry {
    pub kind: EntryKind,
    pub hour: u32,
    pub region: u8,
    pub line: u8,
    pub leg: u8,
    pub owner: u8,
    pub amount: i32,
}

impl Entry {
    /// Contents for memory that nothing has been written to.
    pub const BLANK: Entry = Entry {
        kind: EntryKind::Payment,
        hour: 0,
        region: 0,
        line: 0,
        leg: 0,
        owner: 0,
        amount: 0,
    };

    /// The amount as read: the memory may hold anything, and what is out of range counts as 0.
    fn amount_read(&self) -> Cents {
        let amount = Cents::from(self.amount);
        if amount.abs() <= LARGEST_AMOUNT {
            amount
        } else {
            0
        }
    }

    fn is_credit_or_taken_back(&self, hour: u32) -> bool {
        self.hour == hour && self.kind != EntryKind::Payment
    }
}

/// A book in which every used entry counts.
#[derive(Debug, PartialEq, Eq)]
pub struct RestingBook {
    counting: usize,
}

/// A book with an open hour, whose new entries are pending.
#[derive(Debug, PartialEq, Eq)]
pub struct OpenBook {
    hour: u32,
    counting: usize,
    pending: usize,
    settled_regions: BTreeSet<u8>,
}

/// A refused call: the reason, and the book as it was.
#[derive(Debug, PartialEq, Eq)]
pub struct Refused<Book> {
    pub refusal: Refusal,
    pub book: Book,
}

impl RestingBook {
    pub fn empty() -> RestingBook {
        RestingBook { counting: 0 }
    }

    pub fn used(&self) -> usize {
        self.counting
    }

    pub fn open(self, hour: u32, memory: &[Entry]) -> Result<OpenBook, Refused<RestingBook>> {
        match self.may_open(hour, memory) {
            Err(refusal) => Err(Refused { refusal, book: self }),
            Ok(()) => Ok(OpenBook {
                hour,
                counting: self.counting,
                pending: 0,
                settled_regions: BTreeSet::new(),
            }),
        }
    }

    fn may_open(&self, hour: u32, memory: &[Entry]) -> Result<(), Refusal> {
        refuse_if(memory.len() < self.counting, 13)?;
        refuse_if(hour == 0 || self.stands(hour, memory), 15)
    }

    /// Undoes the credits of a standing hour.
    pub fn take_back(
        self,
        hour: u32,
        memory: &mut [Entry],
    ) -> Result<RestingBook, Refused<RestingBook>> {
        match self.entries_to_take_back(hour, memory) {
            Err(refusal) => Err(Refused { refusal, book: self }),
            Ok(entries) => Ok(RestingBook { counting: write(&entries, self.counting, memory) }),
        }
    }

    fn entries_to_take_back(&self, hour: u32, memory: &[Entry]) -> Result<Vec<Entry>, Refusal> {
        refuse_if(memory.len() < self.counting, 13)?;
        refuse_if(!self.stands(hour, memory), 17)?;
        let of_hour: Vec<&Entry> = self
            .counting_entries(memory)
            .iter()
            .filter(|entry| entry.is_credit_or_taken_back(hour))
            .collect();
        // The credits after the last taken back one: the last run of the hour's entries.
        let last_run =
            of_hour.rsplit(|entry| entry.kind == EntryKind::TakenBack).next().unwrap_or_default();
        let entries: Vec<Entry> = last_run.iter().map(|entry| undone(entry)).collect();
        refuse_if(free(memory, self.counting) < entries.len(), 20)?;
        Ok(entries)
    }

    pub fn pay(
        self,
        owner: i64,
        amount: i64,
        memory: &mut [Entry],
    ) -> Result<RestingBook, Refused<RestingBook>> {
        match self.payment(owner, amount, memory) {
            Err(refusal) => Err(Refused { refusal, book: self }),
            Ok(entry) => Ok(RestingBook { counting: write(&[entry], self.counting, memory) }),
        }
    }

    fn payment(&self, owner: i64, amount: i64, memory: &[Entry]) -> Result<Entry, Refusal> {
        let amount = Cents::from(amount);
        refuse_if(memory.len() < self.counting, 13)?;
        let owner = known_owner(owner)?;
        let most = self.balance(owner, memory).min(LARGEST_AMOUNT);
        refuse_if(amount < 1 || amount > most, 19)?;
        refuse_if(free(memory, self.counting) < 1, 20)?;
        Ok(Entry { kind: EntryKind::Payment, owner, amount: narrow(-amount), ..Entry::BLANK })
    }

    /// Writes the owner's statement to the first bytes of `statement`; the answer is their number.
    pub fn statement(
        &self,
        owner: i64,
        memory: &[Entry],
        statement: &mut [u8],
    ) -> Result<usize, Refusal> {
        refuse_if(memory.len() < self.counting, 13)?;
        let text = self.statement_text(known_owner(owner)?, memory);
        refuse_if(statement.len() < text.len(), 21)?;
        statement[..text.len()].copy_from_slice(text.as_bytes());
        Ok(text.len())
    }

    fn statement_text(&self, owner: u8, memory: &[Entry]) -> String {
        let mut text = format!("O {owner}\n");
        for entry in self.entries_of(owner, memory) {
            let Entry { hour, region, line, leg, .. } = entry;
            let (letter, amount) = (entry.kind.letter(), entry.amount_read());
            text += &format!("{letter} {hour} {region} {line} {leg} {amount}\n");
        }
        text + &format!("B {}\n", self.balance(owner, memory))
    }

    fn counting_entries<'a>(&self, memory: &'a [Entry]) -> &'a [Entry] {
        &memory[..self.counting]
    }

    fn entries_of<'a>(&self, owner: u8, memory: &'a [Entry]) -> impl Iterator<Item = &'a Entry> {
        self.counting_entries(memory).iter().filter(move |entry| entry.owner == owner)
    }

    pub fn balance(&self, owner: u8, memory: &[Entry]) -> Cents {
        self.entries_of(owner, memory).map(Entry::amount_read).sum()
    }

    /// Whether the last credit or taken back entry of the hour is a credit.
    pub fn stands(&self, hour: u32, memory: &[Entry]) -> bool {
        let mut from_last = self.counting_entries(memory).iter().rev();
        let last = from_last.find(|entry| entry.is_credit_or_taken_back(hour));
        last.is_some_and(|entry| entry.kind == EntryKind::Credit)
    }
}

impl OpenBook {
    pub fn used(&self) -> usize {
        self.counting + self.pending
    }

    /// Settles a sound region. Refusals 8 and 9 come first of all, so that an unsound region, which
    /// building has already refused, needs no case here.
    pub fn settle(
        self,
        region: &Region,
        ownership: &Ownership,
        work: &mut [i64],
        memory: &mut [Entry],
    ) -> Result<OpenBook, Refused<OpenBook>> {
        match self.may_settle(region, ownership, work.len(), memory) {
            Err(refusal) => Err(Refused { refusal, book: self }),
            Ok(settlement) => {
                write_work(&settlement, work);
                Ok(self.with_entries_of(&settlement, ownership.region, memory))
            }
        }
    }

    fn may_settle(
        &self,
        region: &Region,
        ownership: &Ownership,
        work_places: usize,
        memory: &[Entry],
    ) -> Result<Settlement, Refusal> {
        let settlement = settlement::settle(region, ownership, work_places)?;
        refuse_if(memory.len() < self.used(), 13)?;
        refuse_if(self.settled_regions.contains(&ownership.region), 14)?;
        refuse_if(free(memory, self.used()) < settlement.amounts.len(), 20)?;
        Ok(settlement)
    }

    fn with_entries_of(
        mut self,
        settlement: &Settlement,
        region: u8,
        memory: &mut [Entry],
    ) -> OpenBook {
        let entry = |owned: &settlement::OwnerAmount| Entry {
            kind: EntryKind::Credit,
            hour: self.hour,
            region,
            line: owned.line as u8,
            leg: owned.leg as u8,
            owner: owned.owner,
            amount: narrow(owned.amount),
        };
        let entries: Vec<Entry> = settlement.amounts.iter().map(entry).collect();
        self.pending = write(&entries, self.used(), memory) - self.counting;
        self.settled_regions.insert(region);
        self
    }

    pub fn post(self, memory: &[Entry]) -> Result<RestingBook, Refused<OpenBook>> {
        match self.may_post(memory) {
            Err(refusal) => Err(Refused { refusal, book: self }),
            Ok(()) => Ok(RestingBook { counting: self.used() }),
        }
    }

    fn may_post(&self, memory: &[Entry]) -> Result<(), Refusal> {
        refuse_if(memory.len() < self.used(), 13)?;
        refuse_if(self.settled_regions.is_empty(), 16)
    }

    /// Gives up the pending entries; their places are free again and keep their contents.
    pub fn drop(self, memory: &[Entry]) -> Result<RestingBook, Refused<OpenBook>> {
        match refuse_if(memory.len() < self.used(), 13) {
            Err(refusal) => Err(Refused { refusal, book: self }),
            Ok(()) => Ok(RestingBook { counting: self.counting }),
        }
    }
}

/// Free places are never past place 1,000,000, however long the memory is.
fn free(memory: &[Entry], used: usize) -> usize {
    memory.len().min(MOST_PLACES) - used
}

/// Writes entries from the first free place on; the answer is the number of places used then.
fn write(entries: &[Entry], used: usize, memory: &mut [Entry]) -> usize {
    let after = used + entries.len();
    memory[used..after].copy_from_slice(entries);
    after
}

/// First the weights, then the line shares.
fn write_work(settlement: &Settlement, work: &mut [i64]) {
    let numbers = settlement.weights.iter().chain(&settlement.line_shares);
    for (place, number) in work.iter_mut().zip(numbers) {
        *place = i64::try_from(*number).expect("weights and shares are within 64 bits");
    }
}

fn undone(entry: &Entry) -> Entry {
    Entry { kind: EntryKind::TakenBack, amount: narrow(-entry.amount_read()), ..*entry }
}

fn known_owner(owner: i64) -> Result<u8, Refusal> {
    refuse_if(!(1..=64).contains(&owner), 18)?;
    Ok(owner as u8)
}

fn narrow(amount: Cents) -> i32 {
    assert!(amount.abs() <= LARGEST_AMOUNT);
    amount as i32
}
