//! The run of the book in docs/RULES.md, section 13, and calls beside it.

mod common;

use common::{bytes, SAMPLE};
use reference::book::{Entry, EntryKind, OpenBook, Refused, RestingBook};
use reference::file::{self, HourFile};
use reference::hourbook::region_of;
use std::fmt::Debug;

/// The book that a refused call gives back.
fn refused<New: Debug, Book>(answer: Result<New, Refused<Book>>, number: u8) -> Book {
    match answer {
        Ok(new) => panic!("accepted with {new:?}"),
        Err(Refused { refusal, book }) => {
            assert_eq!((refusal.number, refusal.place), (number, 0));
            book
        }
    }
}

fn settle(
    book: OpenBook,
    hour_file: &HourFile,
    memory: &mut [Entry],
) -> Result<OpenBook, Refused<OpenBook>> {
    let region = region_of(hour_file).unwrap();
    book.settle(&region, &hour_file.ownership, &mut [0; 2], memory)
}

fn statement(book: &RestingBook, owner: i64, memory: &[Entry]) -> String {
    let mut text = [0; 200];
    let length = book.statement(owner, memory, &mut text).unwrap();
    String::from_utf8(text[..length].to_vec()).unwrap()
}

#[test]
fn run_of_the_book() {
    let hour_file = file::read(&bytes(SAMPLE)).unwrap();
    let mut memory = [Entry::BLANK; 6];

    let book = RestingBook::empty().open(7, &memory).unwrap();
    let book = settle(book, &hour_file, &mut memory).unwrap();
    assert_eq!(book.used(), 2);
    let book = refused(settle(book, &hour_file, &mut memory), 14);
    let book = book.post(&memory).unwrap();
    let book = refused(book.open(7, &memory), 15);
    let book = refused(book.pay(1, 2_501, &mut memory), 19);
    let book = book.pay(1, 2_000, &mut memory).unwrap();
    assert_eq!(book.used(), 3);
    let book = book.take_back(7, &mut memory).unwrap();
    assert_eq!(book.used(), 5);
    let book = refused(book.take_back(7, &mut memory), 17);
    let book = book.open(7, &memory).unwrap();
    let book = refused(book.post(&memory), 16);
    let book = refused(settle(book, &hour_file, &mut memory), 20);
    let book = book.drop(&memory).unwrap();
    assert_eq!(book.used(), 5);

    let text = statement(&book, 1, &memory);
    assert_eq!(text, "O 1\nC 7 1 1 1 2500\nP 0 0 0 0 -2000\nT 7 1 1 1 -2500\nB -2000\n");
    assert_eq!(text.len(), 59);
    assert_eq!(statement(&book, 64, &memory), "O 64\nB 0\n");
}

#[test]
fn order_of_the_reasons() {
    let hour_file = file::read(&bytes(SAMPLE)).unwrap();
    let region = region_of(&hour_file).unwrap();
    let mut memory = [Entry::BLANK; 2];
    let book = RestingBook::empty().open(7, &memory).unwrap();
    let book = settle(book, &hour_file, &mut memory).unwrap();
    // Work memory too short and the region already settled; then the latter and no free place.
    let book = refused(book.settle(&region, &hour_file.ownership, &mut [0], &mut memory), 11);
    let book = refused(settle(book, &hour_file, &mut memory), 14);
    let book = book.post(&memory).unwrap();
    // Entry memory too short and hour 0.
    let book = refused(book.open(0, &memory[..1]), 13);
    let book = refused(book.open(0, &memory), 15);
    let book = refused(book.pay(3, 5, &mut memory), 19);
    let book = refused(book.pay(65, 0, &mut memory), 18);
    let book = refused(book.pay(1, 5, &mut memory), 20);
    let number = |owner| book.statement(owner, &memory, &mut []).unwrap_err().number;
    assert_eq!(number(65), 18);
    assert_eq!(number(1), 21);
}

#[test]
fn an_hour_taken_back_can_be_settled_and_taken_back_again() {
    let hour_file = file::read(&bytes(SAMPLE)).unwrap();
    let mut memory = [Entry::BLANK; 8];
    let mut book = RestingBook::empty();
    for round in 1..=2 {
        let open = book.open(7, &memory).unwrap();
        book = settle(open, &hour_file, &mut memory).unwrap().post(&memory).unwrap();
        assert!(book.stands(7, &memory));
        book = book.take_back(7, &mut memory).unwrap();
        assert!(!book.stands(7, &memory));
        assert_eq!(book.used(), 4 * round);
        assert_eq!(book.balance(1, &memory), 0);
    }
}

#[test]
fn an_amount_out_of_range_reads_as_0() {
    let hour_file = file::read(&bytes(SAMPLE)).unwrap();
    let mut memory = [Entry::BLANK; 4];
    let book = RestingBook::empty().open(7, &memory).unwrap();
    let book = settle(book, &hour_file, &mut memory).unwrap().post(&memory).unwrap();
    memory[0].amount = i32::MIN;
    assert_eq!(statement(&book, 1, &memory), "O 1\nC 7 1 1 1 0\nB 0\n");
    let book = book.take_back(7, &mut memory).unwrap();
    assert_eq!((memory[2].kind, memory[2].amount), (EntryKind::TakenBack, 0));
    assert_eq!(book.balance(2, &memory), 0);
}
