//! A second program for the rules in `docs/`, written from these documents alone.
//!
//! The way of an hour goes down this list: the bytes become records (`record`), the records a lawful
//! file with its tables (`file`), the tables a region (`region`), the region amounts of owners
//! (`settlement`, by `sharing`), the amounts entries of a book (`book`), and the book statements
//! (`hourbook`). `generate` makes hour files from seeds, `compare` and `batch` use them to test
//! another program.

pub mod batch;
pub mod book;
pub mod cases;
pub mod compare;
pub mod file;
pub mod generate;
pub mod hourbook;
pub mod record;
pub mod refusal;
pub mod region;
pub mod settlement;
pub mod sharing;
pub mod units;
