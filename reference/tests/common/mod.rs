//! The sample files of docs/HOUR-FILE.md.

#![allow(dead_code)]

use reference::record::{bytes_of, Record};

pub const SAMPLE: &str = "
    48 00 00 00 07 01 02
    5A 00 00 03 E8 00 00 00 64
    5A 00 00 05 DC FF FF FF 9C
    42 01 02 00 00 00 64
    4C 01 00 01
    4F 01 01 13 88
    4F 01 02 13 88
    45";

/// The three-zone hour with zone 3 at 6,000.
pub const FLOW_BASED_FILE: &str = "
    48 00 00 00 08 02 01
    5A 00 00 0B B8 00 00 03 E8  5A 00 00 13 88 FF FF FC 18  5A 00 00 17 70 00 00 00 00
    42 01 02 00 00 00 00  42 01 03 00 00 00 00  42 03 02 00 00 00 00
    4C 01 00 01  4C 02 00 01  4C 03 00 01  4C 04 00 01  4C 05 00 01  4C 06 00 01
    50 01 01 17 70  50 02 01 0B B8  50 03 01 0B B8
    4F 01 01 13 88  4F 01 02 13 88  4F 02 01 13 88
    4F 02 03 13 88  4F 03 03 13 88  4F 03 02 13 88
    4F 04 01 27 10  4F 05 02 27 10  4F 06 03 27 10
    45";

pub fn bytes(hex: &str) -> Vec<u8> {
    hex.split_whitespace().map(|byte| u8::from_str_radix(byte, 16).unwrap()).collect()
}

pub fn records(hex: &str) -> Vec<Record> {
    let bytes = bytes(hex);
    let mut rest = bytes.as_slice();
    let mut records = Vec::new();
    while let Some(record) = Record::first_of(rest) {
        rest = &rest[record.kind().length()..];
        records.push(record);
    }
    assert!(rest.is_empty());
    assert_eq!(bytes_of(&records), bytes);
    records
}

pub fn judged(bytes: &[u8]) -> String {
    String::from_utf8(reference::hourbook::judge(bytes)).unwrap()
}
