//! The eight kinds of records and their bytes.

/// The kinds, in the order in which a file has them.
#[derive(Clone, Copy, Debug, PartialEq, Eq, PartialOrd, Ord)]
pub enum Kind {
    Header,
    Zone,
    Border,
    Leg,
    Factor,
    Loss,
    OwnerRow,
    End,
}

pub const KINDS: [Kind; 8] = [
    Kind::Header,
    Kind::Zone,
    Kind::Border,
    Kind::Leg,
    Kind::Factor,
    Kind::Loss,
    Kind::OwnerRow,
    Kind::End,
];

impl Kind {
    pub fn letter(self) -> u8 {
        match self {
            Kind::Header => b'H',
            Kind::Zone => b'Z',
            Kind::Border => b'B',
            Kind::Leg => b'L',
            Kind::Factor => b'P',
            Kind::Loss => b'N',
            Kind::OwnerRow => b'O',
            Kind::End => b'E',
        }
    }

    pub fn of_letter(letter: u8) -> Option<Kind> {
        KINDS.into_iter().find(|kind| kind.letter() == letter)
    }

    /// Bytes of a whole record, the kind included.
    pub fn length(self) -> usize {
        match self {
            Kind::Header => 7,
            Kind::Zone => 9,
            Kind::Border => 7,
            Kind::Leg => 4,
            Kind::Factor => 5,
            Kind::Loss => 4,
            Kind::OwnerRow => 5,
            Kind::End => 1,
        }
    }

    /// The most records of this kind, where the kind has a maximum of its own.
    pub fn most(self) -> Option<usize> {
        match self {
            Kind::Zone => Some(16),
            Kind::Border => Some(48),
            Kind::Leg => Some(64),
            Kind::OwnerRow => Some(128),
            Kind::Header | Kind::Factor | Kind::Loss | Kind::End => None,
        }
    }
}

/// A record with the fields as they lie in the file, lawful or not.
#[derive(Clone, Copy, Debug, PartialEq, Eq)]
pub enum Record {
    Header { hour: u32, region: u8, method: u8 },
    Zone { price: i32, net_position: i32 },
    Border { near: u8, far: u8, capacity: i32 },
    Leg { line: u8, contribution: u16 },
    Factor { leg: u8, zone: u8, factor: i16 },
    Loss { line: u8, loss: u16 },
    OwnerRow { leg: u8, owner: u8, key: u16 },
    End,
}

impl Record {
    pub fn kind(&self) -> Kind {
        match self {
            Record::Header { .. } => Kind::Header,
            Record::Zone { .. } => Kind::Zone,
            Record::Border { .. } => Kind::Border,
            Record::Leg { .. } => Kind::Leg,
            Record::Factor { .. } => Kind::Factor,
            Record::Loss { .. } => Kind::Loss,
            Record::OwnerRow { .. } => Kind::OwnerRow,
            Record::End => Kind::End,
        }
    }

    /// The record at the beginning of the bytes; none if the kind is unknown or the body cut short.
    pub fn first_of(bytes: &[u8]) -> Option<Record> {
        let kind = Kind::of_letter(*bytes.first()?)?;
        let record = bytes.get(..kind.length())?;
        let byte = |offset: usize| record[offset];
        let two = |offset: usize| [record[offset], record[offset + 1]];
        let four = |offset: usize| {
            [record[offset], record[offset + 1], record[offset + 2], record[offset + 3]]
        };
        Some(match kind {
            Kind::Header => Record::Header {
                hour: u32::from_be_bytes(four(1)),
                region: byte(5),
                method: byte(6),
            },
            Kind::Zone => Record::Zone {
                price: i32::from_be_bytes(four(1)),
                net_position: i32::from_be_bytes(four(5)),
            },
            Kind::Border => Record::Border {
                near: byte(1),
                far: byte(2),
                capacity: i32::from_be_bytes(four(3)),
            },
            Kind::Leg => Record::Leg { line: byte(1), contribution: u16::from_be_bytes(two(2)) },
            Kind::Factor => {
                Record::Factor { leg: byte(1), zone: byte(2), factor: i16::from_be_bytes(two(3)) }
            }
            Kind::Loss => Record::Loss { line: byte(1), loss: u16::from_be_bytes(two(2)) },
            Kind::OwnerRow => {
                Record::OwnerRow { leg: byte(1), owner: byte(2), key: u16::from_be_bytes(two(3)) }
            }
            Kind::End => Record::End,
        })
    }

    /// Adds the record's bytes at the end.
    pub fn write(&self, bytes: &mut Vec<u8>) {
        bytes.push(self.kind().letter());
        match *self {
            Record::Header { hour, region, method } => {
                bytes.extend(hour.to_be_bytes());
                bytes.extend([region, method]);
            }
            Record::Zone { price, net_position } => {
                bytes.extend(price.to_be_bytes());
                bytes.extend(net_position.to_be_bytes());
            }
            Record::Border { near, far, capacity } => {
                bytes.extend([near, far]);
                bytes.extend(capacity.to_be_bytes());
            }
            Record::Leg { line, contribution } => {
                bytes.push(line);
                bytes.extend(contribution.to_be_bytes());
            }
            Record::Factor { leg, zone, factor } => {
                bytes.extend([leg, zone]);
                bytes.extend(factor.to_be_bytes());
            }
            Record::Loss { line, loss } => {
                bytes.push(line);
                bytes.extend(loss.to_be_bytes());
            }
            Record::OwnerRow { leg, owner, key } => {
                bytes.extend([leg, owner]);
                bytes.extend(key.to_be_bytes());
            }
            Record::End => {}
        }
    }
}

/// The bytes of records one directly after the other.
pub fn bytes_of(records: &[Record]) -> Vec<u8> {
    let mut bytes = Vec::new();
    for record in records {
        record.write(&mut bytes);
    }
    bytes
}
