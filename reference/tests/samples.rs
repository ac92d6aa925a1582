//! The sample files of docs/HOUR-FILE.md, as they are and changed.

mod common;

use common::{bytes, judged, records, FLOW_BASED_FILE, SAMPLE};
use reference::file;
use reference::record::{bytes_of, Kind, Record};

const SAMPLE_OUTPUT: &str = "O 1\nC 7 1 1 1 2500\nB 2500\nO 2\nC 7 1 1 1 2500\nB 2500\n";

/// What is printed for the sample after a change of its records, numbered from 1.
fn changed(change: impl Fn(&mut Sample)) -> String {
    let mut sample = Sample(records(SAMPLE));
    change(&mut sample);
    judged(&bytes_of(&sample.0))
}

struct Sample(Vec<Record>);

impl Sample {
    fn set(&mut self, number: usize, record: Record) {
        self.0[number - 1] = record;
    }

    fn add_after(&mut self, number: usize, record: Record) {
        self.0.insert(number, record);
    }

    fn without(&mut self, kind: Kind) {
        self.0.retain(|record| record.kind() != kind);
    }

    fn method(&mut self, method: u8) {
        self.set(1, Record::Header { hour: 7, region: 1, method });
    }

    fn zones(&mut self, zones: [(i32, i32); 2]) {
        for (number, (price, net_position)) in (2..).zip(zones) {
            self.set(number, Record::Zone { price, net_position });
        }
    }

    fn capacity(&mut self, capacity: i32) {
        self.set(4, Record::Border { near: 1, far: 2, capacity });
    }

    fn far_zone(&mut self, far: u8) {
        self.set(4, Record::Border { near: 1, far, capacity: 100 });
    }
}

const EMPTY_ZONE: Record = Record::Zone { price: 0, net_position: 0 };
const BORDER: Record = Record::Border { near: 1, far: 2, capacity: 100 };

#[test]
fn the_sample() {
    assert_eq!(bytes(SAMPLE).len(), 47);
    assert_eq!(judged(&bytes(SAMPLE)), SAMPLE_OUTPUT);
}

#[test]
fn the_flow_based_file() {
    assert_eq!(bytes(FLOW_BASED_FILE).len(), 140);
    assert_eq!(
        judged(&bytes(FLOW_BASED_FILE)),
        "O 1\nC 8 2 1 1 46153\nC 8 2 2 2 34615\nC 8 2 4 4 7692\nB 88460\n\
         O 2\nC 8 2 1 1 46154\nC 8 2 3 3 11539\nC 8 2 5 5 7693\nB 65386\n\
         O 3\nC 8 2 2 2 34616\nC 8 2 3 3 11538\nC 8 2 6 6 0\nB 46154\n"
    );
}

#[test]
fn bytes_that_are_no_records() {
    let sample = bytes(SAMPLE);
    let mut small_letter = sample.clone();
    small_letter[0] = 0x68;
    assert_eq!(judged(&small_letter), "R 1 1\n");
    assert_eq!(judged(&sample[..45]), "R 1 7\n");
    assert_eq!(judged(&[&sample[..], &[0x0A]].concat()), "R 1 9\n");
    let many = [vec![b'E'; 65_535], vec![b'X']].concat();
    assert_eq!(judged(&many), "R 1 65536\n");
}

#[test]
fn only_the_first_65536_bytes_are_judged() {
    let many = [vec![b'E'; 65_536], vec![b'X']].concat();
    assert_eq!(judged(&many), "R 2 1\n");
}

#[test]
fn orders() {
    let sample = bytes(SAMPLE);
    assert_eq!(judged(&[]), "R 2 0\n");
    assert_eq!(judged(&sample[..46]), "R 2 0\n");
    assert_eq!(judged(&[&sample[..], b"E"].concat()), "R 2 9\n");

    let [header, end] = [records(SAMPLE)[0], Record::End];
    let table: [(&[Record], &str); 5] = [
        (&[end], "R 2 1\n"),
        (&[header, header, end], "R 2 2\n"),
        (&[header, EMPTY_ZONE, BORDER, EMPTY_ZONE, end], "R 2 4\n"),
        (&[header, EMPTY_ZONE, BORDER], "R 2 0\n"),
        (&[header, EMPTY_ZONE, BORDER, end, EMPTY_ZONE], "R 2 5\n"),
    ];
    for (records, expected) in table {
        assert_eq!(judged(&bytes_of(records)), expected);
    }
}

#[test]
fn counts() {
    assert_eq!(changed(|sample| sample.0.drain(1..7).for_each(drop)), "R 3 0\n");
    assert_eq!(changed(|sample| sample.without(Kind::Border)), "R 3 0\n");
    let zones_added =
        |count| changed(|sample| (0..count).for_each(|_| sample.add_after(3, EMPTY_ZONE)));
    assert_eq!(zones_added(14), SAMPLE_OUTPUT);
    assert_eq!(zones_added(15), "R 3 18\n");
    let no_zone = changed(|sample| {
        sample.without(Kind::Zone);
        (0..48).for_each(|_| sample.add_after(1, BORDER));
    });
    assert_eq!(no_zone, "R 3 50\n");
}

#[test]
fn ranges() {
    let without_border = |method| {
        changed(|sample| {
            sample.without(Kind::Border);
            sample.method(method);
        })
    };
    assert_eq!(without_border(3), "R 4 1\n");
    assert_eq!(changed(|sample| sample.method(3)), "R 4 1\n");
    assert_eq!(changed(|sample| sample.method(1)), "R 4 4\n");
    let hour_0 = Record::Header { hour: 0, region: 1, method: 2 };
    assert_eq!(changed(|sample| sample.set(1, hour_0)), "R 4 1\n");
    assert_eq!(changed(|sample| sample.zones([(500_001, 100), (1_500, -100)])), "R 4 2\n");
    let owner_and_name = changed(|sample| {
        sample.set(6, Record::OwnerRow { leg: 1, owner: 0, key: 5_000 });
        sample.far_zone(3);
    });
    assert_eq!(owner_and_name, "R 4 6\n");
}

#[test]
fn names() {
    assert_eq!(changed(|sample| sample.far_zone(3)), "R 5 4\n");
    assert_eq!(changed(|sample| sample.far_zone(1)), "R 5 4\n");
    let line_0 = Record::Leg { line: 0, contribution: 1 };
    assert_eq!(changed(|sample| sample.set(5, line_0)), "R 5 5\n");
    let leg_2 = Record::OwnerRow { leg: 2, owner: 2, key: 5_000 };
    assert_eq!(changed(|sample| sample.set(7, leg_2)), "R 5 7\n");
    let factor = Record::Factor { leg: 1, zone: 1, factor: 0 };
    assert_eq!(changed(|sample| sample.add_after(5, factor)), "R 5 6\n");
    let loss = Record::Loss { line: 1, loss: 0 };
    assert_eq!(changed(|sample| sample.add_after(5, loss)), SAMPLE_OUTPUT);
    let twice = changed(|sample| {
        sample.add_after(5, loss);
        sample.add_after(5, loss);
    });
    assert_eq!(twice, "R 5 7\n");
}

#[test]
fn legs_and_keys() {
    let no_contribution = Record::Leg { line: 1, contribution: 0 };
    assert_eq!(changed(|sample| sample.set(5, no_contribution)), "R 6 1\n");
    let one_more = Record::OwnerRow { leg: 1, owner: 2, key: 5_001 };
    assert_eq!(changed(|sample| sample.set(7, one_more)), "R 7 1\n");
    assert_eq!(changed(|sample| sample.add_after(5, no_contribution)), "R 7 2\n");
    // 75,536 is 10,000 modulo 65,536.
    let wrapping = changed(|sample| {
        sample.set(7, Record::OwnerRow { leg: 1, owner: 2, key: 536 });
        for _ in 0..7 {
            sample.add_after(7, Record::OwnerRow { leg: 1, owner: 2, key: 10_000 });
        }
    });
    assert_eq!(wrapping, "R 7 1\n");
}

#[test]
fn regions_and_limits() {
    assert_eq!(changed(|sample| sample.zones([(1_000, 100), (1_500, -99)])), "R 8 0\n");
    assert_eq!(changed(|sample| sample.zones([(1_000, 101), (1_500, -101)])), "R 8 0\n");
    let too_much = changed(|sample| {
        sample.zones([(0, 200_000), (200_000, -200_000)]);
        sample.capacity(200_000);
    });
    assert_eq!(too_much, "R 12 0\n");
}

#[test]
fn other_owners_and_prices() {
    let one_owner = Record::OwnerRow { leg: 1, owner: 1, key: 5_000 };
    assert_eq!(
        changed(|sample| sample.set(7, one_owner)),
        "O 1\nC 7 1 1 1 2500\nC 7 1 1 1 2500\nB 5000\n"
    );
    assert_eq!(
        changed(|sample| sample.zones([(5, 100), (5, -100)])),
        "O 1\nC 7 1 1 1 0\nB 0\nO 2\nC 7 1 1 1 0\nB 0\n"
    );
}

#[test]
fn negative_incomes() {
    let one_cent = changed(|sample| {
        sample.zones([(5, 1), (0, -1)]);
        sample.capacity(1);
    });
    assert_eq!(one_cent, "O 1\nC 7 1 0 0 0\nB 0\nO 2\nC 7 1 0 0 -1\nB -1\n");
    let three_owners = changed(|sample| {
        sample.zones([(1_500, 2), (1_000, -2)]);
        sample.capacity(2);
        sample.add_after(7, Record::OwnerRow { leg: 1, owner: 3, key: 0 });
    });
    assert_eq!(
        three_owners,
        "O 1\nC 7 1 0 0 -33\nB -33\nO 2\nC 7 1 0 0 -33\nB -33\nO 3\nC 7 1 0 0 -34\nB -34\n"
    );
}

#[test]
fn the_largest_lawful_file() {
    let mut records = vec![Record::Header { hour: 1, region: 1, method: file::FLOW_BASED }];
    records.extend([EMPTY_ZONE; 16]);
    records.extend([Record::Border { near: 1, far: 2, capacity: 0 }; 48]);
    records.extend((1..=64).map(|line| Record::Leg { line, contribution: 1 }));
    for leg in 1..=48 {
        records.extend((1..=16).map(|zone| Record::Factor { leg, zone, factor: 1 }));
    }
    records.extend((1..=64).map(|line| Record::Loss { line, loss: 1 }));
    for leg in 1..=64 {
        records.extend([Record::OwnerRow { leg, owner: leg, key: 5_000 }; 2]);
    }
    records.push(Record::End);
    let bytes = bytes_of(&records);
    assert_eq!(bytes.len(), 5_480);
    assert!(file::read(&bytes).is_ok());
}
