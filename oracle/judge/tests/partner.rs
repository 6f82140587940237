//! Document 02's No. 11 from the judge: yes for the due list alone, what is found at the first record that differs, and the refusals in their order.

use judge::Reading::{self, Absent, Different, Extra, Yes};
use judge::partner::{Record, accept, compared};
use judge::{Map, Pass, Rules, SPOT, Set, cases};

const M: &str = "00009040000080400000004000008040000080bf0000804000000000000000002c000000000101000000003f00000000";

/// The record of document 01's map M, its only spot.
fn spot() -> Record {
    core::array::from_fn(|k| u8::from_str_radix(&M[2 * k..2 * k + 2], 16).unwrap())
}

/// That record with another key and polarity.
fn at(key: u32, polarity: u8) -> Record {
    let mut record = spot();
    record[32..36].copy_from_slice(&key.to_le_bytes());
    record[38] = polarity;
    record
}

/// That record with one byte changed.
fn with(place: usize, value: u8) -> Record {
    let mut record = spot();
    record[place] = value;
    record
}

fn refused(number: u32, index: usize) -> Reading {
    Reading::Refused { number, index }
}

/// What the reader is given beside a list.
struct Given {
    record: Vec<u8>,
    thresholds: [f32; 5],
    rows: usize,
    octave: usize,
    levels: [Vec<f32>; 4],
}

/// Map M, its set and its thresholds.
fn given() -> Given {
    let input = cases::map_m(None);
    let floats = |from: usize, count: usize| -> Vec<f32> {
        let words = input[from..from + 4 * count].as_chunks().0;
        words.iter().map(|word| f32::from_le_bytes(*word)).collect()
    };
    Given {
        record: Set::t().to_record().to_vec(),
        thresholds: core::array::from_fn(|k| floats(528, 5)[k]),
        rows: 9,
        octave: 0,
        levels: core::array::from_fn(|k| floats(560 + 360 * k, 90)),
    }
}

/// What the reader says of a list.
fn read(given: &Given, list: &[u8]) -> Reading {
    let map = Map {
        thresholds: given.thresholds.into(),
        rows: given.rows,
        cols: 10,
        octave: given.octave,
        levels: [0, 1, 2, 3].map(|k| given.levels[k].as_slice()),
    };
    accept(Rules::Document, Pass::Reference, &given.record, map, list)
}

#[test]
fn lists_beside_a_list() {
    let (a, b, c, d) = (at(3, 1), at(7, 0), at(7, 1), at(9, 1));
    let due = [a, b, c];
    let cases: [(&[Record], Reading); 16] = [
        (&[a, b, c], Yes),
        (&[], Absent(0)),
        (&[a], Absent(1)),
        (&[a, b], Absent(2)),
        (&[a, b, c, c], Extra(3)),
        (&[a, b, c, a], Extra(3)),
        (&[a, b, c, d], Extra(3)),
        (&[a, a, b, c], Extra(1)),
        (&[a, b, b, c], Extra(2)),
        (&[a, c], Absent(1)),
        (&[a, c, b], Absent(1)),
        (&[a, b, d], Absent(2)),
        (&[b, c], Absent(0)),
        (&[at(2, 1), a, b, c], Extra(0)),
        (&[at(3, 0), a, b, c], Extra(0)),
        (&[a, at(4, 1), b, c], Extra(1)),
    ];
    for (given, finding) in cases {
        assert_eq!(compared(&due, given), finding, "{given:?}");
    }
    assert_eq!(compared(&[], &[]), Yes);
    assert_eq!(compared(&[], &[a]), Extra(0));
}

#[test]
fn each_byte_beside_map_m() {
    let (given, sound) = (given(), spot());
    assert_eq!(read(&given, &sound), Yes);
    for place in 0..SPOT {
        let finding = match place {
            32 => Absent(0),
            33..36 | 38 | 39 => continue,
            _ => Different(0),
        };
        // the lowest bit but where it would make the record bad
        let changed = match place {
            37 => 2,
            3 | 7 => 0x3f,
            _ => sound[place] ^ 1,
        };
        assert_eq!(read(&given, &with(place, changed)), finding, "byte {place}");
    }
    assert_eq!(read(&given, &with(32, 43)), Extra(0));
    assert_eq!(read(&given, &with(38, 0)), Extra(0));
    // a zero of the other sign: delta y
    assert_eq!(read(&given, &with(47, 128)), Different(0));
}

#[test]
fn a_bad_record_wherever_it_stands() {
    let (given, sound) = (given(), spot());
    for (place, value) in [
        (39, 1),
        (36, 6),
        (37, 3),
        (38, 2),
        (35, 1),
        (43, 64),
        (3, 193),
    ] {
        let bad = with(place, value);
        let other = with(12, 1);
        for (list, index) in [
            (vec![bad], 0),
            (vec![sound, bad], 1),
            (vec![bad, other], 0),
            (vec![other, sound, sound, bad], 3),
            (vec![other, bad, sound, bad], 1),
        ] {
            let told = read(&given, list.as_flattened());
            assert_eq!(told, refused(5, index), "byte {place}");
        }
    }
}

#[test]
fn refusals_in_their_order() {
    let mut given = given();
    let list = [with(39, 1), spot()].concat();
    given.record[525] = 1;
    given.thresholds[2] = f32::NAN;
    given.octave = 6;
    given.levels[3].push(0.0);
    given.rows = 4097;
    let cut = &list[..95];
    assert_eq!(read(&given, cut), refused(1, 0));
    given.rows = 9;
    assert_eq!(read(&given, cut), refused(2, 0));
    given.levels[3].pop();
    assert_eq!(read(&given, cut), refused(3, 0));
    given.octave = 0;
    assert_eq!(read(&given, cut), refused(8, 0));
    given.thresholds[2] = 10.0;
    assert_eq!(read(&given, cut), refused(4, 0));
    given.record[525] = 0;
    assert_eq!(read(&given, cut), refused(5, 1));
    assert_eq!(read(&given, &list), refused(5, 0));
    assert_eq!(read(&given, &list[48..]), Yes);
    given.octave = 3;
    assert_eq!(read(&given, &list[48..]), Different(0));
    given.record.push(0);
    assert_eq!(read(&given, &list[48..]), refused(4, 0));
}
