//! Directories: their bytes and the place at fault (1.9 to 1.13).

use reference::directory::{
    bytes_of, eight, fault, places, record_of, the_eight, Directory, HIGHEST_ID, HIGHEST_KEY,
    MOST_RECORDS, RECORD,
};
use reference::objects::{Object, Structure};
use reference::Refusal;

fn map(id: u32, highest_key: u32) -> Object {
    Object {
        id,
        structure: Structure::Map,
        highest_key,
        marked: false,
    }
}

fn register(id: u32) -> Object {
    Object {
        id,
        structure: Structure::Register,
        highest_key: 0,
        marked: true,
    }
}

/// So many maps, with the ids 1, 3, 5 and so on.
fn maps(count: u32) -> Vec<u8> {
    let objects: Vec<Object> = (0..count).map(|place| map(2 * place + 1, 9)).collect();
    bytes_of(&objects)
}

fn with_byte(bytes: &[u8], at: usize, value: u8) -> Vec<u8> {
    let mut changed = bytes.to_vec();
    changed[at] = value;
    changed
}

#[test]
fn the_eight_are_the_table_of_the_depots() {
    let rows: Vec<(u32, bool, u32, bool)> = the_eight()
        .objects()
        .iter()
        .map(|object| {
            let is_map = object.structure == Structure::Map;
            (object.id, is_map, object.highest_key, object.marked)
        })
        .collect();
    let due = [
        (1, true, 9999, true),
        (2, true, 499, false),
        (3, true, 499, true),
        (4, true, 499, true),
        (5, true, 9999, false),
        (6, false, 0, true),
        (7, false, 0, false),
        (8, false, 0, false),
    ];
    assert_eq!(rows, due);
    assert_eq!(eight().len(), 128);
    assert_eq!(the_eight().bytes(), eight());
    assert_eq!(
        the_eight().everything(),
        0xFF,
        "all n objects are 2^n less 1"
    );
    let line: Vec<String> = eight()[..RECORD]
        .iter()
        .map(|byte| format!("{byte:02X}"))
        .collect();
    assert_eq!(line.concat(), "4F420000000000010000270F01010000");
}

/// The examples of 1.12, 16.5 and the like.
#[test]
fn missing_and_cut_records_are_at_fault_where_they_begin() {
    let eight = eight();
    assert_eq!(fault(eight), None);
    assert_eq!(fault(&[]), Some(0));
    for length in 1..RECORD {
        assert_eq!(fault(&eight[..length]), Some(0), "{length} bytes");
    }
    assert_eq!(fault(&eight[..16]), None);
    assert_eq!(fault(&eight[..17]), Some(1));
    assert_eq!(fault(&eight[..127]), Some(7));
    for more in 1..=RECORD {
        let junk = vec![0; more];
        assert_eq!(fault(&[eight, &junk].concat()), Some(8), "{more} more");
    }
    assert_eq!(fault(&[eight, &[0x4F]].concat()), Some(8));
}

#[test]
fn a_65th_record_is_at_fault() {
    assert_eq!(fault(&maps(64)), None);
    assert_eq!(fault(&maps(65)), Some(64));
    assert_eq!(fault(&maps(70)), Some(64));
    assert_eq!(fault(&maps(100_000)), Some(64));
    for more in 1..=RECORD {
        let cut = &maps(65)[..64 * RECORD + more];
        assert_eq!(fault(cut), Some(64), "64 records and {more} bytes");
    }
    assert_eq!(fault(&maps(64)[..64 * RECORD - 1]), Some(63));
    let third_bad = with_byte(&maps(70), 3 * RECORD, 0);
    assert_eq!(fault(&third_bad), Some(3), "record 3 bad of 70");
    let last_bad = with_byte(&maps(70), 69 * RECORD, 0);
    assert_eq!(fault(&last_bad), Some(64), "record 69 bad of 70");
}

/// Every value of every byte of a record, at the first and the last place, beside what 1.10 and 1.11 allow there.
#[test]
fn each_byte_of_a_record_is_judged() {
    for place in [0, 63] {
        // The record before place 63 has id 125, that of place 63 has 127; the highest key is 9.
        let good = maps(64);
        let (least, id) = if place == 0 { (1, 1) } else { (126, 127) };
        for byte in 0..RECORD {
            for value in 0..=255_u8 {
                let changed = with_byte(&good, RECORD * place + byte, value);
                let number = |first: usize| {
                    let record = &changed[RECORD * place..];
                    u32::from_be_bytes(record[first..first + 4].try_into().unwrap())
                };
                let fine = match byte {
                    0 => value == 0x4F,
                    1 => value == 0x42,
                    2 | 3 | 14 | 15 => value == 0,
                    4..=7 => (least..=HIGHEST_ID).contains(&number(4)),
                    8..=11 => number(8) <= HIGHEST_KEY,
                    12 => value == 1,
                    _ => value <= 1,
                };
                let due = if fine { None } else { Some(place) };
                // A higher id at place 0 puts place 1 out of order.
                let due = match (place, byte) {
                    (0, 4..=7) if fine && number(4) >= 3 => Some(1),
                    _ => due,
                };
                assert_eq!(fault(&changed), due, "place {place}, byte {byte}, {value}");
            }
        }
        assert_eq!(good[RECORD * place + 7], id);
    }
}

#[test]
fn keys_and_kinds_at_their_edges() {
    let of = |object: Object| fault(&record_of(object));
    assert_eq!(of(map(1, 0)), None, "a map may have one key");
    assert_eq!(of(map(1, HIGHEST_KEY)), None);
    assert_eq!(of(map(1, u32::MAX)), Some(0));
    assert_eq!(of(register(1)), None);
    for highest_key in [1, 9, HIGHEST_KEY, u32::MAX] {
        let wrong = Object {
            highest_key,
            ..register(1)
        };
        assert_eq!(of(wrong), Some(0), "a register with keys to {highest_key}");
    }
    let kinds =
        (0..=255_u8).filter(|&kind| fault(&with_byte(&record_of(map(1, 0)), 12, kind)).is_none());
    assert_eq!(kinds.collect::<Vec<u8>>(), [1, 2]);
    let marks =
        (0..=255_u8).filter(|&mark| fault(&with_byte(&record_of(register(1)), 13, mark)).is_none());
    assert_eq!(marks.collect::<Vec<u8>>(), [0, 1]);
}

#[test]
fn ids_at_their_edges_and_out_of_order() {
    let of = |ids: &[u32]| {
        let objects: Vec<Object> = ids.iter().map(|&id| map(id, 5)).collect();
        fault(&bytes_of(&objects))
    };
    assert_eq!(of(&[0]), Some(0));
    assert_eq!(of(&[1]), None);
    assert_eq!(of(&[HIGHEST_ID]), None);
    assert_eq!(of(&[HIGHEST_ID + 1]), Some(0));
    assert_eq!(of(&[u32::MAX]), Some(0));
    assert_eq!(of(&[5, 3]), Some(1), "of two the later is at fault");
    assert_eq!(of(&[5, 5]), Some(1));
    assert_eq!(of(&[5, 6]), None);
    assert_eq!(of(&[7, 1000, HIGHEST_ID]), None);
    assert_eq!(of(&[7, HIGHEST_ID, HIGHEST_ID]), Some(2));
    assert_eq!(of(&[1, 9, 3, 4, 10]), Some(2), "3 is below 9");
    assert_eq!(of(&[1, 2, 3, 0]), Some(3));
    assert_eq!(of(&[0, 5, 3]), Some(0), "the first place at fault is told");
    for place in 1..MOST_RECORDS {
        let mut ids: Vec<u32> = (10..10 + MOST_RECORDS as u32).collect();
        ids[place] = ids[place - 1];
        assert_eq!(of(&ids), Some(place), "an id twice");
    }
}

#[test]
fn a_directory_reads_back() {
    let objects = [map(10, 99), register(20), map(HIGHEST_ID, HIGHEST_KEY)];
    let directory = Directory::of(&bytes_of(&objects)).unwrap();
    assert_eq!(directory.objects(), objects);
    let refusal = Refusal {
        number: 15,
        told: Some(1),
    };
    assert_eq!(Directory::of(&bytes_of(&objects)[..31]), Err(refusal));
    for (place, object) in objects.iter().enumerate() {
        assert_eq!(directory.place(object.id), Some(place));
        assert_eq!(directory.set_of(object.id), 1 << place);
        assert!(directory.is_cell(object.id, object.highest_key));
        assert!(!directory.is_cell(object.id, object.highest_key + 1));
    }
    for id in [
        0,
        1,
        2,
        3,
        9,
        11,
        19,
        21,
        HIGHEST_ID - 1,
        1 << 31,
        10 | 1 << 31,
    ] {
        assert_eq!(directory.place(id), None, "{id}");
        assert_eq!(directory.set_of(id), 0);
    }
    assert!(directory.is_marked(20) && !directory.is_marked(10));
    assert_eq!(directory.everything(), 7);
    assert_eq!(
        directory.ids(u64::MAX).collect::<Vec<u32>>(),
        [10, 20, HIGHEST_ID]
    );
    let hosts = (0..=16).filter(|&set| directory.can_host(set));
    assert_eq!(hosts.collect::<Vec<u64>>(), [1, 2, 3, 4, 5, 6, 7]);
    assert!(!directory.can_host(1 << 63));
}

#[test]
fn sets_of_64_objects() {
    let directory = Directory::of(&maps(64)).unwrap();
    assert_eq!(directory.everything(), u64::MAX);
    assert!(directory.can_host(u64::MAX) && directory.can_host(1 << 63));
    assert_eq!(directory.set_of(127), 1 << 63);
    assert_eq!(
        places(u64::MAX).collect::<Vec<usize>>(),
        (0..64).collect::<Vec<usize>>()
    );
    assert_eq!(places(0).count(), 0);
    assert_eq!(places(1 << 63 | 2).collect::<Vec<usize>>(), [1, 63]);
}

/// The bytes that the header file hands to C programs.
#[test]
fn the_header_file_prints_the_eight() {
    let header = include_str!("../../include/stocklog.h");
    let (_, after) = header
        .split_once("stocklog_eight[128] = {")
        .expect("the eight are there");
    let (table, _) = after.split_once("};").expect("their end");
    let bytes: Vec<u8> = table
        .lines()
        .flat_map(|line| line.split("/*").next().unwrap_or("").split(','))
        .map(str::trim)
        .filter(|word| !word.is_empty())
        .map(|word| match word.strip_prefix("0x") {
            Some(digits) => u8::from_str_radix(digits, 16).expect("a byte"),
            None => word.parse().expect("a byte"),
        })
        .collect();
    assert_eq!(bytes, eight());
}
