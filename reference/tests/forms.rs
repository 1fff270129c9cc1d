//! The forms that carry their state, beside the calls that carry none.

use reference::directory::eight;
use reference::forms::{logs, output, readers, runs};
use reference::log::{list, Reader};
use reference::replica::{play, play_in_place};
use reference::Answer;

/// Making the vectors asserts that instalments leave what one play of the whole leaves.
#[test]
fn stored_forms_are_made() {
    assert!(!output().is_empty());
}

/// A reader moved on to its end gives the stream list.
#[test]
fn a_reader_gives_the_stream_list() {
    for case in readers() {
        for object in 0..=9 {
            let tail = case.tail as usize;
            let mut lent = vec![0; 64];
            let Answer::Done(count) = list(eight(), &case.log, tail, object, &mut lent) else {
                continue;
            };
            let mut reader = Reader {
                log: &case.log,
                next: 0,
            };
            let mut read = Vec::new();
            while let Answer::Done(Some(at)) = reader.read(eight(), tail, object) {
                read.push(at as u32);
            }
            assert_eq!(read, lent[..count], "{}", case.name);
            assert_eq!(reader.next, tail as u64, "{}", case.name);
        }
    }
}

/// A record moved on in place is the record that the ordinary call leaves, with its answers.
#[test]
fn in_place_is_by_value() {
    for (place, case) in logs().iter().enumerate() {
        for run in runs(case.tail, place) {
            let (mut moved, mut table) = (run.record, run.table.clone());
            let (mut at, mut other) = (run.record, run.table.clone());
            for (tail, stop) in run.instalments {
                let tail = tail as usize;
                let answer = play_in_place(eight(), &case.log, tail, &mut moved, &mut table, stop);
                let (said, left) = play(eight(), &case.log, tail, at, &mut other, stop);
                at = left;
                assert_eq!(
                    (answer, moved, &table),
                    (said, left, &other),
                    "{}",
                    case.name
                );
            }
        }
    }
}
