//! Each slot rule broken once is found at its entry; the stored vectors stay within their bounds.

use reference::append::{self, Writer};
use reference::audit::audit;
use reference::auditing::auditing;
use reference::broken::broken;
use reference::cases::{frames, good, reading, Case, Expected};
use reference::directory::eight;
use reference::log::{check, list, scan};
use reference::playing::playing;
use reference::random::{History, Mix};
use reference::slot::{slot_at, Kind, SLOT};
use reference::table::CELL;
use reference::Answer;

fn found(case: &Case) -> Expected {
    match check(eight(), &case.log, case.tail as usize) {
        Answer::Done(()) => Expected::Good,
        Answer::Refused {
            number: 1,
            told: None,
        } => Expected::Frame,
        Answer::Refused {
            number: 2,
            told: Some(at),
        } => Expected::Bad(at),
        other => panic!("{other:?}"),
    }
}

#[test]
fn the_cases_are_as_expected() {
    for case in reading() {
        if case.expected != Expected::Any {
            assert_eq!(found(&case), case.expected, "{}", case.name);
        }
    }
}

/// What comes of a log's commit records, each appended once more over the entries below it: how many are written as they are, and
/// how many have an astray read.
fn appended_again(log: &[u8], tail: usize) -> [u32; 2] {
    let mut counts = [0; 2];
    for at in (0..tail).filter(|&at| slot_at(log, at).kind() == Some(Kind::Commit)) {
        let entry = slot_at(log, at);
        let mut again = log.to_vec();
        again[at * SLOT..].fill(0x33);
        match append::commit(
            eight(),
            &mut again,
            at,
            entry.number(),
            entry.items(),
            entry.names(),
        ) {
            Answer::Done(after) => {
                assert_eq!(again[..after * SLOT], log[..after * SLOT]);
                counts[0] += 1;
            }
            Answer::Refused { number, told } => {
                assert!(number == 16 && told < Some(entry.item_count() as u64));
                counts[1] += 1;
            }
        }
    }
    counts
}

/// Stored logs have commit records with astray reads, from before 16 was told, and are good.
#[test]
fn logs_written_before_are_good() {
    let read = reading()
        .into_iter()
        .map(|case| (case.log, case.tail as usize));
    let played = playing().into_iter().chain(auditing()).map(|case| {
        let tail = case.log.len() / SLOT;
        (case.log, tail)
    });
    let (mut read_counts, mut played_counts) = ([0; 2], [0; 2]);
    for (counts, logs) in [
        (&mut read_counts, read.collect::<Vec<_>>()),
        (&mut played_counts, played.collect()),
    ] {
        for (log, tail) in logs {
            if check(eight(), &log, tail) == Answer::Done(()) {
                let of_log = appended_again(&log, tail);
                counts[0] += of_log[0];
                counts[1] += of_log[1];
            }
        }
    }
    assert!(read_counts[0] > 30 && read_counts[1] > 5, "{read_counts:?}");
    assert!(
        played_counts[0] > 100 && played_counts[1] > 20,
        "{played_counts:?}"
    );
}

#[test]
fn an_entry_is_judged_with_those_below_it_alone() {
    for case in broken() {
        if let Expected::Bad(at) = case.expected {
            assert_eq!(
                check(eight(), &case.log, at as usize),
                Answer::Done(()),
                "{}",
                case.name
            );
            let cut = (at as usize + 1) * SLOT;
            let bad = Answer::Refused {
                number: 2,
                told: Some(at),
            };
            assert_eq!(
                check(eight(), &case.log[..cut], at as usize + 1),
                bad,
                "{}",
                case.name
            );
        }
    }
}

#[test]
fn the_vectors_stay_within_their_bounds() {
    let cases = reading();
    let total: usize = cases.iter().map(|case| 8 + case.log.len()).sum();
    assert!(total < 262_144, "{total}");
    assert!(cases.iter().all(|case| case.log.len() <= 8_448));
    assert!(frames().len() + good().len() + broken().len() > 100);
}

fn lists_equal_scans(log: &[u8], tail: usize) {
    for object in 1..=8 {
        let mut lent = vec![0; tail];
        let count = list(eight(), log, tail, object, &mut lent).done().unwrap();
        let listed: Vec<usize> = lent[..count].iter().map(|at| *at as usize).collect();
        assert_eq!(listed, scan(log, tail, object));
    }
}

#[test]
fn the_stream_list_equals_a_plain_upward_scan() {
    for seed in 0..20 {
        let history = History::made(seed, 300, 300, Mix::rough());
        let Writer { log, tail, .. } = &history.writer;
        lists_equal_scans(log, *tail);
    }
}

#[test]
fn far_back_pointers() {
    let mut history = History::made(1, 70_000, 40, Mix::true_records().before());
    history.mix.objects = 0b1_0000;
    while history.writer.tail < 69_000 {
        history.step();
        history.appends.clear();
    }
    history.mix.objects = 0xFF;
    for _ in 0..200 {
        history.step();
    }
    let Writer { log, tail, .. } = &history.writer;
    assert_eq!(check(eight(), log, *tail), Answer::Done(()));
    let far = (0..*tail).flat_map(|at| slot_at(log, at).headers());
    assert_eq!(far.filter(|header| header.format == 1).count(), 7);
    lists_equal_scans(log, *tail);
    assert_eq!(
        audit(eight(), log, *tail, &mut vec![0; 100 * CELL]).0,
        Answer::Done(())
    );
}

#[test]
fn a_writer_answers_as_the_plain_calls() {
    for seed in 0..30 {
        let history = History::made(seed, 40, 80, Mix::rough());
        let mut log = vec![0; 40 * SLOT];
        let mut tail = 0;
        for (request, answer) in &history.appends {
            let before = log.clone();
            assert_eq!(append::request(eight(), &mut log, tail, request), *answer);
            match answer {
                Answer::Done(after) => tail = *after,
                Answer::Refused { .. } => assert_eq!(log, before),
            }
        }
        assert_eq!(log, history.writer.log);
        assert_eq!(check(eight(), &log, tail), Answer::Done(()));
    }
}

/// A good log with one byte changed is never taken for good where the changed bytes could not have been appended:
/// what reads alike is the same bytes, so the change shows in what is read.
#[test]
fn two_good_entries_that_read_alike_are_the_same_bytes() {
    for seed in 0..6 {
        let history = History::made(seed, 8, 12, Mix::true_records());
        let Writer { log, tail, .. } = &history.writer;
        let last = tail - 1;
        for at in last * SLOT..tail * SLOT {
            for change in [1, 2, 0x80, 0xFF] {
                let mut other = log.clone();
                other[at] ^= change;
                if check(eight(), &other, *tail).is_done() {
                    assert_ne!(read_back(&other, last), read_back(log, last), "byte {at}");
                }
            }
        }
    }
}

/// Kind, number, header objects and items, as an entry reads.
fn read_back(log: &[u8], at: usize) -> (Option<u32>, u32, Vec<u32>, &[u8]) {
    let slot = slot_at(log, at);
    let kind = slot.kind().map(|kind| kind as u32);
    let objects = slot.headers().map(|header| header.object).collect();
    (kind, slot.number(), objects, slot.items())
}
