//! What is owed by declared sets (5.3, 5.10), and that no declared replica waits where nothing is (17.20).

use reference::append::{Request, Writer};
use reference::audit::audit;
use reference::directing::clinics;
use reference::directory::{eight, Directory};
use reference::log::{check, owed, MOST_SETS};
use reference::random::{directory, History, Mix, Random};
use reference::replica::{play, Record};
use reference::sample::*;
use reference::slot::{slot_at, Kind, ABORT, COMMIT, SLOT};
use reference::table::CELL;
use reference::Answer::{self, Done};

fn refused<T>(number: u32) -> Answer<T> {
    Answer::Refused { number, told: None }
}

fn refused_at<T>(number: u32, told: u64) -> Answer<T> {
    Answer::Refused {
        number,
        told: Some(told),
    }
}

/// Owed of a log of the eight, all of whose slots are used.
fn owed_of(log: &[u8], sets: &[u64]) -> Answer<Option<u64>> {
    owed(eight(), log, log.len() / SLOT, sets)
}

/// An order that reads the north depot, which is not marked: a van that hosts orders alone stalls at it.
fn stall() -> Vec<Request> {
    vec![update(9, &[put(5, 1, 1)]), commit(9, &[read(2, 7, 0)])]
}

#[test]
fn owed_by_who_hosts_what() {
    let log = log_of(&stall());
    for (sets, due) in [
        (&[16][..], Some(1)),
        (&[18], None),
        (&[2], None),
        (&[], None),
        (&[18, 16], Some(1)),
        (&[16, 18], Some(1)),
        (&[18, 2, 18], None),
        (&[255], None),
        (&[1, 2, 4, 8, 32, 64, 128], None),
        (&[255 - 2], Some(1)),
        (&[255 - 16], None),
    ] {
        assert_eq!(owed_of(&log, sets), Done(due), "{sets:?}");
    }
}

/// A mark makes nothing owed: the same objects read, marked or not.
#[test]
fn marks_are_not_asked() {
    let marked = log_of(&[update(9, &[put(3, 1, 1)]), commit(9, &[read(3, 1, 0)])]);
    assert_eq!(owed_of(&marked, &[255]), Done(None));
    assert_eq!(owed_of(&marked, &[4]), Done(None));
    assert_eq!(owed_of(&marked, &[]), Done(None));
    let log = log_of(&stall());
    for place in 0..8 {
        let mut dir = eight().to_vec();
        dir[16 * place + 13] ^= 1;
        // nor does the audit ask
        let (mut one, mut other) = ([0; CELL], [0; CELL]);
        let audits = (
            audit(eight(), &log, 2, &mut one),
            audit(&dir, &log, 2, &mut other),
        );
        assert_eq!((audits.0, one), (audits.1, other));
        assert_eq!(owed(&dir, &log, 2, &[16]), Done(Some(1)));
        assert_eq!(owed(&dir, &log, 2, &[18]), Done(None));
        // a mark is judged nevertheless
        dir[16 * place + 13] = 2;
        assert_eq!(owed(&dir, &log, 2, &[16]), refused_at(15, place as u64));
    }
}

/// A decision pays, whatever its outcome is and wherever below the tail it stands.
#[test]
fn a_decision_pays() {
    for outcome in [COMMIT, ABORT] {
        let mut requests = stall();
        requests.push(update(0, &[put(2, 1, 1)]));
        requests.push(decision(1, outcome));
        let log = log_of(&requests);
        assert_eq!(owed_of(&log, &[16]), Done(None));
        assert_eq!(owed(eight(), &log, 3, &[16]), Done(Some(1)));
    }
}

#[test]
fn the_lowest_of_several() {
    let mut requests = vec![
        update(1, &[put(2, 1, 1)]),
        update(2, &[put(5, 2, 1), put(3, 2, 1)]),
        update(3, &[put(5, 3, 1)]),
        commit(1, &[read(5, 1, 0)]),
        commit(2, &[read(3, 1, 0), read(5, 1, 0)]),
        commit(3, &[read(2, 1, 0), read(5, 1, 0)]),
    ];
    let log = log_of(&requests);
    assert_eq!(owed_of(&log, &[2, 4, 16]), Done(Some(3)));
    assert_eq!(owed_of(&log, &[16, 4]), Done(Some(4)));
    assert_eq!(owed_of(&log, &[20]), Done(Some(5)));
    assert_eq!(owed_of(&log, &[20, 2]), Done(Some(3)));
    assert_eq!(owed_of(&log, &[22]), Done(None));
    assert_eq!(owed(eight(), &log, 5, &[20]), Done(None));
    requests.push(decision(4, COMMIT));
    let log = log_of(&requests);
    assert_eq!(owed_of(&log, &[16, 4]), Done(Some(5)));
    assert_eq!(owed_of(&log, &[4]), Done(None));
    requests.push(decision(5, COMMIT));
    assert_eq!(owed_of(&log_of(&requests), &[16, 4]), Done(None));
}

/// An empty read set owes nobody. Twelve reads of three objects owe whoever lacks one of them.
#[test]
fn reads_of_none_and_of_many() {
    let none = log_of(&[update(7, &[put(5, 1, 1)]), commit(7, &[])]);
    assert_eq!(owed_of(&none, &[16, 1, 2]), Done(None));
    let reads: Vec<_> = [1, 2, 5]
        .into_iter()
        .flat_map(|object| (0..4).map(move |key| read(object, key, 0)))
        .collect();
    let log = log_of(&[update(7, &[put(8, 0, 1), put(5, 1, 1)]), commit(7, &reads)]);
    let all = 0b1_0011;
    for set in 1..256 {
        let due = (set & 0b1001_0000 != 0 && set & all != all).then_some(1);
        assert_eq!(owed_of(&log, &[set]), Done(due), "{set}");
        assert_eq!(owed_of(&log, &[255, set]), Done(due), "{set}");
    }
}

/// 3: a 17th set, an empty one, a bit past the directory; after 15, 1 and 2.
#[test]
fn bad_sets() {
    let log = log_of(&stall());
    assert_eq!(owed_of(&log, &[254; MOST_SETS]), Done(None));
    assert_eq!(owed_of(&log, &[16; MOST_SETS]), Done(Some(1)));
    assert_eq!(owed_of(&log, &[254; MOST_SETS + 1]), refused(3));
    assert_eq!(owed_of(&log, &[0; 1000]), refused(3));
    for set in [0, 256, 1 << 63, u64::MAX, 0x1FF] {
        for sets in [&[set][..], &[16, set], &[set, 16], &[1, set, 2]] {
            assert_eq!(owed_of(&log, sets), refused(3), "{sets:?}");
        }
    }
    let mut bad = log.clone();
    bad[SLOT + 3] = 99;
    assert_eq!(owed_of(&bad, &[0]), refused_at(2, 1));
    assert_eq!(owed(eight(), &log, 3, &[0]), refused(1));
    assert_eq!(owed(&eight()[1..], &log, 3, &[0]), refused_at(15, 0));
    assert_eq!(owed(eight(), &[], 0, &[256]), refused(3));
}

/// By place in the directory: bit 2 is the clinics' last map.
#[test]
fn sets_go_by_place() {
    let dir = clinics();
    let mut writer = Writer::over(Directory::of(&dir).unwrap(), 2);
    for request in [
        update(4, &[put(20, 0, 1)]),
        commit(4, &[read(10, 5, 0), read(20, 0, 0)]),
    ] {
        assert!(writer.append(&request).is_done());
    }
    for (set, due) in [
        (1, Done(None)),
        (2, Done(Some(1))),
        (3, Done(None)),
        (4, Done(None)),
        (6, Done(Some(1))),
        (7, Done(None)),
        (8, refused(3)),
    ] {
        assert_eq!(owed(&dir, &writer.log, 2, &[set]), due, "{set}");
    }
}

/// The sentence of 5.3 once more, for one commit record and any sets.
fn owes(directory: &Directory, log: &[u8], tail: usize, sets: &[u64], at: usize) -> bool {
    let slot = slot_at(log, at);
    let names = |later: usize| {
        let other = slot_at(log, later);
        other.kind() == Some(Kind::Decision) && other.verdict().commit == at as u64
    };
    let lacks = |set: u64| {
        let held = slot
            .headers()
            .filter(|header| directory.has(set, header.object));
        let reads_outside = !slot.reads().all(|read| directory.has(set, read.object));
        let names_outside = slot.names().any() && set != directory.everything();
        held.count() > 0 && (reads_outside || names_outside)
    };
    slot.kind() == Some(Kind::Commit) && sets.iter().any(|set| lacks(*set)) && !(0..tail).any(names)
}

fn declared(random: &mut Random, directory: &Directory) -> Vec<u64> {
    let all = directory.everything();
    let set = |random: &mut Random| match random.below(4) {
        0 => 1 << random.below(directory.objects().len() as u64),
        1 => all & !(1 << random.below(64)),
        2 => random.number() & random.number() & all,
        _ => random.number() & all,
    };
    let count = random.below(MOST_SETS as u64 + 1);
    let sets = (0..count).map(|_| set(random));
    sets.filter(|set| *set != 0).collect()
}

/// A history over any directory or the eight; half of them have decisions, false ones too.
fn history(seed: u64, random: &mut Random) -> History {
    let directory = match seed % 3 {
        0 => Directory::of(eight()).expect("the eight"),
        _ => directory(random),
    };
    let mix = Mix {
        broken: 0,
        ..Mix::rough().over(&directory, random, 6)
    };
    let mix = mix.naming([0, 30][seed as usize / 2 % 2]);
    let mut history = History::over(directory, seed, 60, mix);
    for _ in 0..40 {
        let request = history.request();
        if seed.is_multiple_of(2) || !matches!(request, Request::Decision { .. }) {
            history.append(request);
        }
    }
    history
}

/// Plays of any record that hosts the set, to the tail: whether one waits.
fn waits(dir: &[u8], log: &[u8], tail: usize, set: u64, random: &mut Random) -> bool {
    (0..3).any(|from| {
        let record = Record {
            hosted: set,
            position: random.below(1 + from * tail as u64 / 2),
            count: 0,
        };
        let mut table = vec![0; 100 * CELL];
        play(dir, log, tail, record, &mut table, tail as u64)
            .0
            .number()
            == 12
    })
}

/// Each answer is the lowest that owes by the sentence. The debts are paid one after another, each payment makes no other, and then no
/// declared replica waits; before, one that hosts a set for which something is owed does.
#[test]
fn none_waits_where_all_is_paid() {
    let (mut paid, mut waited, mut asked) = (0, 0, 0);
    for seed in 0..600 {
        let mut random = Random::new(seed ^ 0x0E);
        let History { mut writer, .. } = history(seed, &mut random);
        let dir = writer.directory.bytes();
        let sets = declared(&mut random, &writer.directory);
        let mut before: Option<Vec<usize>> = None;
        loop {
            let (log, tail) = (&writer.log, writer.tail);
            assert!(check(&dir, log, tail).is_done());
            let owing: Vec<usize> = (0..tail)
                .filter(|&at| owes(&writer.directory, log, tail, &sets, at))
                .collect();
            let lowest = owing.first().map(|at| *at as u64);
            assert_eq!(owed(&dir, log, tail, &sets), Done(lowest), "seed {seed}");
            for set in &sets {
                let alone = owed(&dir, log, tail, &[*set]) == Done(None);
                let stalls = waits(&dir, log, tail, *set, &mut random);
                assert!(!(alone && stalls), "seed {seed}, set {set}");
                waited += u32::from(stalls);
                asked += 1;
            }
            if let Some(before) = &before {
                assert_eq!(owing, before[1..], "seed {seed}");
            }
            let Some(offset) = lowest else { break };
            let outcome = 1 + random.below(2) as u32;
            if !writer.append(&decision(offset, outcome)).is_done() {
                break;
            }
            paid += 1;
            before = Some(owing);
        }
    }
    assert!(
        paid > 1000 && waited > 1000 && asked > 10_000,
        "{paid} {waited} {asked}"
    );
}
