//! Demand 3 on random histories, and demand 1's "numbers of any kind".

use reference::append::{self, Request};
use reference::audit::audit;
use reference::directory::{eight, Directory};
use reference::log::{check, entry, header, items, list, next, owed, stretch};
use reference::objects::set_of;
use reference::price::price;
use reference::random::{directory, edge, faulty_directory, flip, junk, History, Mix, Random};
use reference::replica::{open_at, open_fresh, play, read_cell, Record};
use reference::run::Run;
use reference::sample::{put, read};
use reference::slot::{slot_at, Kind, Names, SLOT};
use reference::table::CELL;
use reference::Answer;

/// The run after each count.
fn runs(history: &History) -> Vec<Run> {
    let mut run = Run::new();
    let mut states = vec![run.clone()];
    for (request, answer) in &history.appends {
        run.feed(request, !answer.is_done());
        if answer.is_done() {
            states.push(run.clone());
        }
    }
    states
}

/// At position p the replica's cells are what the run had at count p, and its count is how many were written.
fn shows(directory: &Directory, record: &Record, table: &[u8], states: &[Run], keys: u32) {
    let dir = directory.bytes();
    let run = &states[record.position as usize];
    assert_eq!(record.count, run.written_of(directory, record.hosted));
    for object in directory.objects_of(record.hosted) {
        for near in 0..keys.min(object.highest_key + 1) {
            for key in [near, object.highest_key - near] {
                let shown = read_cell(&dir, record, table, object.id, key);
                assert_eq!(shown, Answer::Done(run.cell(object.id, key)));
            }
        }
    }
}

/// A replica waits exactly at a commit record of its objects whose reads it does not all host, or that names a number while it
/// does not host everything, and whose decision is not below the tail.
fn must_wait(directory: &Directory, log: &[u8], tail: usize, hosted: u64, at: usize) -> bool {
    let slot = slot_at(log, at);
    let decided = (0..tail).any(|later| {
        let other = slot_at(log, later);
        other.kind() == Some(Kind::Decision) && other.verdict().commit == at as u64
    });
    slot.kind() == Some(Kind::Commit)
        && slot
            .headers()
            .any(|header| directory.has(hosted, header.object))
        && (slot.reads().any(|read| !directory.has(hosted, read.object))
            || slot.names() != Names::NONE && hosted != directory.everything())
        && !decided
}

struct Counts {
    waits: u32,
    no_room: u32,
    opened: u32,
    plays: u32,
}

fn play_at_random(history: &History, random: &mut Random, counts: &mut Counts) {
    let (log, tail) = (&history.writer.log, history.writer.tail);
    let directory = &history.writer.directory;
    let dir = directory.bytes();
    let states = runs(history);
    let mut table = vec![0xAA; random.below(30) as usize * CELL + 5];
    let first_tail = random.below(tail as u64 + 1) as usize;
    let opened = if random.percent(40) {
        let checkpoints: Vec<u64> = (0..first_tail)
            .filter(|&at| slot_at(log, at).kind() == Some(Kind::Checkpoint))
            .map(|at| at as u64)
            .collect();
        let offset = random.pick(&checkpoints).unwrap_or(u64::MAX);
        open_at(&dir, log, first_tail, offset, &mut table)
    } else {
        open_fresh(&dir, random.number() & directory.everything())
    };
    let Answer::Done(mut record) = opened else {
        return;
    };
    counts.opened += 1;
    shows(directory, &record, &table, &states, history.mix.keys);
    for _ in 0..6 {
        let seen_tail = random.below(tail as u64 + 1) as usize;
        let stop = random.below(tail as u64 + 2);
        let before = (record, table.clone());
        let (answer, after) = play(&dir, log, seen_tail, record, &mut table, stop);
        counts.plays += 1;
        match answer.number() {
            0 => assert_eq!(after.position, stop),
            12 => {
                counts.waits += 1;
                let at = after.position as usize;
                assert!(after.position < stop);
                assert!(must_wait(directory, log, seen_tail, record.hosted, at));
            }
            13 => counts.no_room += 1,
            _ => assert_eq!((after, &table), (before.0, &before.1)),
        }
        // It passed no entry at which it had to wait.
        for at in before.0.position..after.position {
            assert!(!must_wait(
                directory,
                log,
                seen_tail,
                record.hosted,
                at as usize
            ));
        }
        record = after;
        shows(directory, &record, &table, &states, history.mix.keys);
    }
}

#[test]
fn replicas_of_audited_logs_show_the_run() {
    let mut counts = Counts {
        waits: 0,
        no_room: 0,
        opened: 0,
        plays: 0,
    };
    for seed in 0..400 {
        // A third are logs written before, with astray reads.
        let mix = match seed % 3 {
            0 => Mix::true_records().before(),
            _ => Mix::true_records(),
        };
        let mix = mix.naming([0, 40][seed as usize % 2]);
        let history = History::made(seed, 40, 50, Mix { broken: 10, ..mix });
        let (log, tail) = (&history.writer.log, history.writer.tail);
        let (answer, record) = audit(eight(), log, tail, &mut vec![0; 100 * CELL]);
        // A broken checkpoint may be a false one.
        if !answer.is_done() {
            continue;
        }
        assert_eq!(record.position, tail as u64);
        let mut random = Random::new(seed + 77);
        for _ in 0..6 {
            play_at_random(&history, &mut random, &mut counts);
        }
    }
    assert!(counts.opened > 1000 && counts.plays > 5000, "too few");
    assert!(counts.waits > 100 && counts.no_room > 100, "too few");
}

/// The same over directories of all kinds.
#[test]
fn replicas_over_any_directory_show_the_run() {
    let mut counts = Counts {
        waits: 0,
        no_room: 0,
        opened: 0,
        plays: 0,
    };
    let mut wide = 0;
    for seed in 0..500 {
        let mut random = Random::new(seed ^ 0xD4);
        let directory = directory(&mut random);
        let mix = match seed % 3 {
            0 => Mix::true_records().before(),
            _ => Mix::true_records(),
        };
        let mix = mix.over(&directory, &mut random, 8);
        let mix = mix.naming([0, 40][seed as usize % 2]);
        let mut history = History::over(directory, seed, 40, mix);
        for _ in 0..50 {
            history.step();
        }
        let (log, tail) = (&history.writer.log, history.writer.tail);
        let dir = history.writer.directory.bytes();
        let (answer, record) = audit(&dir, log, tail, &mut vec![0; 100 * CELL]);
        assert!(answer.is_done(), "seed {seed}: {answer:?}");
        let all = history.writer.directory.everything();
        assert_eq!((record.hosted, record.position), (all, tail as u64));
        wide += u32::from(all == u64::MAX);
        for _ in 0..6 {
            play_at_random(&history, &mut random, &mut counts);
        }
    }
    assert!(counts.opened > 1000 && counts.plays > 5000, "too few");
    assert!(counts.waits > 100 && counts.no_room > 100, "too few");
    assert!(wide > 30, "too few directories of 64");
}

#[test]
fn histories_have_all_kinds_and_refusals() {
    let mut numbers = [0; 17];
    let mut kinds = [0; 5];
    let mut audits = [0; 15];
    for seed in 0..300 {
        let mix = if seed % 3 == 0 {
            Mix::crowded()
        } else {
            Mix::rough()
        };
        let history = History::made(seed, 40, 60, mix);
        for (_, answer) in &history.appends {
            numbers[answer.number() as usize] += 1;
        }
        let (log, tail) = (&history.writer.log, history.writer.tail);
        for at in 0..tail {
            kinds[slot_at(log, at).kind().map_or(0, |kind| kind as usize)] += 1;
        }
        let (answer, _) = audit(eight(), log, tail, &mut vec![0; 100 * CELL]);
        audits[answer.number() as usize] += 1;
    }
    for number in [0, 3, 4, 5, 6, 7, 8, 9, 10, 13, 14, 16] {
        assert!(
            numbers[number] > 0,
            "no append answers {number}: {numbers:?}"
        );
    }
    assert!(numbers[16] > 200, "{numbers:?}");
    assert!(
        kinds[0] == 0 && kinds[1..].iter().all(|&count| count > 100),
        "{kinds:?}"
    );
    assert!(audits[0] > 20 && audits[11] > 20, "{audits:?}");
}

/// Commits by what they answer: most are accepted, and a good share is turned down for an astray read, at any place. What the run
/// shows of a cell is never astray, and where a log was written before no read is turned down.
#[test]
fn commits_are_accepted_and_astray() {
    for (mix, least, most) in [
        (Mix::true_records(), 3, 12),
        (Mix::rough(), 6, 25),
        (Mix::crowded(), 6, 25),
        (
            Mix {
                stale: 0,
                ..Mix::rough()
            },
            0,
            0,
        ),
        (Mix::rough().before(), 0, 0),
    ] {
        let (mut all, mut done, mut astray, mut later) = (0, 0, 0, 0);
        for seed in 0..200 {
            let mix = Mix { broken: 0, ..mix };
            for (request, answer) in History::made(seed, 100, 80, mix).appends {
                if !matches!(request, Request::Commit { .. }) {
                    continue;
                }
                all += 1;
                match answer {
                    Answer::Done(_) => done += 1,
                    Answer::Refused { number: 16, told } => {
                        astray += 1;
                        later += u32::from(told > Some(0));
                    }
                    Answer::Refused { told, .. } => assert_eq!(told, None),
                }
            }
        }
        assert!(done > 1000 && done * 100 > all * 50, "{done} of {all}");
        assert!(
            (least..=most).contains(&(astray * 100 / all)),
            "{astray} of {all}"
        );
        assert!(least == 0 || later * 5 > astray, "{later} of {astray}");
    }
}

/// What a replica shows of a cell may be read in any later commit: its version is never astray.
#[test]
fn shown_versions_are_never_astray() {
    let mut asked = 0;
    for seed in 0..150 {
        let history = History::made(seed, 30, 40, Mix::rough());
        let (log, tail) = (&history.writer.log, history.writer.tail);
        for position in 0..=tail {
            let mut table = vec![0; 40 * CELL];
            let fresh = open_fresh(eight(), 0xFF).done().unwrap();
            let (_, shown) = play(eight(), log, tail, fresh, &mut table, position as u64);
            for object in 1..=8 {
                let Answer::Done(cell) = read_cell(eight(), &shown, &table, object, 0) else {
                    panic!("object {object} is hosted");
                };
                // A new transaction's commit, over a log with room for it.
                let mut after = log[..tail * SLOT].to_vec();
                after.resize((tail + 2) * SLOT, 0);
                let number = 0xFFFF_0000;
                let items = put(1, 0, 1).bytes();
                let answer = append::update(eight(), &mut after, tail, number, &items);
                assert_eq!(answer, Answer::Done(tail + 1));
                let reads = read(object, 0, cell.version()).bytes();
                let answer =
                    append::commit(eight(), &mut after, tail + 1, number, &reads, Names::NONE);
                assert_eq!(answer, Answer::Done(tail + 2));
                asked += u32::from(cell.version() > 0);
            }
        }
    }
    assert!(asked > 5000, "{asked}");
}

/// Every call on a log of any bytes, with numbers of any kind. Refused appends, openings and lists change nothing.
fn call_everything(dir: &[u8], log: &[u8], random: &mut Random) {
    let slots = (log.len() / SLOT) as u64;
    let tail = if random.percent(70) {
        random.below(slots + 1) as usize
    } else {
        edge(random) as usize
    };
    let (offset, other) = (edge(random), edge(random));
    let (small, word) = (random.below(10) as u32, other as u32);
    check(dir, log, tail);
    let sets = [any_set(random), any_set(random)];
    owed(dir, log, tail, &sets[..random.below(3) as usize]);
    for offset in [offset, random.below(slots + 2)] {
        let whole = entry(dir, log, tail, offset);
        assert_eq!(whole.number(), stretch(dir, log, tail, offset).number());
        assert!(whole.is_done() || items(dir, log, tail, offset).is_empty());
        header(dir, log, tail, offset, small);
        header(dir, log, tail, offset, word);
        for object in [small, word] {
            let (answer, reader) = next(dir, log, tail, object, offset);
            assert!(answer.is_done() || reader == offset);
        }
    }
    let mut lent = [7; 3];
    if !list(dir, log, tail, small, &mut lent).is_done() {
        assert_eq!(lent, [7; 3]);
    }
    let mut table = junk(random, 100);
    let record = Record {
        hosted: any_set(random),
        position: if random.percent(50) {
            offset
        } else {
            random.below(slots + 1)
        },
        count: if random.percent(50) {
            other
        } else {
            random.below(4)
        },
    };
    read_cell(dir, &record, &table, small, word);
    price(dir, &record, &table, small, &junk(random, 45));
    price(dir, &record, &table, small, &[]);
    let requests = [
        Request::Update {
            number: word,
            items: junk(random, 40),
        },
        Request::Commit {
            number: small,
            reads: junk(random, 40),
            names: Names::of(edge(random) as u32, edge(random) as u32),
        },
        Request::Decision {
            offset,
            outcome: small,
        },
        Request::Checkpoint {
            record,
            table: table.clone(),
            object: small,
        },
    ];
    for request in &requests {
        let mut after = log.to_vec();
        if !append::request(dir, &mut after, tail, request).is_done() {
            assert_eq!(after, log);
        }
    }
    let before = table.clone();
    if !open_at(dir, log, tail, offset, &mut table).is_done() {
        assert_eq!(table, before);
    }
    let (answer, left) = play(dir, log, tail, record, &mut table, random.below(slots + 1));
    assert!(
        left.hosted == record.hosted && (answer.is_done() || left.count <= record.count.max(4))
    );
    audit(dir, log, tail, &mut table);
}

#[test]
fn any_bytes_and_numbers_end_in_an_answer() {
    let mut random = Random::new(5);
    for seed in 0..3000 {
        let mut log = match random.below(4) {
            0 => junk(&mut random, 1000),
            _ => {
                let slots = random.below(9) as usize;
                let mix = Mix::rough().naming(30);
                History::made(seed, slots, 12, mix).writer.log
            }
        };
        if random.percent(20) {
            flip(&mut random, &mut log);
        }
        if random.percent(10) {
            log.pop();
        }
        call_everything(eight(), &log, &mut random);
    }
    assert_eq!(set_of(u32::MAX), 0);
}

/// Few bits, all of eight, or any.
fn any_set(random: &mut Random) -> u64 {
    match random.below(4) {
        0 => 1 << random.below(64),
        1 => random.number(),
        _ => random.number() & 0xFF,
    }
}

/// The same with directories of all kinds, faulty ones and ones of other logs.
#[test]
fn any_directory_ends_in_an_answer() {
    let mut random = Random::new(6);
    for seed in 0..3000 {
        let own = directory(&mut random);
        let mut dir = own.bytes();
        let slots = random.below(9) as usize;
        let mix = Mix::rough().over(&own, &mut random, 5).naming(30);
        let mut history = History::over(own, seed, slots, mix);
        for _ in 0..12 {
            history.step();
        }
        let mut log = history.writer.log;
        match random.below(6) {
            0 => dir = faulty_directory(&mut random),
            1 => dir = directory(&mut random).bytes(),
            2 => flip(&mut random, &mut dir),
            3 => flip(&mut random, &mut log),
            _ => {}
        }
        call_everything(&dir, &log, &mut random);
    }
}
