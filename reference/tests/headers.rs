//! How a header is read (4.5), and that reading it tells good from bad as the header rule does (4.1 to 4.3, 4.6).

use reference::directory::eight;
use reference::header::BackPointer::{self, At, Nothing, Past};
use reference::header::{distance, reads_as_due, EarlierOffset, Header, Nearest, FARTHEST};
use reference::log::{check, list};
use reference::random::{History, Mix, Random};
use reference::rules::pointers_good;
use reference::sample::*;
use reference::slot::{slot_at, SLOT};
use reference::Answer;

/// The header of 12 bytes, written in hex with spaces.
fn header(hex: &str) -> Header {
    let digits: String = hex.split(' ').collect();
    let bytes = u128::from_str_radix(&digits, 16).unwrap();
    assert_eq!(digits.len(), 24);
    Header::of((bytes >> 64) as u32, bytes as u64)
}

fn read(at: usize, hex: &str) -> [BackPointer; 4] {
    header(hex).back_pointers(at)
}

/// These earlier offsets and no more.
fn earlier(offsets: &[usize]) -> Nearest {
    let mut nearest = [EarlierOffset::NONE; 4];
    for (place, offset) in nearest.iter_mut().zip(offsets) {
        *place = EarlierOffset::at(*offset);
    }
    nearest
}

fn bad_at(at: u64) -> Answer<()> {
    Answer::Refused {
        number: 2,
        told: Some(at),
    }
}

/// The bytes are those due, and read so.
fn due(at: usize, offsets: &[usize], hex: &str, back: [BackPointer; 4]) {
    let nearest = earlier(offsets);
    assert_eq!(Header::made(2, at, &nearest), header(hex), "at {at}");
    assert_eq!(read(at, hex), back, "at {at}");
    assert!(pointers_good(header(hex), at, &nearest));
    assert!(reads_as_due(header(hex), at, &nearest));
}

/// The bytes read so and are not those due.
fn not_due(at: usize, offsets: &[usize], hex: &str, back: [BackPointer; 4]) {
    let nearest = earlier(offsets);
    assert_eq!(read(at, hex), back, "at {at}");
    assert!(!pointers_good(header(hex), at, &nearest));
    assert!(!reads_as_due(header(hex), at, &nearest));
}

const NONE: [BackPointer; 4] = [Nothing; 4];

fn only(first: BackPointer) -> [BackPointer; 4] {
    [first, Nothing, Nothing, Nothing]
}

/// A distance as it is stored (4.3): none, the nearest, the farthest, one too far, and to offset 0.
#[test]
fn distances() {
    let none = EarlierOffset::NONE;
    let to = EarlierOffset::at;
    let stored = [
        (70_000, none, 0),
        (70_000, to(69_999), 1),
        (70_000, to(4_465), 65_535),
        (70_000, to(4_464), 0),
        (65_535, to(0), 65_535),
        (65_536, to(0), 0),
        (131_071, none, 0),
        (131_071, to(65_536), 65_535),
        (131_071, to(65_535), 0),
    ];
    for (at, earlier, due) in stored {
        assert_eq!(distance(at, earlier), due, "at {at}");
    }
    // behind a nearest that is near, each of the others just in range and just out of it
    for place in 1..4 {
        let mut offsets = [69_999, 69_998, 69_997, 69_996];
        let mut distances = [1, 2, 3, 4];
        offsets[place] = 4_465;
        distances[place] = 65_535;
        for later in place + 1..4 {
            offsets[later] = 4_464 - later;
            distances[later] = 0;
        }
        let made = Header::made(2, 70_000, &earlier(&offsets));
        assert_eq!(
            [0, 1, 2, 3].map(|k| made.distance(k)),
            distances,
            "place {place}"
        );
        offsets[place] = 4_464;
        distances[place] = 0;
        let made = Header::made(2, 70_000, &earlier(&offsets));
        assert_eq!(
            [0, 1, 2, 3].map(|k| made.distance(k)),
            distances,
            "place {place}"
        );
    }
}

#[test]
fn headers_as_they_are_due() {
    due(0, &[], "00000002 0000 0000 0000 0000", NONE);
    let back = [At(3), At(2), At(1), At(0)];
    due(4, &[3, 2, 1, 0], "00000002 0001 0002 0003 0004", back);
    let hex = "00000002 ffff 0000 0000 0000";
    due(65_535, &[0], hex, only(At(0)));
    let hex = "80000002 0000000000000000";
    due(65_536, &[0], hex, only(At(0)));
    due(
        131_071,
        &[5, 4, 3, 2],
        "80000002 0000000000000005",
        only(At(5)),
    );
    // the second is too far for a distance, the first is not
    let hex = "00000002 0001 0000 0000 0000";
    due(65_537, &[65_536, 1], hex, only(At(65_536)));
    let back = [At(65_536), At(2), Nothing, Nothing];
    due(
        65_537,
        &[65_536, 2, 1],
        "00000002 0001 ffff 0000 0000",
        back,
    );
}

#[test]
fn headers_that_are_not_due() {
    not_due(1, &[0], "00000002 0002 0000 0000 0000", only(Past));
    let back = [At(2), Past, Nothing, Nothing];
    not_due(3, &[2], "00000002 0001 0004 0000 0000", back);
    let back = [At(2), At(1), At(0), Past];
    not_due(3, &[2, 1, 0], "00000002 0001 0002 0003 0004", back);
    not_due(3, &[2, 1, 0], "00000002 0001 0002 0003 ffff", back);
    // where there is no earlier entry
    not_due(0, &[], "00000002 0001 0000 0000 0000", only(Past));
    not_due(
        0,
        &[],
        "00000002 0000 0000 0000 0001",
        [Nothing, Nothing, Nothing, Past],
    );
    not_due(65_534, &[], "00000002 ffff 0000 0000 0000", only(Past));
    not_due(65_535, &[], "00000002 ffff 0000 0000 0000", only(At(0)));
    not_due(0, &[], "80000002 0000000000000000", only(At(0)));
}

#[test]
fn format_1_reads_as_its_offset() {
    // as the header that is due reads
    not_due(1, &[0], "80000002 0000000000000000", only(At(0)));
    not_due(65_535, &[0], "80000002 0000000000000000", only(At(0)));
    let far = &[1, 0];
    for offset in [0, 2, 70_000, 70_001, 1 << 32 | 1, u64::MAX - 1, u64::MAX] {
        let hex = format!("80000002 {offset:016x}");
        not_due(70_000, far, &hex, only(At(offset)));
        not_due(3, far, &hex, only(At(offset)));
    }
    due(70_000, far, "80000002 0000000000000001", only(At(1)));
    // format 0 reaches no far entry
    not_due(
        70_000,
        far,
        "00000002 0000000000000001",
        [Nothing, Nothing, Nothing, At(69_999)],
    );
    not_due(70_000, far, "00000002 0000000000000000", NONE);
}

/// An offset of a log, often near 65,535 or at an end.
fn offset(random: &mut Random) -> usize {
    let near = |random: &mut Random, at: u64| at + random.below(5) - 2;
    let offset = match random.below(6) {
        0 => random.below(8),
        1 | 2 => near(random, 65_535),
        3 => near(random, 131_069),
        _ => random.below(131_072),
    };
    offset as usize
}

/// Up to six earlier offsets, often at an edge of the reach or of the log.
fn earlier_offsets(random: &mut Random, at: usize) -> Vec<usize> {
    let mut offsets: Vec<usize> = (0..random.below(7))
        .map(|_| match random.below(5) {
            0 => random.below(4) as usize,
            1 => at.saturating_sub(1 + random.below(9) as usize),
            2 => (at + 3).saturating_sub(FARTHEST + random.below(6) as usize),
            _ => random.below(at as u64 + 1) as usize,
        })
        .filter(|offset| *offset < at)
        .collect();
    offsets.sort_unstable_by(|one, other| other.cmp(one));
    offsets.dedup();
    offsets
}

/// What the header rule stores, as where (4.1 to 4.3).
fn told(at: usize, offsets: &[usize]) -> [BackPointer; 4] {
    match offsets.first() {
        Some(&first) if at - first > 65_535 => only(At(first as u64)),
        _ => [0, 1, 2, 3].map(|place| match offsets.get(place) {
            Some(&offset) if at - offset <= 65_535 => At(offset as u64),
            _ => Nothing,
        }),
    }
}

/// A header near to one that is due.
fn changed(random: &mut Random, due: Header, at: usize) -> Header {
    let place = random.below(4);
    let distance = |distance: u64| {
        let shift = 48 - 16 * place;
        due.pointer & !(0xFFFF << shift) | (distance & 0xFFFF) << shift
    };
    let at = at as u64;
    let (format, pointer) = match random.below(9) {
        0 => (due.format, distance(0)),
        1 => (due.format, distance(at)),
        2 => (due.format, distance(at + 1)),
        3 => (due.format, distance(65_535)),
        4 => (1 - due.format, due.pointer),
        5 => (1, random.pick(&[at, at.wrapping_sub(1), u64::MAX]).unwrap()),
        6 => (due.format, due.pointer ^ 1 << random.below(64)),
        7 => match due.back_pointers(at as usize)[0] {
            At(offset) => (1, offset),
            _ => (1, 0),
        },
        _ => (due.format, due.pointer),
    };
    Header {
        object: due.object,
        format,
        pointer,
    }
}

#[test]
fn a_header_reads_as_the_earlier_offsets_in_reach() {
    let mut random = Random::new(65_535);
    let mut formats = [0; 2];
    for _ in 0..200_000 {
        let at = offset(&mut random);
        let offsets = earlier_offsets(&mut random, at);
        let made = Header::made(5, at, &earlier(&offsets));
        assert_eq!(
            made.back_pointers(at),
            told(at, &offsets),
            "{at} {offsets:?}"
        );
        formats[made.format as usize] += 1;
    }
    assert!(formats[0] > 100_000 && formats[1] > 5_000, "{formats:?}");
}

/// 17.16: the bytes are those due exactly where format and back-pointers are.
#[test]
fn reading_a_header_tells_whether_it_is_due() {
    let mut random = Random::new(65_536);
    let (mut good, mut past, mut alike) = (0, 0, 0);
    for _ in 0..400_000 {
        let at = offset(&mut random);
        let offsets = earlier_offsets(&mut random, at);
        let nearest = earlier(&offsets);
        let due = Header::made(5, at, &nearest);
        let header = changed(&mut random, due, at);
        let same = header == due;
        let back = header.back_pointers(at);
        assert_eq!(
            pointers_good(header, at, &nearest),
            same,
            "{at} {offsets:?} {header:?}"
        );
        assert_eq!(
            reads_as_due(header, at, &nearest),
            same,
            "{at} {offsets:?} {header:?}"
        );
        assert!(!same || !back.contains(&Past));
        good += u32::from(same);
        past += u32::from(back.contains(&Past));
        alike += u32::from(!same && back == due.back_pointers(at));
    }
    assert!(
        good > 10_000 && past > 10_000 && alike > 1_000,
        "{good} {past} {alike}"
    );
}

/// The log with another header at a place of an entry.
fn with_header(log: &[u8], at: usize, place: usize, header: Header) -> Vec<u8> {
    let mut log = log.to_vec();
    let from = at * SLOT + 8 + 12 * place;
    log[from..from + 4].copy_from_slice(&header.word().to_be_bytes());
    log[from + 4..from + 12].copy_from_slice(&header.pointer.to_be_bytes());
    log
}

#[test]
fn an_entry_with_a_back_pointer_past_offset_0_is_bad() {
    for seed in 0..10 {
        let history = History::made(seed, 12, 12, Mix::true_records());
        let (log, tail) = (&history.writer.log, history.writer.tail);
        for at in 0..tail {
            for (place, stored) in slot_at(log, at).headers().enumerate() {
                for shift in [48, 32, 16, 0] {
                    let past = (at as u64 + 1) << shift;
                    let pointer = stored.pointer & !(0xFFFF << shift) | past;
                    let header = Header { pointer, ..stored };
                    assert!(header.back_pointers(at).contains(&Past));
                    let log = with_header(log, at, place, header);
                    assert_eq!(check(eight(), &log, tail), bad_at(at as u64));
                    assert_eq!(check(eight(), &log, at), Answer::Done(()));
                }
            }
        }
    }
}

/// Object 2 at offset 0 and again 65,535 or 65,536 entries on, where it has entries of both formats.
#[test]
fn worked_headers_in_a_log_of_both_formats() {
    for (next, hex) in [
        (65_535, "00000002 ffff 0000 0000 0000"),
        (65_536, "80000002 0000000000000000"),
    ] {
        let mut writer = reference::append::Writer::new(next + 2);
        for at in 0..next + 2 {
            let object = if at == 0 || at >= next { 2 } else { 8 };
            let answer = writer.append(&update(0, &[put(object, 0, at as u32)]));
            assert_eq!(answer, Answer::Done(at + 1));
        }
        let (log, tail) = (&writer.log, writer.tail);
        assert_eq!(slot_at(log, next).header(0), header(hex));
        assert_eq!(check(eight(), log, tail), Answer::Done(()));
        let mut lent = [7; 4];
        assert_eq!(list(eight(), log, tail, 2, &mut lent), Answer::Done(3));
        assert_eq!(lent, [0, next as u32, next as u32 + 1, 7]);
        for offset in [1, next as u64, tail as u64, u64::MAX] {
            let wrong = Header::of(0x8000_0002, offset);
            let log = with_header(log, next, 0, wrong);
            assert_eq!(check(eight(), &log, tail), bad_at(next as u64));
        }
        let near = Header::of(0x8000_0002, next as u64);
        let log = with_header(log, next + 1, 0, near);
        assert_eq!(check(eight(), &log, tail), bad_at(next as u64 + 1));
    }
}
