//! What an order costs (§18): worked lines, what is refused and in which order, and that the total is the sum over what cell reading
//! shows (17.21).

use reference::directing::clinics;
use reference::directory::{eight, Directory, HIGHEST_ID, HIGHEST_KEY};
use reference::objects::Structure;
use reference::price::{list_of, price, Price, MOST_CENTS, PRICE};
use reference::prices;
use reference::pricing::{self, pricing, Case};
use reference::random::{directory, History, Mix, Random};
use reference::replica::{open_fresh, play, read_cell, Record};
use reference::run::Run;
use reference::sample::table_of;
use reference::table::{Cell, Row, CELL};
use reference::vectors::vectors;
use reference::Answer::{self, Done};

fn refused<T>(number: u32) -> Answer<T> {
    Answer::Refused { number, told: None }
}

fn refused_at<T>(number: u32, told: u64) -> Answer<T> {
    Answer::Refused {
        number,
        told: Some(told),
    }
}

fn of(key: u32, cents: u32, from: u32, percent: u32) -> Price {
    Price {
        key,
        cents,
        from,
        percent,
    }
}

fn orders(key: u32, quantity: u32) -> Row {
    Row::of(5, key, Some(quantity), 1)
}

fn asked(case: &Case) -> Answer<u128> {
    price(
        &case.dir,
        &case.record,
        &case.table,
        case.object,
        &case.prices,
    )
}

/// A replica of the orders.
fn total(rows: &[Row], prices: &[Price]) -> Answer<u128> {
    asked(&pricing::case(rows, prices))
}

#[test]
fn worked_lines() {
    for (quantity, cents, from, percent, due) in [
        (3, 333, 3, 10, 899),
        (2, 333, 3, 10, 666),
        (1, 1, 0, 50, 1),
        (5, 1, 0, 50, 3),
        (7, 105, 5, 15, 625),
        (9, 333, 9, 100, 0),
        (u32::MAX, MOST_CENTS, 0, 0, 42_949_668_655_032_705),
    ] {
        let price = of(7, cents, from, percent);
        assert_eq!(price.line(quantity), due);
        assert_eq!(total(&[orders(7, quantity)], &[price]), Done(due));
    }
    let record = [
        0x50, 0x52, 0, 0, 0, 0, 0, 7, 0, 0, 1, 0x4D, 0, 0, 0, 3, 0, 0, 0, 10,
    ];
    assert_eq!(of(7, 333, 3, 10).bytes(), record);
}

/// A half goes upward, and nothing else is rounded: every percent, small lines.
#[test]
fn rounded_to_the_nearest() {
    for percent in 0..=100 {
        for cents in 0..400 {
            let line = of(7, cents, 0, percent).line(1);
            let (exact, twice) = (cents * (100 - percent), 2 * 100 * line as u32);
            // at most half a cent more than the exact line, and less than half a cent below it
            assert!(twice <= 2 * exact + 100 && 2 * exact < twice + 100);
        }
    }
}

/// The percent is on the whole line, from the break quantity on.
#[test]
fn from_the_break_quantity_up() {
    for quantity in 1..20 {
        let due = if quantity < 10 { 1000 } else { 800 } * u128::from(quantity);
        assert_eq!(
            total(&[orders(7, quantity)], &[of(7, 1000, 10, 20)]),
            Done(due)
        );
        let always = u128::from(quantity) * 800;
        assert_eq!(of(7, 1000, 0, 20).line(quantity), always);
    }
}

#[test]
fn lines_are_present_cells_with_a_quantity() {
    let rows = [
        Row::of(4, 7, Some(9), 1),
        orders(1, 2),
        orders(2, 0),
        Row::of(5, 3, None, 1),
        Row {
            present: 2,
            ..orders(4, 9)
        },
        orders(9999, 3),
        orders(10_000, 9),
        Row::of(6, 0, Some(9), 1),
    ];
    let listed = [of(1, 10, 0, 0), of(9999, 1, 0, 0)];
    assert_eq!(total(&rows, &listed), Done(23));
    assert_eq!(total(&rows, &listed[..1]), refused_at(19, 9999));
    assert_eq!(total(&rows, &listed[1..]), refused_at(19, 1));
    assert_eq!(total(&rows, &[]), refused_at(19, 1));
    assert_eq!(total(&rows[2..5], &[]), Done(0));
    assert_eq!(total(&rows[6..], &[]), Done(0));
}

/// The lowest key without a price, whatever keys below and above it are priced.
#[test]
fn the_lowest_key_is_told() {
    let rows: Vec<Row> = (0..6).map(|place| orders(10 * place, 1)).collect();
    for first in 0..6 {
        for second in first..6 {
            let priced = (0..6).filter(|place| ![first, second].contains(place));
            let beside = [5, 15, 55, u32::MAX].into_iter();
            let mut keys: Vec<u32> = priced.map(|place| 10 * place).chain(beside).collect();
            keys.sort_unstable();
            let prices: Vec<Price> = keys.iter().map(|key| of(*key, 3, 0, 0)).collect();
            assert_eq!(total(&rows, &prices), refused_at(19, u64::from(10 * first)));
        }
    }
}

/// The two parts of the total: at a carry, below and past it.
#[test]
fn totals_past_64_bits() {
    let rows: Vec<Row> = (0..430).map(|key| orders(key, u32::MAX)).collect();
    let prices: Vec<Price> = (0..430).map(|key| of(key, MOST_CENTS, 0, 0)).collect();
    let case = pricing::case(&rows, &prices);
    let due = 430 * 42_949_668_655_032_705;
    assert_eq!(asked(&case), Done(due));
    let said = reference::boundary::price(&case.dir, case.record, &case.table, 5, &case.prices);
    assert_eq!(said.number, 0);
    assert_eq!(said.out, [1, 21_613_447_954_511_534, 0, 0, 0, 0, 0, 0]);
    let printed = vectors("test_pricing").expect("its vectors").output;
    for line in [
        "price 0 18446744073709551615",
        "price 1 0",
        "price 1 1",
        "price 1 21613447954511534",
    ] {
        assert!(printed.lines().any(|found| found == line), "{line}");
    }
}

/// Each rule of 18.2 and 18.3 broken, at each place, also where nothing is summed.
#[test]
fn bad_lists() {
    let rows = [orders(2, 1), orders(7, 3), orders(9, 1)];
    let good = [of(2, 5, 0, 0), of(7, 333, 3, 10), of(9, 5, 0, 0)];
    assert_eq!(total(&rows, &good), Done(909));
    let refuses = |prices: &[u8]| {
        let mut case = pricing::case(&rows, &[]);
        case.prices = prices.to_vec();
        assert_eq!(asked(&case), refused(3), "{prices:?}");
        case.record.count = 0;
        assert_eq!(asked(&case), refused(3), "{prices:?}");
    };
    for place in 0..3 {
        for (at, value) in [(0, 0x51), (1, 0x51), (2, 1), (3, 1), (8, 1), (16, 1)] {
            let mut bytes = list_of(&good);
            bytes[PRICE * place + at] = value;
            refuses(&bytes);
        }
        for (cents, percent, due) in [
            (MOST_CENTS, 100, true),
            (MOST_CENTS + 1, 0, false),
            (u32::MAX, 0, false),
            (0, 101, false),
            (0, u32::MAX, false),
        ] {
            let mut prices = good;
            (prices[place].cents, prices[place].percent) = (cents, percent);
            match due {
                true => assert!(total(&rows, &prices).is_done()),
                false => refuses(&list_of(&prices)),
            }
        }
    }
    for prices in [
        [good[0], good[0], good[1]],
        [good[1], good[0], good[2]],
        [good[0], good[2], good[1]],
        [good[0], good[2], good[2]],
    ] {
        refuses(&list_of(&prices));
    }
    for length in (1..60).filter(|length| length % PRICE != 0) {
        refuses(&list_of(&good)[..length]);
    }
}

/// 15, 10, 3, 19.
#[test]
fn the_order_of_refusals() {
    let unpriced = pricing::case(&[orders(7, 3), orders(8, 1)], &[]);
    assert_eq!(asked(&unpriced), refused_at(19, 7));
    let mut wrong = unpriced.clone();
    wrong.object = 6;
    wrong.record.hosted = 0xFF;
    assert_eq!(asked(&wrong), refused(3));
    wrong.prices = vec![0];
    assert_eq!(asked(&wrong), refused(3));
    wrong.object = 5;
    assert_eq!(asked(&wrong), refused(3));
    let changes: [fn(&mut Record); 4] = [
        |record| record.hosted = 0,
        |record| record.hosted = 256,
        |record| record.count = 3,
        |record| record.count = u64::MAX,
    ];
    for change in changes {
        let mut bad = wrong.clone();
        change(&mut bad.record);
        assert_eq!(asked(&bad), refused(10));
        bad.dir[16 * 3] = 0;
        assert_eq!(asked(&bad), refused_at(15, 3));
    }
    wrong.table.rotate_left(CELL);
    assert_eq!(asked(&wrong), refused(10));
    // the position is not tested
    let mut far = pricing::case(&[orders(7, 3)], &[of(7, 1, 0, 0)]);
    far.record.position = u64::MAX;
    assert_eq!(asked(&far), Done(3));
}

/// Maps alone, hosted ones, of the directory.
#[test]
fn which_objects_are_priced() {
    let asked = |dir: &[u8], hosted: u64, object: u32, key: u32| {
        let record = Record {
            hosted,
            position: 0,
            count: 1,
        };
        let table = table_of(&[Row::of(object, key, Some(3), 1)]);
        let prices = list_of(&[of(key, 10, 0, 0)]);
        price(dir, &record, &table, object, &prices)
    };
    for object in 0..=9 {
        let due = match object {
            1..=5 => Done(30),
            _ => refused(3),
        };
        assert_eq!(asked(eight(), 0xFF, object, 0), due, "{object}");
        if (1..=8).contains(&object) {
            let others = 0xFF & !(1 << (object - 1));
            assert_eq!(asked(eight(), others, object, 0), refused(3));
        }
    }
    assert_eq!(asked(eight(), 0xFF, 5 | 1 << 31, 0), refused(3));
    let clinics = clinics();
    assert_eq!(asked(&clinics, 7, 10, 99), Done(30));
    assert_eq!(asked(&clinics, 7, 10, 100), Done(0));
    assert_eq!(asked(&clinics, 7, 20, 0), refused(3));
    assert_eq!(asked(&clinics, 4, HIGHEST_ID, HIGHEST_KEY), Done(30));
    assert_eq!(asked(&clinics, 4, HIGHEST_ID, u32::MAX), Done(0));
}

/// A line in other words: whole cents and the rest, which goes up from a half on.
fn line(price: &Price, quantity: u32) -> u128 {
    let whole = u128::from(quantity) * u128::from(price.cents);
    if quantity >= price.from {
        let hundredths = whole * u128::from(100 - price.percent);
        return hundredths / 100 + u128::from(hundredths % 100 >= 50);
    }
    whole
}

/// The answer due, from what each of these keys has.
fn due(keys: &[u32], cell: impl Fn(u32) -> Cell, prices: &[Price]) -> Answer<u128> {
    let mut sum = 0;
    for key in keys {
        let quantity = match cell(*key) {
            Cell::Holds { value, .. } => value,
            Cell::NeverWritten | Cell::Removed { .. } => 0,
        };
        if quantity == 0 {
            continue;
        }
        match prices.iter().find(|price| price.key == *key) {
            Some(price) => sum += line(price, quantity),
            None => return refused_at(19, u64::from(*key)),
        }
    }
    Done(sum)
}

/// The run at a count of accepted appends.
fn run_at(history: &History, count: u64) -> Run {
    let mut run = Run::new();
    let accepted = history
        .appends
        .iter()
        .filter(|(_, answer)| answer.is_done());
    for (request, _) in accepted.take(count as usize) {
        run.feed(request, false);
    }
    run
}

/// Replicas of random histories: the price is that of what cell reading shows, and of the run's cells at its position.
#[test]
fn the_price_is_that_of_the_readings() {
    let (mut done, mut missing, mut summed) = (0, 0, 0);
    for seed in 0..400 {
        let mut random = Random::new(seed ^ 0x11);
        let directory = match seed % 2 {
            0 => Directory::of(eight()).expect("the eight"),
            _ => directory(&mut random),
        };
        let mix = Mix {
            broken: 0,
            ..Mix::true_records().over(&directory, &mut random, 5)
        };
        let mut history = History::over(directory, seed, 40, mix);
        for _ in 0..40 {
            history.step();
        }
        let (log, tail) = (&history.writer.log, history.writer.tail);
        let directory = &history.writer.directory;
        let dir = directory.bytes();
        let fresh = open_fresh(&dir, directory.everything()).done().unwrap();
        let mut table = vec![0; 60 * CELL];
        let stop = random.below(tail as u64 + 1);
        let (_, record) = play(&dir, log, tail, fresh, &mut table, stop);
        let run = run_at(&history, record.position);
        for object in directory.objects_of(mix.objects) {
            let case = Case {
                dir: dir.clone(),
                record,
                table: table.clone(),
                object: object.id,
                prices: Vec::new(),
            };
            if object.structure == Structure::Register {
                assert_eq!(asked(&case), refused(3));
                continue;
            }
            let used = mix.keys.min(object.highest_key + 1);
            let mut keys: Vec<u32> = (0..used)
                .flat_map(|near| [near, object.highest_key - near])
                .collect();
            keys.sort_unstable();
            keys.dedup();
            let prices = prices::list(&mut random, &keys, 30);
            let case = Case {
                prices: list_of(&prices),
                ..case
            };
            let answer = asked(&case);
            let shown = |key: u32| read_cell(&dir, &record, &table, object.id, key).done();
            assert_eq!(answer, due(&keys, |key| shown(key).unwrap(), &prices));
            assert_eq!(answer, due(&keys, |key| run.cell(object.id, key), &prices));
            done += u32::from(answer.is_done());
            missing += u32::from(answer.number() == 19);
            summed += u32::from(answer.done().is_some_and(|total| total > 0));
        }
    }
    assert!(
        done > 500 && missing > 50 && summed > 300,
        "{done} {missing} {summed}"
    );
}

/// The stored cases have every refusal and every kind of total, and are those that the tool makes.
#[test]
fn the_stored_cases() {
    let cases = pricing();
    let mut numbers = [0; 20];
    for case in &cases {
        numbers[asked(case).number() as usize] += 1;
    }
    for number in [0, 3, 10, 15, 19] {
        assert!(numbers[number] > 5, "{number}: {numbers:?}");
    }
    let made = vectors("test_pricing").expect("its vectors");
    assert_eq!(made.cases, cases.len());
    assert_eq!(made.input, pricing::input(&cases));
    assert_eq!(made.output, pricing::output(&cases));
    assert_eq!(made.output.lines().count(), cases.len());
}
