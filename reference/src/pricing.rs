//! The vectors of prices: worked lines, tables and lists at their edges, every refusal alone and with those behind it, totals about 2 to
//! the power of 64, and random replicas.

use std::fmt::Write;

use crate::directing::clinics;
use crate::directory::{eight, HIGHEST_ID, HIGHEST_KEY};
use crate::price::{list_of, price, Price, MOST_CENTS, PRICE};
use crate::prices;
use crate::random::{put_in_order, Random};
use crate::replica::Record;
use crate::sample::table_of;
use crate::table::Row;

/// What is handed to the call.
#[derive(Clone)]
pub struct Case {
    pub dir: Vec<u8>,
    pub record: Record,
    pub table: Vec<u8>,
    pub object: u32,
    pub prices: Vec<u8>,
}

/// Orders by item: a map of the eight.
pub const ORDERS: u32 = 5;
const ORDERS_SET: u64 = 1 << 4;
/// A price of 333 cents, and 10 percent off from 3 on.
const FILTER: Price = Price {
    key: 7,
    cents: 333,
    from: 3,
    percent: 10,
};

fn cents(key: u32, cents: u32) -> Price {
    Price {
        key,
        cents,
        from: 0,
        percent: 0,
    }
}

fn holds(key: u32, quantity: u32) -> Row {
    Row::of(ORDERS, key, Some(quantity), 1)
}

/// A replica of the orders with these rows.
pub fn case(rows: &[Row], prices: &[Price]) -> Case {
    Case {
        dir: eight().to_vec(),
        record: Record {
            hosted: ORDERS_SET,
            position: 9,
            count: rows.len() as u64,
        },
        table: table_of(rows),
        object: ORDERS,
        prices: list_of(prices),
    }
}

pub fn pricing() -> Vec<Case> {
    let mut cases = lines();
    cases.extend(cells());
    cases.extend(lists());
    cases.extend(orders());
    cases.extend(objects());
    cases.extend(carries());
    cases.extend((0..120).map(random_case));
    cases
}

/// The lines of 18.8, and others at the edges of rounding and of the break quantity.
fn lines() -> Vec<Case> {
    let lines = [
        (3, 333, 3, 10),
        (2, 333, 3, 10),
        (1, 1, 0, 50),
        (5, 1, 0, 50),
        (7, 105, 5, 15),
        (9, 333, 9, 100),
        (u32::MAX, MOST_CENTS, 0, 0),
        (1, 49, 0, 1),
        (1, 50, 0, 1),
        (1, 51, 0, 1),
        (1, 1, 0, 51),
        (1, 1, 0, 49),
        (1, 1, 1, 50),
        (1, 1, 2, 50),
        (3, 1, 0, 50),
        (3, 5, 0, 10),
        (3, 15, 0, 90),
        (10, 0, 0, 0),
        (10, 7, 0, 0),
        (10, 7, u32::MAX, 100),
        (u32::MAX, MOST_CENTS, u32::MAX, 1),
        (u32::MAX - 1, MOST_CENTS, u32::MAX, 1),
        (u32::MAX, MOST_CENTS, 0, 99),
        (u32::MAX, MOST_CENTS, 0, 100),
    ];
    lines
        .into_iter()
        .map(|(quantity, cents, from, percent)| {
            let price = Price {
                key: 7,
                cents,
                from,
                percent,
            };
            case(&[holds(7, quantity)], &[price])
        })
        .collect()
}

/// Which rows are lines: removed cells, quantity 0, odd present fields, rows of no cell, rows of other objects, rows past the count.
fn cells() -> Vec<Case> {
    let other = |object: u32, key: u32| Row::of(object, key, Some(9), 1);
    let odd = |present: u32| Row {
        present,
        ..holds(7, 4)
    };
    let among = [
        other(0, 7),
        other(4, 7),
        holds(6, 2),
        holds(7, 3),
        holds(9999, 1),
        other(6, 7),
        other(5 | 1 << 31, 7),
    ];
    let listed = [cents(6, 100), FILTER, cents(9999, 1)];
    let fewer = |count: u64| {
        let mut fewer = case(&among, &listed);
        fewer.record.count = count;
        fewer
    };
    let mut cases = vec![
        case(&[], &[FILTER]),
        case(&[], &[]),
        case(&[holds(7, 0)], &[]),
        case(&[Row::of(ORDERS, 7, None, 1)], &[]),
        case(&[odd(0)], &[]),
        case(&[odd(2)], &[]),
        case(&[odd(u32::MAX)], &[]),
        case(&[odd(0x0100_0001)], &[FILTER]),
        case(&[holds(9999, 1), holds(10_000, 5)], &[cents(9999, 7)]),
        case(&[holds(10_000, 5), holds(u32::MAX, 5)], &[]),
        case(&[holds(10_000, 5)], &[cents(10_000, 7)]),
        case(&[holds(0, 5), holds(1, 5)], &[cents(0, 7), cents(1, 8)]),
        case(&among, &listed),
        case(&among, &listed[1..]),
        case(&among, &listed[..2]),
        case(&among, &[cents(6, 100), cents(9999, 1)]),
    ];
    cases.extend((0..8).map(fewer));
    // a count of all that the table has room for, and bytes more
    let mut longer = case(&among, &listed);
    longer.table.extend([0xEE; 23]);
    cases.push(longer.clone());
    longer.record.count = 8;
    cases.push(longer.clone());
    longer.table.push(0xEE);
    cases.push(longer);
    cases
}

/// Lists with and without the key, and with each rule broken at each place; 3 also where nothing is summed.
fn lists() -> Vec<Case> {
    let rows = [holds(2, 1), holds(7, 3), holds(9, 1)];
    let good = [cents(2, 5), FILTER, cents(9, 5)];
    let with = |prices: &[Price]| case(&rows, prices);
    let mut cases = vec![
        with(&good),
        with(&[]),
        with(&good[..1]),
        with(&good[1..]),
        with(&[cents(0, 1), good[0], cents(3, 1), good[1], good[2]]),
        with(&[good[0], good[1], good[2], cents(u32::MAX, MOST_CENTS)]),
        with(&[good[1], good[0], good[2]]),
        with(&[good[0], good[2], good[1]]),
        with(&[good[0], good[1], good[1], good[2]]),
        with(&[cents(1, 5), cents(6, 5), cents(8, 5)]),
        with(&[cents(3, 5), cents(8, 5), cents(10, 5)]),
    ];
    let changes: [(usize, u8); 12] = [
        (0, 0x51),
        (0, 0x70),
        (1, 0),
        (1, 0x53),
        (2, 1),
        (3, 0x80),
        (8, 1),
        (9, 0x99),
        (16, 1),
        (17, 1),
        (18, 1),
        (19, 101),
    ];
    for place in 0..3 {
        for (at, value) in changes {
            let mut changed = with(&good);
            changed.prices[PRICE * place + at] = value;
            cases.push(changed);
        }
        for limits in [(MOST_CENTS, 100), (MOST_CENTS + 1, 100), (5, 101)] {
            let mut prices = good;
            (prices[place].cents, prices[place].percent) = limits;
            cases.push(with(&prices));
        }
    }
    for length in [1, 19, 20, 21, 39, 40, 59] {
        let mut cut = with(&good);
        cut.prices.truncate(length);
        cases.push(cut.clone());
        cut.record.count = 0;
        cases.push(cut);
    }
    cases
}

/// 15, 10, 3 and 19, each with all that come after it.
fn orders() -> Vec<Case> {
    let unpriced = case(&[holds(7, 3), holds(8, 1)], &[cents(8, 5)]);
    let mut cases = vec![unpriced.clone()];
    let mut bad_list = unpriced;
    bad_list.prices.push(0);
    cases.push(bad_list.clone());
    let with = |change: fn(&mut Case)| {
        let mut changed = bad_list.clone();
        change(&mut changed);
        changed
    };
    let replicas: [fn(&mut Case); 6] = [
        |case| case.record.hosted = 0,
        |case| case.record.hosted |= 1 << 8,
        |case| case.record.count = 3,
        |case| case.record.count = u64::MAX,
        |case| case.table.rotate_left(24),
        |case| case.table.copy_within(0..24, 24),
    ];
    for replica in replicas {
        let mut bad = with(replica);
        cases.push(bad.clone());
        bad.prices = list_of(&[FILTER, cents(8, 5)]);
        cases.push(bad.clone());
        bad.dir[0] = 0;
        cases.push(bad);
    }
    // the position is not tested
    cases.push(Case {
        record: Record {
            position: u64::MAX,
            ..bad_list.record
        },
        prices: list_of(&[FILTER, cents(8, 5)]),
        ..bad_list.clone()
    });
    for dir in [&[][..], &eight()[..127], &eight()[16..]] {
        cases.push(Case {
            dir: dir.to_vec(),
            ..bad_list.clone()
        });
    }
    cases
}

/// Objects that are not hosted, not there, or registers; maps of other directories.
fn objects() -> Vec<Case> {
    let mut cases = Vec::new();
    for object in [0, 1, 4, 5, 6, 7, 8, 9, 5 | 1 << 31, u32::MAX] {
        for hosted in [0b1_0000, 0xFF] {
            let mut asked = case(&[Row::of(object, 0, Some(2), 1)], &[cents(0, 5)]);
            asked.object = object;
            asked.record.hosted = hosted;
            cases.push(asked);
        }
    }
    for (object, key, hosted) in [
        (10, 99, 1),
        (10, 100, 1),
        (20, 0, 7),
        (HIGHEST_ID, HIGHEST_KEY, 4),
        (HIGHEST_ID, u32::MAX, 4),
        (HIGHEST_ID, HIGHEST_KEY, 3),
    ] {
        for priced in [key, key.wrapping_sub(1)] {
            cases.push(Case {
                dir: clinics(),
                record: Record {
                    hosted,
                    position: 0,
                    count: 1,
                },
                table: table_of(&[Row::of(object, key, Some(3), 1)]),
                object,
                prices: list_of(&[Price {
                    key: priced,
                    ..FILTER
                }]),
            });
        }
    }
    cases
}

/// The quantities and cents of lines that sum up to a total.
pub fn summing(total: u128) -> Vec<(u32, u32)> {
    let largest = u128::from(u32::MAX) * u128::from(MOST_CENTS);
    let mut lines = vec![(u32::MAX, MOST_CENTS); (total / largest) as usize];
    let rest = total % largest;
    let most = u128::from(MOST_CENTS);
    lines.push(((rest / most) as u32, MOST_CENTS));
    lines.push(((rest % most) as u32, 1));
    lines
}

/// The total at a carry, just below it and past it.
fn carries() -> Vec<Case> {
    let of = |lines: Vec<(u32, u32)>| {
        let keyed = || (0..).step_by(3).zip(&lines);
        let rows: Vec<Row> = keyed().map(|(key, line)| holds(key, line.0)).collect();
        let prices: Vec<Price> = keyed().map(|(key, line)| cents(key, line.1)).collect();
        case(&rows, &prices)
    };
    let carry = 1_u128 << 64;
    let mut cases: Vec<Case> = [carry - 1, carry, carry + 1]
        .map(|total| of(summing(total)))
        .into();
    cases.push(of(vec![(u32::MAX, MOST_CENTS); 430]));
    cases
}

/// Any rows of the eight, in order mostly, and any list for them.
fn random_case(seed: u64) -> Case {
    let mut random = Random::new(seed ^ 0x5EED_0011);
    let keys = 1 + random.below(6);
    let rows = (0..random.below(14)).map(|_| {
        let object = random.pick(&[1, 2, 5, 5, 5, 6]).unwrap_or(5);
        let key = match random.below(8) {
            0 => 499 + random.below(3) as u32,
            1 => 9998 + random.below(4) as u32,
            _ => random.below(keys) as u32,
        };
        Row {
            present: random.pick(&[1, 1, 1, 1, 0, 2]).unwrap_or(1),
            value: random.pick(&[0, 1, 2, 3, 7, u32::MAX]).unwrap_or(1),
            ..Row::of(object, key, Some(1), random.below(9))
        }
    });
    let mut rows: Vec<Row> = rows.collect();
    if random.percent(92) {
        put_in_order(&mut rows);
    }
    let object = random.pick(&[1, 2, 5, 5, 5, 6]).unwrap_or(5);
    let of_object = rows.iter().filter(|row| row.object == object);
    let keys: Vec<u32> = of_object.map(|row| row.key).collect();
    let list = prices::list(&mut random, &keys, 25);
    Case {
        record: Record {
            hosted: random.pick(&[0xFF, 0b11_0011, ORDERS_SET]).unwrap_or(0xFF),
            position: random.below(9),
            count: rows.len() as u64,
        },
        object,
        prices: match random.percent(20) {
            true => prices::broken(&mut random, &list),
            false => list_of(&list),
        },
        ..case(&rows, &[])
    }
}

/// The input of the program.
pub fn input(cases: &[Case]) -> Vec<u8> {
    let mut bytes = Vec::new();
    let part = |bytes: &mut Vec<u8>, part: &[u8]| {
        bytes.extend((part.len() as u32).to_be_bytes());
        bytes.extend(part);
    };
    for case in cases {
        part(&mut bytes, &case.dir);
        let Record {
            hosted,
            position,
            count,
        } = case.record;
        for number in [hosted, position, count] {
            bytes.extend(number.to_be_bytes());
        }
        part(&mut bytes, &case.table);
        bytes.extend(case.object.to_be_bytes());
        part(&mut bytes, &case.prices);
    }
    bytes
}

/// What the program prints.
pub fn output(cases: &[Case]) -> String {
    let mut text = String::new();
    for case in cases {
        let answer = price(
            &case.dir,
            &case.record,
            &case.table,
            case.object,
            &case.prices,
        );
        let shown = answer.shown(|total| format!("{} {}", total >> 64, total as u64));
        let _ = writeln!(text, "price {shown}");
    }
    text
}
