//! Orders to be priced: maps of many rows and large quantities, with totals about 2 to the power of 64, among rows of other objects,
//! removed cells and rows of no cell. And an order of which the price is measured.

use reference::directory::{bytes_of, the_eight, Directory, HIGHEST_KEY};
use reference::objects::{Object, Structure};
use reference::price::{list_of, Price, MOST_CENTS};
use reference::prices;
use reference::pricing::summing;
use reference::random::{self, put_in_order, Random};
use reference::replica::Record;
use reference::sample::table_of;
use reference::table::Row;

use crate::calls::Call;
use crate::pair::{Difference, Pair};
use crate::workload::Made;

/// Maps of fewer keys are not ordered from.
const KEYS: u32 = 499;

/// One order, with all prices, with one missing, and with a broken list.
pub fn order(pair: &mut Pair, seed: u64) -> Result<(), Difference> {
    pair.begin("order", seed);
    let mut random = Random::new(seed ^ 0x5EED_0009);
    let (directory, map) = map(&mut random);
    pair.dir = directory.bytes();
    let lines = lines(&mut random);
    let keys = keys(&mut random, map, lines.len());
    let cells: Vec<Row> = keys
        .iter()
        .zip(&lines)
        .map(|(key, line)| Row::of(map.id, *key, Some(line.0), 1))
        .collect();
    let lowered = random.pick(&[0, 0, 1, 60]).unwrap_or(0);
    let listed: Vec<Price> = keys
        .iter()
        .zip(&lines)
        .map(|(key, line)| with_cents(&mut random, *key, line.1, lowered))
        .collect();
    let rows = among(&mut random, &directory, map, cells);
    let lists = [
        list_of(&listed),
        list_of(&with_others(&mut random, &listed)),
        list_of(&without_some(&mut random, &listed)),
        prices::broken(&mut random, &listed),
    ];
    for prices in lists {
        let mut call = Call::Price {
            record: Record {
                hosted: directory.set_of(map.id) | random.number() & directory.everything(),
                position: random.number(),
                count: rows.len() as u64,
            },
            table: table_of(&rows),
            object: map.id,
            prices,
        };
        pair.call(&mut [], 0, &mut call)?;
    }
    Ok(())
}

/// A directory, and a map of it that has keys enough.
fn map(random: &mut Random) -> (Directory, Object) {
    let large = |directory: &Directory| {
        let maps = directory.objects().iter().copied();
        maps.filter(|object| object.structure == Structure::Map && object.highest_key >= KEYS)
            .collect::<Vec<Object>>()
    };
    let any = random::directory(random);
    if let Some(map) = random.pick(&large(&any)) {
        return (any, map);
    }
    let maps = large(the_eight());
    (the_eight().clone(), random.pick(&maps).unwrap_or(maps[0]))
}

/// Quantities and cents: few and small, or large ones whose sum is near a carry, at it, or anywhere.
fn lines(random: &mut Random) -> Vec<(u32, u32)> {
    match random.below(6) {
        0..=2 => {
            let count = random.below(12);
            let line = |_| (random.below(9) as u32, random.below(400) as u32);
            (0..count).map(line).collect()
        }
        3 => summing((1 << 64) - 1 + u128::from(random.below(3))),
        4 => {
            let near = (1 << 64) - 20_000_000 + random.below(40_000_000) as u128;
            summing(near)
        }
        _ => {
            let count = 420 + random.below(30);
            let low = |random: &mut Random, most: u32| most - random.below(3) as u32;
            (0..count)
                .map(|_| (low(random, u32::MAX), low(random, MOST_CENTS)))
                .collect()
        }
    }
}

/// So many keys of the map, ascending.
fn keys(random: &mut Random, map: Object, count: usize) -> Vec<u32> {
    let step = match random.percent(50) {
        true => 1,
        false => map.highest_key / count.max(1) as u32,
    };
    let last = step * count.saturating_sub(1) as u32;
    let first = random.pick(&[0, map.highest_key - last]).unwrap_or(0);
    (0..count as u32)
        .map(|place| first + step * place)
        .collect()
}

/// A price whose lines are whole, or, at that chance in percent, lowered.
fn with_cents(random: &mut Random, key: u32, cents: u32, lowered: u64) -> Price {
    let any = prices::price(random, key);
    Price {
        cents,
        percent: match random.percent(lowered) {
            true => any.percent,
            false => 0,
        },
        ..any
    }
}

/// The cells, some of them removed or of quantity 0, with rows of other objects and of keys that the map does not have.
fn among(random: &mut Random, directory: &Directory, map: Object, cells: Vec<Row>) -> Vec<Row> {
    let mut rows = cells;
    if random.percent(40) {
        for _ in 0..1 + random.below(3) {
            let place = random.below(rows.len() as u64) as usize;
            let odd = random.pick(&[0, 2, u32::MAX]).unwrap_or(0);
            if let Some(row) = rows.get_mut(place) {
                match random.percent(50) {
                    true => row.present = odd,
                    false => row.value = 0,
                }
            }
        }
    }
    for _ in 0..random.below(4) {
        let other = random.pick(directory.objects()).unwrap_or(map).id;
        rows.push(Row::of(other ^ 1 << 31, random.number() as u32, Some(9), 1));
        if other != map.id {
            rows.push(Row::of(other, random.below(3) as u32, Some(9), 1));
        }
        let past = map.highest_key.saturating_add(1 + random.below(3) as u32);
        rows.push(Row::of(map.id, past.max(map.highest_key + 1), Some(9), 1));
    }
    put_in_order(&mut rows);
    rows
}

/// Prices of other keys too.
fn with_others(random: &mut Random, listed: &[Price]) -> Vec<Price> {
    let mut prices = listed.to_vec();
    for _ in 0..1 + random.below(4) {
        let near = listed.get(random.below(listed.len() as u64) as usize);
        let near = near.map_or(7, |price| price.key);
        let key = near.wrapping_add(random.below(5) as u32).wrapping_sub(2);
        prices.push(prices::price(random, key));
    }
    prices.sort_by_key(|price| price.key);
    prices.dedup_by_key(|price| price.key);
    prices
}

/// One or two prices fewer.
fn without_some(random: &mut Random, listed: &[Price]) -> Vec<Price> {
    let mut prices = listed.to_vec();
    for _ in 0..1 + random.below(2) {
        if !prices.is_empty() {
            prices.remove(random.below(prices.len() as u64) as usize);
        }
    }
    prices
}

/// The object of which a price is measured.
pub const MEASURED: u32 = 5;

/// A replica of so many cells of one map, all of them lines, and a price for each.
pub fn measured(cells: usize) -> Made {
    let map = Object {
        id: MEASURED,
        structure: Structure::Map,
        highest_key: HIGHEST_KEY,
        marked: false,
    };
    let mut random = Random::new(cells as u64);
    let keys = || (0..cells as u32).map(|place| 3 * place);
    let rows: Vec<Row> = keys()
        .map(|key| Row::of(MEASURED, key, Some(1 + random.below(20) as u32), 1))
        .collect();
    let list: Vec<Price> = keys().map(|key| prices::price(&mut random, key)).collect();
    let record = Record {
        hosted: 1,
        position: 0,
        count: cells as u64,
    };
    Made {
        dir: bytes_of(&[map]),
        cells,
        replica: Some((record, table_of(&rows))),
        prices: list_of(&list),
        ..Made::of_eight(Vec::new(), 0)
    }
}
