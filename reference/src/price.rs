//! What the cells of one map cost (§18).

use crate::answer::{refuse, refuse_at, refuse_if, Answer, Refusal, BAD_REQUEST, NO_PRICE};
use crate::bytes::{get16, get32, put32};
use crate::directory::Directory;
use crate::objects::{Object, Structure};
use crate::replica::{replica_good, Record};
use crate::table::{rows_of_object, Row};

pub const PRICE: usize = 20;
pub const MARK: [u8; 2] = *b"PR";
pub const MOST_CENTS: u32 = 9_999_999;
pub const MOST_PERCENT: u32 = 100;

/// A price (18.2).
#[derive(Clone, Copy, Debug, PartialEq, Eq)]
pub struct Price {
    pub key: u32,
    pub cents: u32,
    /// The break quantity.
    pub from: u32,
    pub percent: u32,
}

impl Price {
    pub fn bytes(self) -> [u8; PRICE] {
        let mut bytes = [0; PRICE];
        bytes[..2].copy_from_slice(&MARK);
        put32(&mut bytes, 4, self.key);
        put32(&mut bytes, 8, self.cents);
        put32(&mut bytes, 12, self.from);
        put32(&mut bytes, 16, self.percent);
        bytes
    }

    fn of(bytes: &[u8]) -> Price {
        Price {
            key: get32(bytes, 4),
            cents: get32(bytes, 8),
            from: get32(bytes, 12),
            percent: get32(bytes, 16),
        }
    }

    /// What a quantity costs (18.4). The percent is at most 100.
    pub fn line(self, quantity: u32) -> u128 {
        let whole = u128::from(quantity) * u128::from(self.cents);
        if quantity < self.from {
            return whole;
        }
        (whole * u128::from(MOST_PERCENT - self.percent) + 50) / 100
    }
}

/// A list of these prices.
pub fn list_of(prices: &[Price]) -> Vec<u8> {
    prices.iter().flat_map(|price| price.bytes()).collect()
}

/// The total of one map of a replica.
pub fn price(
    dir: &[u8],
    record: &Record,
    table: &[u8],
    object: u32,
    prices: &[u8],
) -> Answer<u128> {
    total_of(dir, record, table, object, prices).into()
}

fn total_of(
    dir: &[u8],
    record: &Record,
    table: &[u8],
    object: u32,
    prices: &[u8],
) -> Result<u128, Refusal> {
    let directory = Directory::of(dir)?;
    replica_good(&directory, record, table)?;
    let Some(map) = hosted_map(&directory, record.hosted, object) else {
        return refuse(BAD_REQUEST);
    };
    refuse_if(!list_good(prices), BAD_REQUEST)?;
    let rows = rows_of_object(table, record.count as usize, object);
    total(rows.filter_map(|row| quantity(map, row)), prices)
}

/// The object, where it is hosted and a map.
fn hosted_map(directory: &Directory, hosted: u64, object: u32) -> Option<&Object> {
    let found = directory.object(object)?;
    (directory.has(hosted, object) && found.structure == Structure::Map).then_some(found)
}

/// Whole records, each within 18.2, with keys that ascend strictly (18.3).
fn list_good(prices: &[u8]) -> bool {
    let records = prices.chunks_exact(PRICE);
    let keys = records.clone().map(|record| Price::of(record).key);
    prices.len().is_multiple_of(PRICE)
        && records.clone().all(record_good)
        && keys.is_sorted_by(|one, next| one < next)
}

fn record_good(record: &[u8]) -> bool {
    let price = Price::of(record);
    record[..2] == MARK
        && get16(record, 2) == 0
        && price.cents <= MOST_CENTS
        && price.percent <= MOST_PERCENT
}

/// The key and the quantity of a row of the map that is a line (18.5).
fn quantity(map: &Object, row: Row) -> Option<(u32, u32)> {
    let quantity = row.held().filter(|quantity| *quantity > 0)?;
    (row.key <= map.highest_key).then_some((row.key, quantity))
}

/// The sum of the lines, whose keys ascend as those of the list do; 19 at the first without a price.
fn total(lines: impl Iterator<Item = (u32, u32)>, prices: &[u8]) -> Result<u128, Refusal> {
    let mut prices = prices.chunks_exact(PRICE).map(Price::of).peekable();
    let mut total = 0;
    for (key, quantity) in lines {
        while prices.next_if(|price| price.key < key).is_some() {}
        match prices.peek() {
            Some(price) if price.key == key => total += price.line(quantity),
            _ => return refuse_at(NO_PRICE, key as usize),
        }
    }
    Ok(total)
}
