//! Random price lists: good ones, and ones broken in each way that 18.2 and 18.3 name.

use crate::bytes::put32;
use crate::price::{list_of, Price, MOST_CENTS, PRICE};
use crate::random::{edge, flip, Random};

/// A price of a key.
pub fn price(random: &mut Random, key: u32) -> Price {
    Price {
        key,
        cents: match random.below(4) {
            0 => MOST_CENTS - random.below(3) as u32,
            1 => random.below(4) as u32,
            _ => random.below(2000) as u32,
        },
        from: match random.below(4) {
            0 => 0,
            1 => edge(random) as u32,
            _ => random.below(6) as u32,
        },
        percent: match random.below(4) {
            0 => random.pick(&[0, 100]).unwrap_or(0),
            1 => 50,
            _ => random.below(101) as u32,
        },
    }
}

/// Prices for these keys, and for some others beside; one is missing at that chance in percent.
pub fn list(random: &mut Random, keys: &[u32], missing: u64) -> Vec<Price> {
    let mut priced = keys.to_vec();
    for _ in 0..random.below(4) {
        priced.push(edge(random) as u32);
    }
    priced.sort_unstable();
    priced.dedup();
    if random.percent(missing) {
        let place = random.below(priced.len() as u64) as usize;
        priced.drain(place..(place + 1).min(priced.len()));
    }
    priced.into_iter().map(|key| price(random, key)).collect()
}

/// The bytes of a list with one thing wrong, where it has a record to change; or with a byte changed, which may be right.
pub fn broken(random: &mut Random, prices: &[Price]) -> Vec<u8> {
    let mut bytes = list_of(prices);
    let place = PRICE * random.below(prices.len() as u64) as usize;
    if prices.is_empty() {
        return vec![b'P'; 1 + random.below(19) as usize];
    }
    match random.below(8) {
        0 => bytes.truncate(bytes.len() - 1 - random.below(19) as usize),
        1 => bytes.extend_from_slice(&b"PR\0\0\xFF\xFF\xFF"[..1 + random.below(7) as usize]),
        2 => bytes[place + random.below(4) as usize] ^= 1 << random.below(8),
        3 => put32(
            &mut bytes,
            place + 8,
            MOST_CENTS + 1 + random.below(9) as u32,
        ),
        4 => put32(&mut bytes, place + 16, 101 + random.below(9) as u32),
        5 => bytes.extend_from_within(place..place + PRICE),
        6 => bytes.rotate_left(place),
        _ => flip(random, &mut bytes),
    }
    bytes
}
