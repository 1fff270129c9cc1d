//! The exported names of the proved library over the second implementation: a library for the differential run to
//! be tried on, with and without mistakes.

use reference::append::Request;
use reference::boundary::{self, Said};
use reference::replica::Record;
use reference::slot::Names;
use std::slice;

/// A lent slice; an empty one may have any pointer.
///
/// # Safety
/// So many elements are readable there.
unsafe fn lent<'a, T>(start: *const T, length: usize) -> &'a [T] {
    if length == 0 {
        &[]
    } else {
        slice::from_raw_parts(start, length)
    }
}

/// # Safety
/// So many elements are readable and writable there, and nobody else has them.
unsafe fn lent_mut<'a, T>(start: *mut T, length: usize) -> &'a mut [T] {
    if length == 0 {
        &mut []
    } else {
        slice::from_raw_parts_mut(start, length)
    }
}

/// # Safety
/// So many numbers of `out` are writable.
unsafe fn hand(said: Said, out: *mut u64, length: usize) -> u32 {
    slice::from_raw_parts_mut(out, length).copy_from_slice(&said.out[..length]);
    said.number
}

/// Each call, with `dir` for the directory, which it takes first.
macro_rules! calls {
    ($dir:ident $($name:ident($($argument:ident: $type:ty),*) out $length:literal => $body:expr;)*) => {
        $(
            /// # Safety
            /// As `stocklog.h` says.
            #[no_mangle]
            pub unsafe extern "C" fn $name(first: *const u8, dir_len: usize, $($argument: $type,)* out: *mut u64) -> u32 {
                let $dir = lent(first, dir_len);
                hand($body, out, $length)
            }
        )*
    };
}

fn record(hosted: u64, position: u64, count: u64) -> Record {
    Record {
        hosted,
        position,
        count,
    }
}

calls! {
    dir
    stocklog_check(log: *const u8, log_len: usize, tail: u64) out 4 =>
        boundary::check(dir, lent(log, log_len), tail as usize);
    stocklog_owed(log: *const u8, log_len: usize, tail: u64, sets: *const u64, sets_len: usize) out 4 =>
        boundary::owed(dir, lent(log, log_len), tail as usize, lent(sets, sets_len));
    stocklog_entry(log: *const u8, log_len: usize, tail: u64, offset: u64) out 8 =>
        boundary::entry(dir, lent(log, log_len), tail as usize, offset);
    stocklog_header(log: *const u8, log_len: usize, tail: u64, offset: u64, place: u32) out 4 =>
        boundary::header(dir, lent(log, log_len), tail as usize, offset, place);
    stocklog_items(log: *const u8, log_len: usize, tail: u64, offset: u64) out 4 =>
        boundary::items(dir, lent(log, log_len), tail as usize, offset);
    stocklog_stream_next(log: *const u8, log_len: usize, tail: u64, object: u32, from: u64) out 4 =>
        boundary::stream_next(dir, lent(log, log_len), tail as usize, object, from);
    stocklog_stream_list(log: *const u8, log_len: usize, tail: u64, object: u32, list: *mut u32, list_len: usize) out 4 =>
        boundary::stream_list(dir, lent(log, log_len), tail as usize, object, lent_mut(list, list_len));
    stocklog_append_update(log: *mut u8, log_len: usize, tail: u64, number: u32, items: *const u8, items_len: usize) out 4 =>
        boundary::append(dir, lent_mut(log, log_len), tail as usize,
            &Request::Update { number, items: lent(items, items_len).to_vec() });
    stocklog_append_commit(log: *mut u8, log_len: usize, tail: u64, number: u32, reads: *const u8, reads_len: usize,
            first_named: u32, second_named: u32) out 4 =>
        boundary::append(dir, lent_mut(log, log_len), tail as usize, &Request::Commit {
            number,
            reads: lent(reads, reads_len).to_vec(),
            names: Names::of(first_named, second_named),
        });
    stocklog_append_decision(log: *mut u8, log_len: usize, tail: u64, offset: u64, outcome: u32) out 4 =>
        boundary::append(dir, lent_mut(log, log_len), tail as usize, &Request::Decision { offset, outcome });
    stocklog_append_checkpoint(log: *mut u8, log_len: usize, tail: u64, hosted: u64, position: u64, count: u64,
            table: *const u8, table_len: usize, object: u32) out 4 =>
        boundary::append(dir, lent_mut(log, log_len), tail as usize, &Request::Checkpoint {
            record: record(hosted, position, count),
            table: lent(table, table_len).to_vec(),
            object,
        });
    stocklog_open_fresh(hosted: u64) out 4 => boundary::open_fresh(dir, hosted);
    stocklog_open_checkpoint(log: *const u8, log_len: usize, tail: u64, offset: u64, table: *mut u8, table_len: usize) out 4 =>
        boundary::open_checkpoint(dir, lent(log, log_len), tail as usize, offset, lent_mut(table, table_len));
    stocklog_play(log: *const u8, log_len: usize, tail: u64, hosted: u64, position: u64, count: u64,
            table: *mut u8, table_len: usize, stop: u64) out 4 =>
        boundary::play(dir, lent(log, log_len), tail as usize, record(hosted, position, count),
            lent_mut(table, table_len), stop);
    stocklog_read_cell(hosted: u64, position: u64, count: u64, table: *const u8, table_len: usize, object: u32, key: u32) out 4 =>
        boundary::read_cell(dir, record(hosted, position, count), lent(table, table_len), object, key);
    stocklog_audit(log: *const u8, log_len: usize, tail: u64, scratch: *mut u8, scratch_len: usize) out 4 =>
        boundary::audit(dir, lent(log, log_len), tail as usize, lent_mut(scratch, scratch_len));
    stocklog_price(hosted: u64, position: u64, count: u64, table: *const u8, table_len: usize, object: u32,
            prices: *const u8, prices_len: usize) out 4 =>
        boundary::price(dir, record(hosted, position, count), lent(table, table_len), object, lent(prices, prices_len));
}
