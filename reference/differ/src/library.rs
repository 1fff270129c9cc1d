//! The library under test: its seventeen functions, as `stocklog.h` has them.
//!
//! With the feature `before` they are those of an archive from before directories, which know the eight alone: the directory is not
//! handed on. With `unpriced` it is one from before prices, which has no such function; with `unnamed` one from before commits named
//! numbers, to which none are handed on. The benchmark measures such archives beside the present one, on logs of the eight.

/// A hosted set, as the library takes one.
#[cfg(not(feature = "before"))]
pub type Hosted = u64;
#[cfg(feature = "before")]
pub type Hosted = u8;

macro_rules! calls {
    ($($name:ident($($argument:ident: $type:ty),*);)*) => {
        #[cfg(not(feature = "before"))]
        mod interface {
            extern "C" {
                $(pub fn $name(dir: *const u8, dir_len: usize, $($argument: $type,)* out: *mut u64) -> u32;)*
            }
        }

        #[cfg(feature = "before")]
        mod interface {
            mod before {
                extern "C" {
                    $(pub fn $name($($argument: $type,)* out: *mut u64) -> u32;)*
                }
            }

            $(
                /// # Safety
                /// As the `stocklog.h` of that archive says.
                #[allow(clippy::too_many_arguments)]
                pub unsafe fn $name(_: *const u8, _: usize, $($argument: $type,)* out: *mut u64) -> u32 {
                    before::$name($($argument,)* out)
                }
            )*
        }

        pub use interface::*;
    };
}

calls! {
    stocklog_check(log: *const u8, log_len: usize, tail: u64);
    stocklog_owed(log: *const u8, log_len: usize, tail: u64, sets: *const u64, sets_len: usize);
    stocklog_entry(log: *const u8, log_len: usize, tail: u64, offset: u64);
    stocklog_header(log: *const u8, log_len: usize, tail: u64, offset: u64, place: u32);
    stocklog_items(log: *const u8, log_len: usize, tail: u64, offset: u64);
    stocklog_stream_next(log: *const u8, log_len: usize, tail: u64, object: u32, from: u64);
    stocklog_stream_list(log: *const u8, log_len: usize, tail: u64, object: u32, list: *mut u32, list_len: usize);
    stocklog_append_update(log: *mut u8, log_len: usize, tail: u64, number: u32, items: *const u8, items_len: usize);
    stocklog_append_decision(log: *mut u8, log_len: usize, tail: u64, offset: u64, outcome: u32);
    stocklog_append_checkpoint(log: *mut u8, log_len: usize, tail: u64, hosted: crate::library::Hosted, position: u64, count: u64,
        table: *const u8, table_len: usize, object: u32);
    stocklog_open_fresh(hosted: crate::library::Hosted);
    stocklog_open_checkpoint(log: *const u8, log_len: usize, tail: u64, offset: u64, table: *mut u8, table_len: usize);
    stocklog_play(log: *const u8, log_len: usize, tail: u64, hosted: crate::library::Hosted, position: u64, count: u64,
        table: *mut u8, table_len: usize, stop: u64);
    stocklog_read_cell(hosted: crate::library::Hosted, position: u64, count: u64, table: *const u8, table_len: usize, object: u32, key: u32);
    stocklog_audit(log: *const u8, log_len: usize, tail: u64, scratch: *mut u8, scratch_len: usize);
}

#[cfg(not(feature = "unnamed"))]
extern "C" {
    pub fn stocklog_append_commit(
        dir: *const u8,
        dir_len: usize,
        log: *mut u8,
        log_len: usize,
        tail: u64,
        number: u32,
        reads: *const u8,
        reads_len: usize,
        first: u32,
        second: u32,
        out: *mut u64,
    ) -> u32;
}

#[cfg(feature = "unnamed")]
pub use unnamed::stocklog_append_commit;

#[cfg(feature = "unnamed")]
mod unnamed {
    #[cfg(not(feature = "before"))]
    mod interface {
        extern "C" {
            pub fn stocklog_append_commit(
                dir: *const u8,
                dir_len: usize,
                log: *mut u8,
                log_len: usize,
                tail: u64,
                number: u32,
                reads: *const u8,
                reads_len: usize,
                out: *mut u64,
            ) -> u32;
        }
    }

    #[cfg(feature = "before")]
    mod interface {
        extern "C" {
            pub fn stocklog_append_commit(
                log: *mut u8,
                log_len: usize,
                tail: u64,
                number: u32,
                reads: *const u8,
                reads_len: usize,
                out: *mut u64,
            ) -> u32;
        }
    }

    /// # Safety
    /// As the `stocklog.h` of that archive says.
    #[allow(clippy::too_many_arguments, unused_variables)]
    pub unsafe fn stocklog_append_commit(
        dir: *const u8,
        dir_len: usize,
        log: *mut u8,
        log_len: usize,
        tail: u64,
        number: u32,
        reads: *const u8,
        reads_len: usize,
        _: u32,
        _: u32,
        out: *mut u64,
    ) -> u32 {
        #[cfg(not(feature = "before"))]
        return interface::stocklog_append_commit(
            dir, dir_len, log, log_len, tail, number, reads, reads_len, out,
        );
        #[cfg(feature = "before")]
        return interface::stocklog_append_commit(
            log, log_len, tail, number, reads, reads_len, out,
        );
    }
}

#[cfg(not(feature = "unpriced"))]
extern "C" {
    pub fn stocklog_price(
        dir: *const u8,
        dir_len: usize,
        hosted: u64,
        position: u64,
        count: u64,
        table: *const u8,
        table_len: usize,
        object: u32,
        prices: *const u8,
        prices_len: usize,
        out: *mut u64,
    ) -> u32;
}

/// # Safety
/// Nothing is asked: no memory is touched. The answer is none that a call has.
#[cfg(feature = "unpriced")]
#[allow(clippy::too_many_arguments)]
pub unsafe fn stocklog_price(
    _: *const u8,
    _: usize,
    _: u64,
    _: u64,
    _: u64,
    _: *const u8,
    _: usize,
    _: u32,
    _: *const u8,
    _: usize,
    _: *mut u64,
) -> u32 {
    u32::MAX
}
