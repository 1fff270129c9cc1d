//! The differential run: the library under test beside the second implementation.
//!
//! usage: differ [--histories N] [--damaged M] [--long L] [--far K] [--seed S] [--uncounted] [--trace]
//!
//! History i has seed S + i, and so has damaged log i, long history i and far log i: a reported case is made again with
//! its seed and `--histories 1 --damaged 0 --long 0 --far 0 --uncounted`, or the like. The run fails at the first difference, and where a number that
//! document 01 allows a call was never met; `--uncounted` leaves that out. `--trace` prints each call before it is
//! made.

use std::process::ExitCode;
use std::thread;
use std::time::Instant;

use differ::damaged::damaged;
use differ::directories::faults;
use differ::far::{directed, far, large_tables, most_slots};
use differ::headers::worked;
use differ::histories::{history, long_history};
use differ::orders::order;
use differ::pair::{Difference, Pair};

struct Options {
    histories: u64,
    damaged: u64,
    long: u64,
    far: u64,
    seed: u64,
    counted: bool,
    trace: bool,
}

const USAGE: &str =
    "usage: differ [--histories N] [--damaged M] [--long L] [--far K] [--seed S] [--uncounted] [--trace]";

fn options() -> Result<Options, String> {
    let mut options = Options {
        histories: 10_000,
        damaged: 20_000,
        long: 100,
        far: 2,
        seed: 1,
        counted: true,
        trace: false,
    };
    let mut words = std::env::args().skip(1);
    while let Some(word) = words.next() {
        let place = match word.as_str() {
            "--histories" => &mut options.histories,
            "--damaged" => &mut options.damaged,
            "--long" => &mut options.long,
            "--far" => &mut options.far,
            "--seed" => &mut options.seed,
            "--uncounted" => {
                options.counted = false;
                continue;
            }
            "--trace" => {
                options.trace = true;
                continue;
            }
            _ => return Err(format!("{word}: no such option\n{USAGE}")),
        };
        *place = words
            .next()
            .and_then(|number| number.parse().ok())
            .ok_or_else(|| format!("{word} needs a number\n{USAGE}"))?;
    }
    Ok(options)
}

/// All cases of one part.
fn part(
    pair: &mut Pair,
    name: &str,
    first: u64,
    count: u64,
    case: fn(&mut Pair, u64) -> Result<(), Difference>,
) -> Result<(), Difference> {
    let start = Instant::now();
    let calls = pair.cover.calls;
    for seed in first..first + count {
        case(pair, seed)?;
    }
    println!(
        "{count} {name}, {} calls, {:.1} seconds",
        pair.cover.calls - calls,
        start.elapsed().as_secs_f64()
    );
    Ok(())
}

fn all(pair: &mut Pair, options: &Options) -> Result<(), Difference> {
    part(pair, "histories", options.seed, options.histories, history)?;
    part(pair, "damaged logs", options.seed, options.damaged, damaged)?;
    let once = u64::from(options.damaged > 0);
    part(pair, "set of damaged headers", options.seed, once, worked)?;
    part(pair, "set of directories", options.seed, once, faults)?;
    part(pair, "orders", options.seed, options.damaged / 8, order)?;
    part(
        pair,
        "long histories",
        options.seed,
        options.long,
        long_history,
    )?;
    part(pair, "far logs", options.seed, options.far, far)?;
    part(
        pair,
        "large tables",
        options.seed,
        options.far,
        large_tables,
    )?;
    part(
        pair,
        "logs of other directories",
        options.seed,
        options.far,
        directed,
    )?;
    if options.far > 0 {
        most_slots(pair)?;
    }
    Ok(())
}

/// What `stocklog.h` says is enough for any call (STOCKLOG_STACK), and some for this program.
fn stack() -> usize {
    let header = include_str!("../../../../include/stocklog.h");
    let (_, stated) = header
        .split_once("STOCKLOG_STACK = ")
        .expect("the header file states the stack");
    let digits: String = stated.chars().take_while(char::is_ascii_digit).collect();
    digits.parse::<usize>().expect("a number") + 262_144
}

fn main() -> ExitCode {
    let options = match options() {
        Ok(options) => options,
        Err(message) => {
            eprintln!("{message}");
            return ExitCode::from(2);
        }
    };
    let run = thread::Builder::new()
        .stack_size(stack())
        .spawn(move || run(&options));
    match run.map(thread::JoinHandle::join) {
        Ok(Ok(status)) => status,
        _ => ExitCode::from(3),
    }
}

/// The whole run, and its exit status.
fn run(options: &Options) -> ExitCode {
    let mut pair = Pair::new(options.trace);
    if let Err(Difference(text)) = all(&mut pair, options) {
        eprintln!("DIFFERENCE in {text}");
        return ExitCode::from(1);
    }
    print!("{}", pair.cover.table());
    let missing = pair.cover.missing(options.far > 0);
    if options.counted && !missing.is_empty() {
        eprintln!("never met: {}", missing.join(", "));
        return ExitCode::from(1);
    }
    println!("no difference in {} calls", pair.cover.calls);
    ExitCode::SUCCESS
}
