//! The benchmark: check, owed, append, commit, play of all and audit, by the library under test and by the second
//! implementation, on the same logs.
//!
//! usage: bench [--worst] [--sizes N,N,..] [--limit SECONDS] [--seed S] [--stride T] [--rounds R] [--before BENCH] [--report FILE] [--plot FILE]
//!
//! Prints a table: processor time of one call in nanoseconds for each entry of the log, and the ratio. Each point is
//! measured in a process of its own, which is ended when it has taken longer than the limit; larger logs are then left
//! out. The sides take turns, so many rounds of them (3 unless it is given), and the least time counts. Transaction
//! numbers are multiples of the stride, 1 unless it is given. Both sides must give the same answer, `out` and bytes.
//! `--before` names this program as it was linked with the archive of another landing: that archive is measured in the
//! same run, and must give the same answer and `out`; the layout of its bytes may be another one. A call that it does not have as it is
//! now is left out there. The price, which takes no log, is measured on tables of as many rows. `--report` writes the table with some words of explanation, `--plot` a plot as SVG.
//!
//! After the logs of the eight come those over a directory of 64 sparse ids, of 16,384 entries and more where there are such sizes;
//! the archive of the other landing is not measured on them.
//!
//! Then come logs whose commits name numbers: a play of everything that goes on from a later entry, beside a play from offset 0.
//!
//! `bench --takes-directory` has status 0 where the linked archive takes a directory; else it is ended by a signal, as likely as not.
//! `bench --takes-names` likewise, where its append of a commit takes the numbers that it names.
//! `bench --has CALL` has status 0 where it has that call as it is now.
//!
//! With `--worst` the logs are those that are made to be slow, each beside one that is not, and some whose commit is
//! measured beside their check; it prints which rows take over 3 times as long, and `--report` writes a section of the page. Seed, stride, `--before` and `--plot` do nothing then.

use std::process::ExitCode;
use std::{env, fs};

use differ::measure::{has, measured, takes_directory, takes_names, Side, CALLS, PLOTTED};
use differ::naming::{FROM_0, LATER};
use differ::orders;
use differ::page::{self, Slow};
use differ::plot::plot;
use differ::points::{rows, Asked, Column};
use differ::sparse::SPARSE;
use differ::workload::workload;
use differ::worst::{log, COMMITS, LOGS};

struct Options {
    worst: bool,
    asked: Asked,
    before: Option<String>,
    report: Option<String>,
    plot: Option<String>,
    /// A process that measures one point: on a log of that name, or one as the depots make it.
    log: Option<String>,
    point: Option<Wanted>,
}

struct Wanted {
    call: String,
    size: usize,
    side: Side,
}

const USAGE: &str =
    "usage: bench [--worst] [--sizes N,N,..] [--limit SECONDS] [--seed S] [--stride T] [--rounds R] [--before BENCH] [--report FILE] [--plot FILE]";

const SIZES: [usize; 5] = [1_024, 4_096, 16_384, 65_536, 131_072];
const WORST_SIZES: [usize; 3] = [4_096, 32_768, 131_072];

fn sizes(value: &str) -> Option<Vec<usize>> {
    let size = |word: &str| {
        word.parse()
            .ok()
            .filter(|size| (1..=131_072).contains(size))
    };
    value.split(',').map(size).collect()
}

fn options() -> Option<Options> {
    let mut options = Options {
        worst: false,
        asked: Asked {
            sizes: Vec::new(),
            limit: 60,
            seed: 1,
            stride: 1,
            rounds: 3,
        },
        before: None,
        report: None,
        plot: None,
        log: None,
        point: None,
    };
    let mut words = env::args().skip(1);
    while let Some(word) = words.next() {
        if word == "--worst" {
            options.worst = true;
            continue;
        }
        let value = words.next()?;
        let asked = &mut options.asked;
        match word.as_str() {
            "--sizes" => asked.sizes = sizes(&value)?,
            "--limit" => asked.limit = value.parse().ok()?,
            "--seed" => asked.seed = value.parse().ok()?,
            "--stride" => asked.stride = value.parse().ok()?,
            "--rounds" => asked.rounds = value.parse().ok().filter(|rounds| *rounds > 0)?,
            "--before" => options.before = Some(value),
            "--report" => options.report = Some(value),
            "--plot" => options.plot = Some(value),
            "--log" => options.log = Some(value),
            "--point" => {
                options.point = Some(Wanted {
                    call: value,
                    size: words.next()?.parse().ok()?,
                    side: Side::named(&words.next()?)?,
                });
            }
            _ => return None,
        }
    }
    if options.asked.sizes.is_empty() {
        options.asked.sizes = match options.worst {
            true => WORST_SIZES.to_vec(),
            false => SIZES.to_vec(),
        };
    }
    Some(options)
}

/// Says when the log is made, for only then does the limit begin; then what was measured.
fn point(wanted: &Wanted, options: &Options) -> Result<(), String> {
    let (made, time) = match &options.log {
        Some(name) => {
            let made = log(name, wanted.size).ok_or_else(|| format!("no log is called {name}"))?;
            (made, 1e8)
        }
        None if wanted.call == "price" => (orders::measured(wanted.size), 5e8),
        None => {
            let made = workload(wanted.size, options.asked.seed, options.asked.stride);
            (made, 5e8)
        }
    };
    println!("made");
    let (took, answer) = measured(&wanted.call, made, wanted.side, time);
    println!("{took} {answer}");
    Ok(())
}

/// The second implementation is the last of them.
fn columns(before: &Option<String>) -> Vec<Column> {
    let mut columns = vec![Column::library(None)];
    if let Some(program) = before {
        columns.push(Column::landing_before(program));
    }
    columns.push(Column::reference(None));
    columns
}

fn store(file: &str, text: &str) -> Result<(), String> {
    fs::write(file, text).map_err(|error| format!("cannot write {file}: {error}"))
}

/// The tables of the logs over 64 sparse ids.
fn sparse(options: &Options) -> Result<String, String> {
    let mut asked = options.asked.clone();
    if asked.sizes.iter().any(|size| *size >= 16_384) {
        asked.sizes.retain(|size| *size >= 16_384);
    }
    let mut tables = Vec::new();
    for log in &SPARSE {
        eprintln!("{}", log.name);
        let columns = [
            Column::library(Some(log.name)),
            Column::reference(Some(log.name)),
        ];
        let mut of_log = Vec::new();
        for call in CALLS.into_iter().filter(|call| *call != "commit") {
            of_log.extend(rows(call, &columns, &asked)?);
        }
        let table = page::table(&of_log, &columns, asked.limit);
        tables.push((log.name, table));
    }
    Ok(page::sparse(&tables))
}

/// The tables of plays on logs whose commits name numbers.
fn naming(options: &Options) -> Result<String, String> {
    let mut tables = Vec::new();
    for log in [FROM_0.name].into_iter().chain(LATER.map(|log| log.name)) {
        eprintln!("{log}");
        let from_0 = Column {
            words: "proved from offset 0",
            ..Column::library(Some(FROM_0.name))
        };
        let columns = [
            Column::library(Some(log)),
            from_0,
            Column::reference(Some(log)),
        ];
        let of_log = rows("play", &columns, &options.asked)?;
        tables.push((log, page::table(&of_log, &columns, options.asked.limit)));
    }
    Ok(page::naming(&tables))
}

fn depots(options: &Options) -> Result<(), String> {
    let columns = columns(&options.before);
    let mut all = Vec::new();
    for call in CALLS {
        all.extend(rows(call, &columns, &options.asked)?);
    }
    let table = page::table(&all, &columns, options.asked.limit);
    let beside = ["owed", "append", "commit"].map(|call| page::beside_check(call, &all, &columns));
    let priced = rows("price", &columns, &options.asked)?;
    let prices = page::prices(&priced, &columns, options.asked.limit);
    let sparse = sparse(options)?;
    let naming = naming(options)?;
    let tables = format!(
        "{table}\n{}\n{prices}\n{naming}\n{sparse}",
        beside.join("\n")
    );
    print!("{tables}");
    if let Some(file) = &options.plot {
        store(file, &plot(&page::lines(&all, &columns)))?;
    }
    if let Some(file) = &options.report {
        let old = fs::read_to_string(file).unwrap_or_default();
        let before = options.before.is_some();
        store(
            file,
            &page::depots(&tables, before, options.plot.as_deref(), &old),
        )?;
    }
    Ok(())
}

fn worst(options: &Options) -> Result<(), String> {
    let asked = &options.asked;
    let mut all = Vec::new();
    for log in &LOGS {
        let Some(beside) = log.beside else { continue };
        eprintln!("{}", log.name);
        let columns = [
            Column::library(Some(log.name)),
            Column::library(Some(beside)),
            Column::reference(Some(log.name)),
        ];
        let mut of_log = Vec::new();
        for call in PLOTTED {
            of_log.extend(rows(call, &columns, asked)?);
        }
        all.push(Slow {
            log,
            beside,
            rows: of_log,
        });
    }
    for log in &COMMITS {
        eprintln!("{}", log.name);
        let check = Column {
            call: Some("check"),
            ..Column::library(Some(log.name))
        };
        let columns = [
            Column::library(Some(log.name)),
            check,
            Column::reference(Some(log.name)),
        ];
        all.push(Slow {
            log,
            beside: "its check",
            rows: rows("commit", &columns, asked)?,
        });
    }
    let table = page::slow_table(&all, &asked.sizes, asked.limit);
    let verdict = page::verdict(&all, asked.limit);
    print!("{table}\n{verdict}");
    if let Some(file) = &options.report {
        let old = fs::read_to_string(file).unwrap_or_default();
        store(file, &page::worst(&table, &verdict, asked.limit, &old))?;
    }
    Ok(())
}

fn run(options: &Options) -> Result<(), String> {
    match (&options.point, options.worst) {
        (Some(wanted), _) => point(wanted, options),
        (None, true) => worst(options),
        (None, false) => depots(options),
    }
}

fn main() -> ExitCode {
    let words: Vec<String> = env::args().skip(1).collect();
    let words: Vec<&str> = words.iter().map(String::as_str).collect();
    match words[..] {
        ["--takes-directory"] => return ExitCode::from(u8::from(!takes_directory())),
        ["--takes-names"] => return ExitCode::from(u8::from(!takes_names())),
        ["--has", call] => return ExitCode::from(u8::from(!has(call))),
        _ => {}
    }
    let Some(options) = options() else {
        eprintln!("{USAGE}");
        return ExitCode::from(2);
    };
    match run(&options) {
        Ok(()) => ExitCode::SUCCESS,
        Err(message) => {
            eprintln!("{message}");
            ExitCode::from(1)
        }
    }
}
