//! The page that the benchmark writes: a part about the depots' logs, and a section about logs that are made to be slow. Each is
//! written by a run of its own, which leaves the other as it is.

use crate::measure::{CALLS, PLOTTED};
use crate::plot::Line;
use crate::points::{two_places, Column, Point, Row};
use crate::processor::processor;
use crate::worst::Log;

const WORST: &str = "\n## Logs made to be slow\n";

/// A row that takes this many times as long as the one beside it is told.
pub const MOST: f64 = 3.0;

fn head(words: &[String]) -> String {
    format!(
        "| {} |\n{}|\n",
        words.join(" | "),
        "|---".repeat(words.len())
    )
}

/// The points of each row, and how many times as long the first column takes as each other.
pub fn table(rows: &[Row], columns: &[Column], limit: u64) -> String {
    table_by(["entries", "entry"], rows, columns, limit)
}

/// The same, of what the times are divided by: several, and one of them.
fn table_by([several, one]: [&str; 2], rows: &[Row], columns: &[Column], limit: u64) -> String {
    let mut words = vec!["call".to_string(), several.to_string()];
    words.extend(
        columns
            .iter()
            .map(|column| format!("{}, ns for each {one}", column.words)),
    );
    words.extend(
        columns[1..]
            .iter()
            .map(|column| format!("proved / {}", column.words)),
    );
    let mut text = head(&words);
    for row in rows {
        text += &row.line(limit);
        text += "\n";
    }
    text
}

/// How many times as long a call takes as a check of the same log.
pub fn beside_check(call: &str, rows: &[Row], columns: &[Column]) -> String {
    let mut words = vec![format!("{call} / check, entries")];
    words.extend(columns.iter().map(|column| column.words.to_string()));
    let mut text = head(&words);
    for of_call in rows.iter().filter(|row| row.call == call) {
        let mut words = vec![of_call.size.to_string()];
        for place in 0..columns.len() {
            let mut same = rows.iter().filter(|row| row.size == of_call.size);
            let check = same.find(|row| row.call == "check");
            let check = check.and_then(|row| row.points[place].each(row.size));
            let ratio = of_call.points[place].each(of_call.size).zip(check);
            words.push(two_places(ratio.map(|(whole, check)| whole / check)));
        }
        text += &format!("| {} |\n", words.join(" | "));
    }
    text
}

/// The table of prices, which take no log.
pub fn prices(rows: &[Row], columns: &[Column], limit: u64) -> String {
    let table = table_by(["rows", "row"], rows, columns, limit);
    format!(
        "\
The price of a replica with so many cells of one map, each of them a line, by a list with a price for each. The call tests the order of\n\
all rows first; then it goes once over the rows of the object and the list.\n\n{table}"
    )
}

/// The tables of the logs over sparse ids, each with its name.
pub fn sparse(tables: &[(&str, String)]) -> String {
    let mut text = "\
The same calls on logs over a directory of 64 objects, whose ids are spread from 1 to 2,147,483,647: 16 maps of which 12,500 keys are in\n\
use, 32 of 12 keys, 16 registers. The keys of a map are spread over all that there are. A log begins with plain updates of 12 new cells\n\
each, 200,000 in all, or with as many as three quarters of it hold, or half. Then come entries as above; or an update for each\n\
of the small objects, and checkpoints of them in turn, each of all its cells.\n"
        .to_string();
    for (name, table) in tables {
        text += &format!("\n{name}:\n\n{table}");
    }
    text
}

/// The tables of plays on logs whose commits name numbers, each with its name.
pub fn naming(tables: &[(&str, String)]) -> String {
    let mut text = "\
Plays of everything on logs as above, of which every third commit record names one or two numbers that have committed. The plain Rust\n\
notes which numbers have committed as it plays from offset 0; to go on from a later entry it first plays the log from offset 0. The proved\n\
library works that out before it plays, wherever it begins. A play that goes on is measured beside the play from offset 0 of the same log,\n\
and should take at most 2.2 times as long.\n"
        .to_string();
    for (name, table) in tables {
        text += &format!("\n{name}:\n\n{table}");
    }
    text
}

/// The lines of the plot, which leaves some calls, the landing before and other directories out.
pub fn lines(rows: &[Row], columns: &[Column]) -> Vec<Line> {
    let mut lines = Vec::new();
    for (colour, call) in PLOTTED.into_iter().enumerate() {
        for (place, column) in columns.iter().enumerate() {
            if column.before.is_some() {
                continue;
            }
            let of_call = rows.iter().filter(|row| row.call == call);
            let points = of_call.filter_map(|row| {
                let each = row.points[place].each(row.size)?;
                Some((row.size as f64, each))
            });
            lines.push(Line {
                name: format!("{call}, {}", column.words),
                colour,
                dashed: place + 1 == columns.len(),
                points: points.collect(),
            });
        }
    }
    lines
}

/// The first part of the page, and the section that the page had.
pub fn depots(tables: &str, before: bool, plot: Option<&str>, old: &str) -> String {
    let picture = match plot {
        Some(file) => {
            let name = file.rsplit('/').next().unwrap_or(file);
            format!("\n![Nanoseconds for each entry by the number of entries]({name})\n")
        }
        None => String::new(),
    };
    let before = match before {
        true => "\nThe archive of the landing before was measured in the same run, with the same answers.",
        false => "",
    };
    let section = old.find(WORST).map_or("", |from| &old[from..]);
    format!(
        "# Speed\n\n\
One call of the proved library, through its C interface, and of the second implementation (`reference/`, plain Rust with a quick\n\
hash map for transaction numbers and arrays for all else), on the same logs in one run: processor time of the call in nanoseconds,\n\
divided by the entries of the log. Every call checks the whole log first, so an append too costs time for each entry. To owed 16 sets are\n\
declared, each of all objects: every commit record without a decision is asked for each set, and none owes. The append is of\n\
an update with a number that is new, in place of the last entry. The commit is of that number, whose one update then is the last entry\n\
but one; it has 12 reads, spread over all cells, with the versions that a replica shows. The least of several calls is shown. Both sides\n\
gave the same answers and left the same bytes. `tools/bench` makes this page and the plot, which leaves owed and the commit out.{before}\n\n\
The logs: plain updates, transactions of 1 to 4 updates with 1 to 4 reads, three in a hundred of them stale, decision records for\n\
reads of marked objects, a checkpoint of the van or a register now and then; 6,000 patients, 8,000 orders, 500 items a depot.\n\n\
Processor: {}.\n\n{tables}{picture}{section}",
        processor()
    )
}

/// The rows of one log that is made to be slow.
pub struct Slow {
    pub log: &'static Log,
    pub beside: &'static str,
    pub rows: Vec<Row>,
}

impl Slow {
    /// The rows that take too many times as long as those beside them, in words.
    pub fn told(&self, limit: u64) -> Vec<String> {
        let far = |row: &&Row| row.is_over() || row.ratio(1).is_some_and(|ratio| ratio > MOST);
        let words = |row: &Row| {
            let place = format!("{}: {} of {} entries", self.log.name, row.call, row.size);
            match row.ratio(1) {
                Some(ratio) => format!("{place}, {ratio:.1} times"),
                None => format!("{place}, over {limit} s"),
            }
        };
        self.rows.iter().filter(far).map(words).collect()
    }

    /// A line for each call, with a place for each size.
    fn lines(&self, limit: u64) -> String {
        let mut text = String::new();
        for call in CALLS {
            let of_call = self.rows.iter().filter(|row| row.call == call);
            let places: Vec<String> = of_call.map(|row| place(row, limit)).collect();
            if places.is_empty() {
                continue;
            }
            text += &format!(
                "| {} | {} | {call} | {} |\n",
                self.log.name,
                self.beside,
                places.join(" | ")
            );
        }
        text
    }
}

/// Nanoseconds, and how many times those of the log beside and those of plain Rust they are.
fn place(row: &Row, limit: u64) -> String {
    let first = row.points[0].shown(row.size, limit);
    match row.points[0] {
        Point::Took(..) => {
            let [beside, rust] = [1, 2].map(|place| two_places(row.ratio(place)));
            format!("{first} ({beside}, {rust})")
        }
        Point::Over | Point::LeftOut => first,
    }
}

pub fn slow_table(all: &[Slow], sizes: &[usize], limit: u64) -> String {
    let mut words = ["log", "beside", "call"].map(str::to_string).to_vec();
    words.extend(sizes.iter().map(|size| format!("{size} entries")));
    let mut text = head(&words);
    for slow in all {
        text += &slow.lines(limit);
    }
    text
}

/// Which rows are over the most, in words.
pub fn verdict(all: &[Slow], limit: u64) -> String {
    let told: Vec<String> = all.iter().flat_map(|slow| slow.told(limit)).collect();
    match told.len() {
        0 => format!("No row takes over {MOST} times as long as the log beside it.\n"),
        many => format!(
            "{many} rows take over {MOST} times as long as the log beside them, or longer than the limit:\n\n- {}\n",
            told.join("\n- ")
        ),
    }
}

/// The page with this section.
pub fn worst(tables: &str, verdict: &str, limit: u64, old: &str) -> String {
    let first = old.find(WORST).map_or(old, |from| &old[..from]);
    format!(
        "{first}{WORST}\n\
Whoever may append could make such logs to stop the others. Each is measured beside a log of the same length and kind that is not\n\
made so. `tools/bench --worst` makes this section.\n\n\
- Numbers: updates, each of a transaction of its own, in the first half of the log; then their commit records in the same order.\n\
- Powers of two less 1, and 1 to 32: updates of 32 transactions in turn, then their commit records.\n\
- Checkpoints: a plain update of the object's highest key, then checkpoints with that cell.\n\
- New cells: plain updates of 12 writes that write all 21,503 cells, by object and key ascending, descending or in mixed order, and\n  \
then all again.\n\
- One entry: the play is of the last entry, by a replica with almost 20,000 rows; its one write is of a cell that has a row, or of one\n  \
whose row comes before all others.\n\
- The append is of an update with the number of the last entry, in place of it.\n\
- 12 reads: a commit, in place of the last entry, all of whose versions are true. They point to a commit record near the end of the\n  \
log, or to 12, whose updates write the cells at the beginning alone; between are updates of another transaction, or of the same one, 12\n  \
writes in each. This commit is measured beside a check of the same log.\n\n\
A place of the table has the nanoseconds of the proved library for each entry; then, how many times those on the log beside they are,\n\
and how many times those of plain Rust on the same log. A point that takes over {limit} s is ended, and longer logs of its row are left\n\
out. Both sides gave the same answers and left the same bytes.\n\n\
Processor: {}.\n\n{verdict}\n{tables}",
        processor()
    )
}
