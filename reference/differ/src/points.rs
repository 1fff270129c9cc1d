//! Points of the benchmark, each measured in a process of its own, and rows of them.

use std::io::{BufRead, BufReader, Read};
use std::path::PathBuf;
use std::process::{Child, Command, Stdio};
use std::time::{Duration, Instant};
use std::{env, thread};

use crate::measure::Side;

/// The calls that the archive of a landing before may not have as they are now.
const SINCE: [&str; 2] = ["owed", "price"];

/// What is asked of a run.
#[derive(Clone)]
pub struct Asked {
    pub sizes: Vec<usize>,
    /// Seconds that one point may take.
    pub limit: u64,
    pub seed: u64,
    pub stride: u32,
    pub rounds: u32,
}

/// What a process that measured one point says.
#[derive(Clone, PartialEq)]
pub enum Point {
    /// Nanoseconds of one call, and its answer.
    Took(f64, String),
    Over,
    LeftOut,
}

impl Point {
    /// The lesser of two; a point that was once over the limit stays so.
    fn least(self, other: Point) -> Point {
        match (&self, &other) {
            (Point::Took(one, _), Point::Took(two, _)) if one <= two => self,
            (Point::Took(..) | Point::LeftOut, _) => other,
            (Point::Over, _) => self,
        }
    }

    pub fn each(&self, size: usize) -> Option<f64> {
        match self {
            Point::Took(whole, _) => Some(whole / size as f64),
            _ => None,
        }
    }

    pub fn shown(&self, size: usize, limit: u64) -> String {
        match self {
            Point::Took(whole, _) => format!("{:.0}", whole / size as f64),
            Point::Over => format!("over {limit} s"),
            Point::LeftOut => "left out".to_string(),
        }
    }
}

/// Who is measured, and on which log.
#[derive(Clone, PartialEq)]
pub struct Column {
    pub words: &'static str,
    pub side: Side,
    /// One of the logs that are made to be slow or stand beside them; without it, a log as the depots make one.
    pub log: Option<&'static str>,
    /// The call that is measured in place of the row's.
    pub call: Option<&'static str>,
    /// The benchmark of another landing.
    pub before: Option<String>,
    /// Calls that the archive of another landing does not have as they are now.
    pub without: Vec<&'static str>,
}

impl Column {
    pub fn library(log: Option<&'static str>) -> Column {
        Column {
            words: "proved",
            side: Side::Library,
            log,
            call: None,
            before: None,
            without: Vec::new(),
        }
    }

    pub fn reference(log: Option<&'static str>) -> Column {
        Column {
            words: "plain Rust",
            side: Side::Reference,
            log,
            call: None,
            before: None,
            without: Vec::new(),
        }
    }

    /// The archive of another landing, by its benchmark.
    pub fn landing_before(program: &str) -> Column {
        let has = |call: &str| {
            let mut asked = Command::new(program);
            asked.args(["--has", call]).stderr(Stdio::null());
            asked.status().is_ok_and(|status| status.success())
        };
        Column {
            words: "landing before",
            before: Some(program.to_string()),
            without: SINCE.into_iter().filter(|call| !has(call)).collect(),
            ..Column::library(None)
        }
    }

    fn program(&self) -> Result<PathBuf, String> {
        match &self.before {
            Some(other) => Ok(PathBuf::from(other)),
            None => env::current_exe().map_err(|error| error.to_string()),
        }
    }

    /// Whether an answer of this column is as that of the second implementation; its last word is a sum over the bytes, and
    /// another landing may have other bytes.
    fn agrees(&self, answer: &str, due: &str) -> bool {
        let said = |whole: &str| whole.rsplit_once(' ').map(|(said, _)| said.to_string());
        match self.before {
            Some(_) => said(answer) == said(due),
            None => answer == due,
        }
    }

    /// Measures a point in a process of its own.
    fn point(&self, call: &str, size: usize, asked: &Asked) -> Result<Point, String> {
        let call = self.call.unwrap_or(call);
        let mut command = Command::new(self.program()?);
        command
            .args(["--seed", &asked.seed.to_string()])
            .args(["--stride", &asked.stride.to_string()]);
        if let Some(log) = self.log {
            command.args(["--log", log]);
        }
        let mut child = command
            .args(["--point", call, &size.to_string(), self.side.name()])
            .stdout(Stdio::piped())
            .spawn()
            .map_err(|error| error.to_string())?;
        let Some(said) = wait(&mut child, asked.limit)? else {
            return Ok(Point::Over);
        };
        let (took, answer) = said
            .trim()
            .split_once(' ')
            .ok_or_else(|| format!("{call} of {size} entries, {}: it ended early", self.words))?;
        let took = took.parse().map_err(|_| format!("no number: {took}"))?;
        Ok(Point::Took(took, answer.to_string()))
    }
}

/// What it prints after its log is made, or nothing where it takes too long.
fn wait(child: &mut Child, limit: u64) -> Result<Option<String>, String> {
    let out = child.stdout.take().ok_or("no output")?;
    let mut out = BufReader::new(out);
    let mut made = String::new();
    out.read_line(&mut made)
        .map_err(|error| error.to_string())?;
    let start = Instant::now();
    while child
        .try_wait()
        .map_err(|error| error.to_string())?
        .is_none()
    {
        if start.elapsed() > Duration::from_secs(limit) {
            child.kill().map_err(|error| error.to_string())?;
            child.wait().map_err(|error| error.to_string())?;
            return Ok(None);
        }
        thread::sleep(Duration::from_millis(2));
    }
    let mut said = String::new();
    out.read_to_string(&mut said)
        .map_err(|error| error.to_string())?;
    Ok(Some(said))
}

/// A point for each column, of one call on logs of one size.
pub struct Row {
    pub call: &'static str,
    pub size: usize,
    pub points: Vec<Point>,
}

impl Row {
    /// The columns with the call and the log of the last one, which is the second implementation's, have its answer.
    fn compared(&self, columns: &[Column]) -> Result<(), String> {
        let (Some(last), Some(Point::Took(_, due))) = (columns.last(), self.points.last()) else {
            return Ok(());
        };
        for (column, point) in columns.iter().zip(&self.points) {
            if let Point::Took(_, answer) = point {
                let same = column.log == last.log && column.call == last.call;
                if same && !column.agrees(answer, due) {
                    return Err(format!(
                        "{} of {} entries, {}: the answer is {answer}, due is {due}",
                        self.call, self.size, column.words
                    ));
                }
            }
        }
        Ok(())
    }

    /// How many times as long the first column takes as the one at a place.
    pub fn ratio(&self, place: usize) -> Option<f64> {
        let first = self.points[0].each(self.size)?;
        Some(first / self.points[place].each(self.size)?)
    }

    /// The first column took too long for a ratio.
    pub fn is_over(&self) -> bool {
        self.points[0] == Point::Over
    }

    pub fn line(&self, limit: u64) -> String {
        let mut words = vec![self.call.to_string(), self.size.to_string()];
        words.extend(
            self.points
                .iter()
                .map(|point| point.shown(self.size, limit)),
        );
        words.extend((1..self.points.len()).map(|place| two_places(self.ratio(place))));
        format!("| {} |", words.join(" | "))
    }
}

/// A ratio, or a dash for none.
pub fn two_places(ratio: Option<f64>) -> String {
    ratio.map_or("-".to_string(), |ratio| format!("{ratio:.2}"))
}

/// The columns' points of a call, by turns. Those that were over the limit on a shorter log are left out.
fn points(
    call: &str,
    size: usize,
    columns: &[Column],
    slow: &[bool],
    asked: &Asked,
) -> Result<Vec<Point>, String> {
    let mut points = vec![Point::LeftOut; columns.len()];
    for _ in 0..asked.rounds {
        for (place, column) in columns.iter().enumerate() {
            if !slow[place] && points[place] != Point::Over {
                let found = column.point(call, size, asked)?;
                points[place] = points[place].clone().least(found);
            }
        }
    }
    Ok(points)
}

/// The rows of a call, a size after the other.
pub fn rows(call: &'static str, columns: &[Column], asked: &Asked) -> Result<Vec<Row>, String> {
    let mut rows = Vec::new();
    let left_out = |column: &Column| column.without.contains(&call);
    let mut slow: Vec<bool> = columns.iter().map(left_out).collect();
    for &size in &asked.sizes {
        let points = points(call, size, columns, &slow, asked)?;
        for (slow, point) in slow.iter_mut().zip(&points) {
            *slow |= *point == Point::Over;
        }
        let row = Row { call, size, points };
        row.compared(columns)?;
        eprintln!("{}", row.line(asked.limit));
        rows.push(row);
    }
    Ok(rows)
}
