//! Both sides, called together; the first difference ends the run.

use std::fs;

use reference::boundary::Said;
use reference::directory::eight;

use crate::calls::{by_reference, hex, Call, Library};
use crate::cover::Cover;

/// A difference, with all that is needed to see it again.
pub struct Difference(pub String);

/// Longer logs are not kept for a report.
const KEPT: usize = 1 << 20;

pub struct Pair {
    pub cover: Cover,
    /// Prints each call before it is made.
    pub trace: bool,
    /// The directory that calls are handed.
    pub dir: Vec<u8>,
    library: Library,
    part: &'static str,
    seed: u64,
    calls: u64,
}

impl Pair {
    pub fn new(trace: bool) -> Pair {
        Pair {
            cover: Cover::default(),
            trace,
            dir: eight().to_vec(),
            library: Library::default(),
            part: "",
            seed: 0,
            calls: 0,
        }
    }

    /// A new case, of the eight: what it is called and the seed that makes it.
    pub fn begin(&mut self, part: &'static str, seed: u64) {
        self.dir = eight().to_vec();
        self.part = part;
        self.seed = seed;
        self.calls = 0;
    }

    /// Makes a call on both sides. The log and the call are left as the second implementation leaves them.
    pub fn call(&mut self, log: &mut [u8], tail: u64, call: &mut Call) -> Result<Said, Difference> {
        self.calls += 1;
        if self.trace {
            eprintln!("{}", self.place(log, tail, call));
        }
        let before = ((log.len() <= KEPT).then(|| log.to_vec()), call.clone());
        self.library.call(&self.dir, log, tail, call);
        let said = by_reference(&self.dir, log, tail, call);
        if let Some(text) = self.library.difference(&said, &self.dir, log, call) {
            let kept = before.0.map_or(String::new(), |bytes| self.keep(&bytes));
            let place = self.place(log, tail, &before.1);
            return Err(Difference(format!("{place}\n{text}\n{kept}")));
        }
        self.cover.note(&self.dir, log, tail, &before.1, &said);
        Ok(said)
    }

    /// Makes one call with another directory.
    pub fn call_over(
        &mut self,
        dir: Vec<u8>,
        log: &mut [u8],
        tail: u64,
        call: &mut Call,
    ) -> Result<Said, Difference> {
        let own = std::mem::replace(&mut self.dir, dir);
        let said = self.call(log, tail, call);
        self.dir = own;
        said
    }

    /// The case, the call and its arguments.
    fn place(&self, log: &[u8], tail: u64, call: &Call) -> String {
        format!(
            "{} of seed {}, call {}: stocklog_{}\ndirectory {}\nlog of {} bytes, tail {tail}; {}",
            self.part,
            self.seed,
            self.calls,
            call.name(),
            hex(&self.dir),
            log.len(),
            call.shown()
        )
    }

    /// Writes the log, as it was before the call, to a file.
    fn keep(&self, log: &[u8]) -> String {
        let name = format!("differ-{}-{}-{}.log", self.part, self.seed, self.calls);
        let path = std::env::temp_dir().join(name);
        match fs::write(&path, log) {
            Ok(()) => format!("the log before the call: {}", path.display()),
            Err(error) => format!("the log could not be kept in {}: {error}", path.display()),
        }
    }
}
