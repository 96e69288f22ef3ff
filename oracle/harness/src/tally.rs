//! Counts, and the differing cases that are shown.

use crate::refused::{Beside, Refused};
use std::collections::BTreeMap;

#[derive(Clone, Copy, PartialEq, Eq, PartialOrd, Ord)]
pub enum Source {
    Crate,
    Judge,
}

/// At most so many differing cases are shown, the smallest ones.
const SHOWN: usize = 20;

pub struct Tally {
    /// whose answers are held against the crate and the judge
    whose: &'static str,
    compared: u64,
    judged: u64,
    crate_differ: u64,
    judge_differ: u64,
    documents_differ: u64,
    broken: bool,
    /// by operation: compared, judged
    by_op: BTreeMap<&'static str, (u64, u64)>,
    shown: Vec<(usize, String)>,
    refused: Refused,
    show_refused: bool,
}

impl Tally {
    /// With `show_refused` the report has what the crate did where we refuse, too.
    pub fn new(whose: &'static str, show_refused: bool) -> Self {
        Tally {
            whose,
            compared: 0,
            judged: 0,
            crate_differ: 0,
            judge_differ: 0,
            documents_differ: 0,
            broken: false,
            by_op: BTreeMap::new(),
            shown: vec![],
            refused: Refused::default(),
            show_refused,
        }
    }

    pub fn add(&mut self, from: Source, line: &[u8], want: &[u8], ours: &[u8]) {
        self.same(from, line, want == ours, || printable(want), ours);
    }

    /// `want` is the text that is shown where the two are not the same.
    pub fn same(&mut self, from: Source, line: &[u8], same: bool, want: impl FnOnce() -> String, ours: &[u8]) {
        let by_op = self.by_op.entry(operation(line)).or_default();
        let (name, differ) = match from {
            Source::Crate => {
                self.compared += 1;
                by_op.0 += 1;
                ("the crate", &mut self.crate_differ)
            }
            Source::Judge => {
                self.judged += 1;
                by_op.1 += 1;
                ("the judge", &mut self.judge_differ)
            }
        };
        if !same {
            *differ += 1;
            self.show(line, name, want, self.whose, ours);
        }
    }

    /// The crate and the judge on a case of the crate's: neither is ours.
    pub fn documents(&mut self, line: &[u8], crate_says: &[u8], judge_says: &[u8]) {
        if crate_says != judge_says {
            self.documents_differ += 1;
            self.show(line, "the crate", || printable(crate_says), "the judge", judge_says);
        }
    }

    /// The crate was asked beside the judge, and its answer is not to be compared: what we refuse is counted by kind,
    /// and of good bodies the items past the domain. A reply that the judge accepts is refused by the crate only where
    /// we are told otherwise than it decides.
    pub fn beside(&mut self, line: &[u8], beside: Beside, judge_says: &[u8]) {
        let text = std::str::from_utf8(judge_says).ok().filter(|t| *t != "bad");
        let number = text.and_then(|t| u8::from_str_radix(t.get(..2)?, 16).ok());
        match number {
            Some(0) if beside.binds() => self.documents(line, format!("{beside:?}").as_bytes(), judge_says),
            None => {}
            Some(0) if matches!(beside, Beside::Reply(_)) => {}
            Some(n) => self.refused.add((operation(line), n, beside), line),
        }
    }

    /// The run can't go on, or did not end as it should.
    pub fn broken(&mut self, what: &str, at: &[u8]) {
        self.broken = true;
        self.crate_differ += 1;
        println!("DIFFER {what}\n  {}", printable(at));
    }

    pub fn is_broken(&self) -> bool {
        self.broken
    }

    fn show(&mut self, line: &[u8], name: &str, want: impl FnOnce() -> String, other: &str, ours: &[u8]) {
        let full = self.shown.len() == SHOWN;
        if full && self.shown.last().is_some_and(|l| l.0 <= line.len()) {
            return;
        }
        let text = format!("DIFFER {}\n  {name}: {}\n  {other}: {}", printable(line), want(), printable(ours));
        let at = self.shown.partition_point(|s| s.0 <= line.len());
        self.shown.insert(at, (line.len(), text));
        self.shown.truncate(SHOWN);
    }

    /// Prints everything; true where nothing differs.
    pub fn report(&self) -> bool {
        for (_, text) in &self.shown {
            println!("{text}");
        }
        if self.show_refused {
            self.refused.print(printable);
        }
        for (op, (compared, judged)) in &self.by_op {
            println!("operation {op}: {compared} compared, {judged} judged");
        }
        if self.documents_differ > 0 {
            println!("the crate and the judge differ on {} cases", self.documents_differ);
        }
        println!("{} judged, {} differ", self.judged, self.judge_differ);
        println!("{} compared, {} differ", self.compared, self.crate_differ);
        !self.broken && self.differ() == 0
    }

    /// How many cases differ, from whomever.
    pub fn differ(&self) -> u64 {
        self.crate_differ + self.judge_differ + self.documents_differ
    }
}

/// The operation of a line.
fn operation(line: &[u8]) -> &'static str {
    const KNOWN: [&str; 32] = [
        "01", "02", "03", "04", "05", "06", "07", "10", "11", "12", "13", "14", "15", "18", "19", "1A", "1B", "20", "21", "22",
        "23", "24", "25", "26", "27", "30", "31", "32", "33", "34", "40", "50",
    ];
    KNOWN.into_iter().find(|op| line.starts_with(op.as_bytes())).unwrap_or("none")
}

/// Text that any screen shows; the middle of a very long one is left out.
fn printable(text: &[u8]) -> String {
    const LONGEST: usize = 10_000;
    if text.len() <= LONGEST {
        return text.escape_ascii().to_string();
    }
    let (front, back) = (&text[..200], &text[text.len() - 200..]);
    format!("{} .. {} ({} characters)", front.escape_ascii(), back.escape_ascii(), text.len())
}
