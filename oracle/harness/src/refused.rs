//! What the crate did with the replies and bodies that we refuse: how many of each kind, and the shortest case of it.

use crate::ask_crate::paths::Did;
use crate::ask_crate::{bodies, replies};
use std::collections::BTreeMap;

/// The crate was asked beside the judge, and its answer is not to be compared.
#[derive(Clone, Copy, PartialEq, Eq, PartialOrd, Ord, Debug)]
pub enum Beside {
    Reply(replies::Beside),
    Body(bodies::Beside),
}

impl Beside {
    /// In the domain the judge may accept nothing here.
    pub fn binds(&self) -> bool {
        match self {
            Beside::Reply(r) => r.told_alike,
            Beside::Body(b) => !matches!(b, bodies::Beside::Item(_)),
        }
    }
    fn text(&self) -> String {
        match self {
            Beside::Reply(r) => [did(r.did), if r.told_alike { "" } else { ", told otherwise than it decides" }].concat(),
            Beside::Body(bodies::Beside::Written) => "written".into(),
            Beside::Body(bodies::Beside::NotWritten) => "not written".into(),
            Beside::Body(bodies::Beside::Item(d)) => did(*d).into(),
            Beside::Body(bodies::Beside::Walk { items, error, last }) => {
                let end = match last {
                    Did::Ended if *error => "",
                    Did::Ended => ", ended quietly",
                    Did::Panicked => ", then panic",
                    _ => " each time",
                };
                let items = if *items { "item handed out" } else { "no item" };
                [items, if *error { ", error" } else { "" }, end].concat()
            }
        }
    }
}

fn did(d: Did) -> &'static str {
    match d {
        Did::Accepted => "accepted",
        Did::Failed => "error, a failed status",
        Did::TooShort => "error, too short",
        Did::BadValue => "error, a value",
        Did::OtherError => "error, another",
        Did::Ended => "ended quietly",
        Did::Panicked => "panic",
    }
}

/// Operation, our number, what the crate did.
type Kind = (&'static str, u8, Beside);

#[derive(Default)]
pub struct Refused(BTreeMap<Kind, (u64, Vec<u8>)>);

impl Refused {
    pub fn add(&mut self, kind: Kind, line: &[u8]) {
        let (count, shortest) = self.0.entry(kind).or_insert_with(|| (0, line.to_vec()));
        *count += 1;
        if line.len() < shortest.len() {
            *shortest = line.to_vec();
        }
    }

    pub fn print(&self, show: impl Fn(&[u8]) -> String) {
        for ((op, number, beside), (count, line)) in &self.0 {
            let we = if *number == 0 { "accept".into() } else { number.to_string() };
            println!("refused {op}: we {we}, the crate: {}: {count} cases, such as {}", beside.text(), show(line));
        }
    }
}
