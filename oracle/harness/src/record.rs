//! The recorded cases and answers: two files, `stdin` and `stdout`. `stdin` is the choice, made by hand; whatever stands
//! there is asked. List 1 has the crate's answers, list 2 ours, that is the judge's. Neither has anything that our program
//! said.

use crate::ask_crate;
use crate::cases::{self, Case, Truth};
use crate::judge;
use crate::tally::{Source, Tally};
use std::collections::{BTreeMap, HashSet};
use std::io::{Error, ErrorKind, Result};
use std::path::Path;

/// What the first line of each list begins with.
const LIST_1: &[u8] = b"# List 1";
const LIST_2: &[u8] = b"# List 2";

/// Of lines with more digits `choose` gives only the shortest of a kind: the gate reads each.
const LONG: usize = 1_000;

/// What both say of a line: the crate something or nothing, and of what is no case nothing; the judge always something.
struct Said {
    of_crate: Option<Vec<u8>>,
    judged: Vec<u8>,
}

/// None where the line has nothing on it.
fn said(line: &[u8]) -> Option<Said> {
    let judged = judge::line(line)?.into_bytes();
    let of_crate = if judged == b"bad" { None } else { ask_crate::of_line(line) };
    Some(Said { of_crate, judged })
}

struct Recorded {
    from: Source,
    line: Vec<u8>,
    said: Said,
}

impl Recorded {
    /// What is to stand in `stdout`.
    fn answer(&self) -> &[u8] {
        match (self.from, &self.said.of_crate) {
            (Source::Crate, Some(a)) => a,
            _ => &self.said.judged,
        }
    }
}

/// The lines of `stdin` that have an answer. Whose it is says the list; in list 1 the crate has to have one.
fn recorded(folder: &str) -> Result<Vec<Recorded>> {
    let wrong = |what: &str, line: &[u8]| Error::new(ErrorKind::InvalidData, format!("{what}: {}", line.escape_ascii()));
    let text = std::fs::read(Path::new(folder).join("stdin"))?;
    let mut list = None;
    let mut all = vec![];
    for line in text.split(|c| *c == b'\n') {
        if line.starts_with(LIST_1) {
            list = Some(Source::Crate);
        } else if line.starts_with(LIST_2) {
            list = Some(Source::Judge);
        }
        let Some(said) = said(line) else { continue };
        let from = list.ok_or_else(|| wrong("a case before the first list", line))?;
        if from == Source::Crate && said.of_crate.is_none() {
            return Err(wrong("not a case of the crate's", line));
        }
        all.push(Recorded { from, line: line.to_vec(), said });
    }
    Ok(all)
}

/// The recorded lines as cases of the comparing run.
pub fn asked(folder: &str) -> Result<Vec<Case>> {
    let case = |r: Recorded| Case { line: r.line, truth: r.said.of_crate.map_or(Truth::Judge, Truth::Crate) };
    Ok(recorded(folder)?.into_iter().map(case).collect())
}

/// Writes `stdout` anew.
pub fn write(folder: &str) -> Result<()> {
    let answers: Vec<u8> = recorded(folder)?.iter().flat_map(|r| [r.answer(), b"\n"].concat()).collect();
    std::fs::write(Path::new(folder).join("stdout"), answers)
}

/// Asks the crate and the judge again for what stands in the two files.
pub fn again(folder: &str, tally: &mut Tally) -> Result<()> {
    let stdout = std::fs::read(Path::new(folder).join("stdout"))?;
    let mut answers = stdout.split(|c| *c == b'\n');
    for r in recorded(folder)? {
        // what stands in stdout takes the place of the program's answer
        tally.add(r.from, &r.line, r.answer(), answers.next().unwrap_or(b"nothing"));
        if let Some(a) = &r.said.of_crate {
            tally.documents(&r.line, a, &r.said.judged);
        }
    }
    if answers.next() != Some(b"") || answers.next().is_some() {
        tally.broken("stdout has more answers than stdin has cases, or no last newline", b"");
    }
    Ok(())
}

/// Prints so many made cases of an operation that are not recorded, to be put into `stdin`. A kind is what is accepted, one
/// refusal, or no case, of the crate or of the judge: each has its turn, shorter lines first, of one length only one.
pub fn choose(folder: &str, op: &str, many: usize, seed: u64, count: u64) -> Result<()> {
    let known: HashSet<Vec<u8>> = recorded(folder)?.into_iter().map(|r| r.line).collect();
    let mut kinds: BTreeMap<(Source, Vec<u8>), BTreeMap<usize, Vec<u8>>> = BTreeMap::new();
    cases::all(seed, count, &mut |Case { line, .. }| {
        let readable = line.iter().all(|c| (b' '..=b'~').contains(c));
        if !line.starts_with(op.as_bytes()) || !readable || known.contains(&line) {
            return;
        }
        let Some(said) = said(&line) else { return };
        let from = if said.of_crate.is_some() { Source::Crate } else { Source::Judge };
        let kind = kinds.entry((from, said.judged[..2].to_vec())).or_default();
        if line.len() <= LONG || kind.keys().all(|n| line.len() < *n) {
            kind.entry(line.len()).or_insert(line);
        }
        while kind.len() > many || kind.len() > 1 && kind.keys().last().is_some_and(|n| *n > LONG) {
            kind.pop_last();
        }
    });
    let turn = |n: usize| kinds.iter().filter_map(move |((from, _), kind)| Some((*from, kind.values().nth(n)?)));
    let best: Vec<_> = (0..many).flat_map(turn).take(many).collect();
    for (from, name) in [(Source::Crate, "for list 1"), (Source::Judge, "for list 2")] {
        println!("# {name}");
        for (_, line) in best.iter().filter(|b| b.0 == from) {
            println!("{}", String::from_utf8_lossy(line));
        }
    }
    Ok(())
}
