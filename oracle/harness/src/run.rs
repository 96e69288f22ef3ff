//! Asks the program `answers` and holds what it says against the crate and the judge.

use crate::ask_crate;
use crate::case::fields::whole;
use crate::case::replies::Status;
use crate::case::{meaning, Plain, Seg, SYMBOL};
use crate::cases::{self, Case, Truth};
use crate::judge;
use crate::tally::{Source, Tally};
use std::io::{BufRead, BufReader, Read, Write};
use std::process::{Child, ChildStdin, Command, Stdio};
use std::sync::mpsc;
use std::thread;

/// So many bytes of lines go to the program at once.
const BATCH: usize = 60_000;

/// The recorded cases, then all that are made.
pub fn compare(program: &[String], recorded: Vec<Case>, seed: u64, count: u64, tally: &mut Tally) {
    let mut child = start(program);
    let input = child.stdin.take().unwrap();
    let mut output = BufReader::with_capacity(1 << 16, child.stdout.take().unwrap());
    let (send, receive) = mpsc::channel::<Vec<Case>>();

    // A batch is handed over before it is written, so that its answers are already read while the rest of it goes in:
    // neither side ever waits for the other with a full pipe. How far this thread runs ahead is bound by the pipe.
    let known = recorded.len();
    let writer = thread::spawn(move || {
        let mut out = Feed { input, send, batch: vec![], text: vec![], gone: false };
        recorded.into_iter().for_each(|c| out.put(c));
        let made = cases::all(seed, count, &mut |c| out.put(c));
        out.flush();
        made
    });

    let mut line = vec![];
    for case in receive.iter().flatten() {
        line.clear();
        output.read_until(b'\n', &mut line).expect("reading the program's answers");
        let whole = line.pop() == Some(b'\n');
        if !whole {
            tally.broken("the program ended, or its last answer has no newline, at", &case.line);
            break;
        }
        judge_case(&case, &line, tally);
    }
    drop(receive);
    // more answers than lines
    line.clear();
    if output.read_until(b'\n', &mut line).unwrap_or(0) > 0 && !tally.is_broken() {
        tally.broken("an answer that no line asked for", &line);
    }
    drop(output);
    let (fixed, drawn) = writer.join().unwrap();
    ended(child, tally);

    let scripts = cases::lines::whole_inputs();
    println!("seed {seed}: {known} recorded cases, {fixed} fixed ones, {drawn} random ones, {} whole inputs", scripts.len());
    for script in scripts {
        let ours = run_whole(program, &script, tally);
        let want = judge::whole(&script).into_bytes();
        tally.add(Source::Judge, &script, &want, &ours);
    }
}

/// Lines on their way to the program.
struct Feed {
    input: ChildStdin,
    send: mpsc::Sender<Vec<Case>>,
    batch: Vec<Case>,
    text: Vec<u8>,
    gone: bool,
}

impl Feed {
    fn put(&mut self, case: Case) {
        self.text.extend(&case.line);
        self.text.push(b'\n');
        self.batch.push(case);
        if self.text.len() >= BATCH {
            self.flush();
        }
    }
    fn flush(&mut self) {
        // a program that has ended takes no more: the reader says which answers are missing
        let batch = std::mem::take(&mut self.batch);
        self.gone = self.gone || self.send.send(batch).is_err() || self.input.write_all(&self.text).is_err();
        self.text.clear();
    }
}

fn start(program: &[String]) -> Child {
    let mut command = Command::new(&program[0]);
    command.args(&program[1..]).stdin(Stdio::piped()).stdout(Stdio::piped());
    command.spawn().unwrap_or_else(|e| panic!("{}: {e}", program[0]))
}

fn ended(mut child: Child, tally: &mut Tally) {
    let status = child.wait().expect("waiting for the program");
    if !status.success() && !tally.is_broken() {
        tally.broken("the program ended badly", status.to_string().as_bytes());
    }
}

fn run_whole(program: &[String], script: &[u8], tally: &mut Tally) -> Vec<u8> {
    let mut child = start(program);
    let mut input = child.stdin.take().unwrap();
    let mut output = child.stdout.take().unwrap();
    let script = script.to_vec();
    let writer = thread::spawn(move || {
        // a program that stops reading early is told by its answers
        let _ = input.write_all(&script);
    });
    let mut ours = vec![];
    output.read_to_end(&mut ours).expect("reading the program's answers");
    writer.join().unwrap();
    ended(child, tally);
    ours
}

/// Holds one answer of ours against the crate and the judge.
pub fn judge_case(case: &Case, ours: &[u8], tally: &mut Tally) {
    let line = &case.line;
    let judged = judge::line(line).expect("a line with no answer among the cases").into_bytes();
    match &case.truth {
        Truth::Crate(said) => {
            tally.add(Source::Crate, line, said, ours);
            // document 01 and the crate on the same case: a difference is a finding, whatever we answer
            tally.documents(line, said, &judged);
        }
        Truth::List { list, input } => {
            let read = read_list(ours, input);
            tally.same(Source::Crate, line, read.as_ref() == Some(list), || text(list), ours);
            tally.add(Source::Judge, line, &judged, ours);
        }
        Truth::Front { first, size, input } => {
            let read = read_front(ours, input);
            let want = (first.clone(), *size);
            tally.same(
                Source::Crate,
                line,
                read.as_ref() == Some(&want),
                || format!("{} in {size} bytes", text(std::slice::from_ref(first))),
                ours,
            );
            tally.add(Source::Judge, line, &judged, ours);
        }
        Truth::Input(input) => {
            tally.add(Source::Judge, line, &judged, ours);
            // accepted, so the crate has to write it again
            if let Some(list) = read_list(ours, input) {
                written_again(line, &list, input, ours, tally);
            } else if let Some((first, size)) = read_front(ours, input) {
                written_again(line, &[first], input.get(..size as usize).unwrap_or_default(), ours, tally);
            }
        }
        Truth::Record(r) => {
            tally.add(Source::Judge, line, &judged, ours);
            if let Some(again) = ask_crate::requests::again(r, ours) {
                let same = again.as_ref() == Ok(&r.input);
                tally.same(Source::Crate, line, same, || format!("of what was read it writes {again:02X?}"), ours);
            }
        }
        Truth::Written(given) => {
            tally.add(Source::Judge, line, &judged, ours);
            if let Some(read) = ask_crate::replies::read_back(given, ours) {
                tally.same(Source::Crate, line, read.is_ok(), || format!("of what was written it reads {read:?}"), ours);
            }
        }
        Truth::Failed(status) => {
            tally.add(Source::Judge, line, &judged, ours);
            let same = |answer: &[u8]| status_read(answer).as_ref() == Some(status);
            tally.same(Source::Crate, line, same(ours), || format!("{status:?}"), ours);
            if !same(&judged) {
                tally.documents(line, format!("{status:?}").as_bytes(), &judged);
            }
        }
        Truth::Beside(beside) => {
            tally.add(Source::Judge, line, &judged, ours);
            tally.beside(line, *beside, &judged);
        }
        Truth::Outside => {
            tally.add(Source::Judge, line, &judged, ours);
            if judged.starts_with(b"00") {
                tally.documents(line, b"not in its domain", &judged);
            }
        }
        Truth::Judge => tally.add(Source::Judge, line, &judged, ours),
    }
}

fn written_again(line: &[u8], list: &[Plain], input: &[u8], ours: &[u8], tally: &mut Tally) {
    if list.iter().any(|p| p.kind == SYMBOL && std::str::from_utf8(&p.bytes).is_err()) {
        return; // the crate's String can't hold it
    }
    let again = ask_crate::paths::list(list).unwrap_or_else(|| Err("not in the crate's domain".into()));
    let same = again.as_deref() == Ok(input);
    tally.same(Source::Crate, line, same, || format!("of what was read it writes {again:02X?}"), ours);
}

/// The list in an answer to 05, over its input; None where the answer has none.
fn read_list(answer: &[u8], input: &[u8]) -> Option<Vec<Plain>> {
    whole(answer, |refused, t| {
        let list: Option<Vec<Plain>> = (0..t.u16()?).map(|_| meaning(input, &Seg::take(t)?)).collect();
        list.filter(|_| refused == 0)
    })
}

/// The segment in an answer to 06, and its size.
fn read_front(answer: &[u8], input: &[u8]) -> Option<(Plain, u32)> {
    whole(answer, |refused, t| (refused == 0).then_some((meaning(input, &Seg::take(t)?)?, t.u32()?)))
}

/// The status in an answer to 33.
fn status_read(answer: &[u8]) -> Option<Status> {
    whole(answer, |refused, t| {
        let (_service, status, _data) = (t.u8()?, Status::take(t)?, t.u64()?);
        (refused == 0).then_some(status)
    })
}

fn text(list: &[Plain]) -> String {
    let kind = ["symbol", "class", "instance", "attribute", "element", "port"];
    let one = |p: &Plain| format!("{} {} {:02X?}", kind[p.kind as usize], p.number, p.bytes);
    format!("the list [{}]", list.iter().map(one).collect::<Vec<_>>().join("; "))
}
