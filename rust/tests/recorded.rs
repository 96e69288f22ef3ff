//! The gate's recorded cases, replayed through the archive. crates/answers/stdin has a case a line, stdout an answer a
//! line: of the Rust crate rseip-cip or of a judge written apart from our code, never of our program. docs/ANSWERS.md
//! has the format. The count by operation is printed with `cargo test --test recorded -- --nocapture`.
#[path = "recorded/fields.rs"]
mod fields;
#[path = "recorded/operations.rs"]
mod operations;

use std::collections::BTreeMap;
use std::{fs, panic};

/// How many cases of each operation were compared when this was written: fewer would mean that some have vanished.
const FOUND: [(u8, usize); 28] = [
    (0x02, 464),
    (0x04, 729),
    (0x05, 342),
    (0x07, 266),
    (0x10, 137),
    (0x11, 491),
    (0x12, 129),
    (0x13, 166),
    (0x14, 28),
    (0x18, 65),
    (0x19, 196),
    (0x1A, 69),
    (0x1B, 137),
    (0x20, 180),
    (0x21, 368),
    (0x22, 292),
    (0x23, 35),
    (0x24, 36),
    (0x25, 63),
    (0x26, 186),
    (0x27, 127),
    (0x30, 197),
    (0x31, 280),
    (0x32, 432),
    (0x33, 398),
    (0x34, 163),
    (0x40, 292),
    (0x50, 1134),
];

/// The lines of a recorded file on which something stands, with their numbers; no blanks, no comments.
fn lines(name: &str) -> Vec<(usize, Vec<u8>)> {
    let file = format!("{}/../crates/answers/{name}", env!("CARGO_MANIFEST_DIR"));
    let all = fs::read(&file).unwrap_or_else(|e| panic!("{file}: {e}"));
    let said = all.split(|b| *b == b'\n').map(|line| {
        let said = line.iter().copied().take_while(|b| *b != b'#');
        said.filter(|b| !matches!(b, b' ' | b'\t')).collect::<Vec<u8>>()
    });
    (1..).zip(said).filter(|(_, said)| !said.is_empty()).collect()
}

fn of_hex(digits: &[u8]) -> Vec<u8> {
    let digit = |d: u8| char::from(d).to_digit(16).expect("a hex digit") as u8;
    assert!(digits.len() % 2 == 0, "an odd number of digits");
    digits.chunks(2).map(|pair| 16 * digit(pair[0]) + digit(pair[1])).collect()
}

/// Bytes as hex, not more than a person reads.
fn hex(bytes: &[u8]) -> String {
    let mut text: String = bytes.iter().take(80).map(|b| format!("{b:02X}")).collect();
    if bytes.len() > 80 {
        text += &format!("... ({} bytes)", bytes.len());
    }
    text
}

#[test]
fn recorded() {
    let (cases, answers) = (lines("stdin"), lines("stdout"));
    assert_eq!(cases.len(), answers.len(), "cases and answers");
    let (mut compared, mut skipped) = (BTreeMap::<u8, usize>::new(), BTreeMap::<u8, usize>::new());
    let mut bad = 0;
    let mut differ = Vec::new();
    for ((line, case), (_, answer)) in cases.iter().zip(&answers) {
        if answer == b"bad" {
            bad += 1;
            continue;
        }
        let (case, recorded) = (of_hex(case), of_hex(answer));
        let op = case[0];
        match panic::catch_unwind(|| operations::ask(&case)) {
            Ok(answers) if answers.is_empty() => {
                *skipped.entry(op).or_default() += 1;
                continue;
            }
            Ok(answers) => {
                for (door, answer) in answers.iter().enumerate().filter(|(_, answer)| **answer != recorded) {
                    let at = answer.iter().zip(&recorded).take_while(|(a, b)| a == b).count();
                    let text = [hex(&case), hex(answer), hex(&recorded)].join("\n  ");
                    differ.push(format!("line {line}, door {door}, from byte {at} on: {text}"));
                }
            }
            // One more way to differ: the crate panics where the archive answers what its header does not say.
            Err(_) => differ.push(format!("line {line}, panicked: {}", hex(&case))),
        }
        *compared.entry(op).or_default() += 1;
    }

    let count = |of: &BTreeMap<u8, usize>| of.values().sum::<usize>();
    let table =
        |of: &BTreeMap<u8, usize>| of.iter().map(|(op, n)| format!("{op:02X} {n}")).collect::<Vec<_>>().join(", ");
    println!("compared {}: {}", count(&compared), table(&compared));
    println!("skipped, no exported function {}: {}", count(&skipped), table(&skipped));
    println!("skipped, no case {bad}");
    println!("{} differ", differ.len());

    let some = &differ[..differ.len().min(20)];
    assert!(differ.is_empty(), "differ, each with what was answered and what is recorded:\n{}", some.join("\n"));
    for (op, found) in FOUND {
        let now = compared.get(&op).copied().unwrap_or_default();
        assert!(now >= found, "operation {op:02X}: {now} compared, {found} when this was written");
    }
}
