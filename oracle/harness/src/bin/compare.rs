//! compare FOLDER [--seed S] [--count N] [--refused] --answers PROGRAM [ARG..]
//!                                asks the program, the crate and the judge: what is recorded, and what is made
//! compare FOLDER --record        asks the crate and the judge for what stands in FOLDER/stdin, and writes FOLDER/stdout
//! compare FOLDER --recorded      asks them again, and compares with what stands in FOLDER/stdout
//! compare FOLDER [--seed S] [--count N] --choose OP MANY
//!                                prints made cases of an operation that FOLDER/stdin does not have
//! With --refused the counts come behind a table of what the crate did with the replies and bodies that we refuse.
//! The last line of a comparison is `N compared, D differ`; the status is 1 where anything differs.

use harness::tally::Tally;
use harness::{record, run};

fn main() {
    harness::quiet_panics();
    let (mut seed, mut count, mut refused) = (1, 1_000_000, false);
    let mut args = std::env::args().skip(1);
    let Some(folder) = args.next() else { usage("no FOLDER") };
    let tally = loop {
        let Some(a) = args.next() else { usage("nothing to do") };
        let mut value = || args.next().unwrap_or_else(|| usage(&a));
        let number = |v: String| v.parse().unwrap_or_else(|_| usage(&v));
        match a.as_str() {
            "--seed" => seed = number(value()),
            "--count" => count = number(value()),
            "--refused" => refused = true,
            "--record" => return checked(&folder, record::write(&folder)),
            "--choose" => {
                let (op, many) = (value(), number(value()));
                return checked(&folder, record::choose(&folder, &op, many as usize, seed, count));
            }
            "--recorded" => {
                let mut tally = Tally::new("recorded", refused);
                checked(&folder, record::again(&folder, &mut tally));
                break tally;
            }
            "--answers" => {
                let program: Vec<String> = [value()].into_iter().chain(args).collect();
                let mut tally = Tally::new("answers", refused);
                let recorded = checked(&folder, record::asked(&folder));
                run::compare(&program, recorded, seed, count, &mut tally);
                break tally;
            }
            _ => usage(&a),
        }
    };
    if !tally.report() {
        std::process::exit(1);
    }
}

fn checked<T>(folder: &str, done: std::io::Result<T>) -> T {
    done.unwrap_or_else(|e| fail(&format!("{folder}: {e}")))
}

fn usage(at: &str) -> ! {
    let how = "[--seed S] [--count N] [--refused] --answers PROGRAM [ARG..] | --record | --recorded | --choose OP MANY";
    fail(&format!("{at}? compare FOLDER {how}"))
}

fn fail(text: &str) -> ! {
    eprintln!("{text}");
    std::process::exit(2)
}
