//! How fast ours is beside the crate rseip-cip, in one program and one run.
//!   bench [--rounds N] [--calls N]             the table, and what ours allocates in N calls (a million) of each operation
//!   bench --only OP --side SIDE --calls N      N calls of one side (ours, crate, floor), for a counter of instructions
//!   bench --list                               OP and SIDE of all that can be asked so, and the name in the table

mod allocations;
mod operations;
mod place;
mod theirs;
mod time;

use operations::{all, Operation, Side};

#[global_allocator]
static COUNTING: allocations::Counting = allocations::Counting;

fn main() {
    assert!(!cfg!(debug_assertions), "release only");
    let args: Vec<String> = std::env::args().skip(1).collect();
    let value = |name: &str| args.iter().position(|a| a == name).map(|i| args.get(i + 1).expect(name).as_str());
    let number = |name: &str, default: u64| value(name).map_or(default, |v| v.parse().expect(name));
    if args.iter().any(|a| a == "--list") {
        return list();
    }
    match value("--only") {
        Some(op) => only(op, value("--side").expect("--side"), number("--calls", 1)),
        None => table(number("--rounds", 201) as usize, number("--calls", 1_000_000)),
    }
}

fn list() {
    for (id, name, set_up) in all() {
        let o = set_up();
        let sides = if o.theirs.is_some() { "ours crate floor" } else { "ours floor" };
        println!("{id}\t{sides}\t{}\t{name}", o.bytes);
    }
}

fn only(op: &str, side: &str, calls: u64) {
    let (_, _, set_up) = all().into_iter().find(|e| e.0 == op).expect("an operation of --list");
    let Operation { mut ours, theirs, mut floor, .. } = set_up();
    match side {
        "ours" => ours(calls),
        "crate" => theirs.expect("the crate has none")(calls),
        "floor" => floor(calls),
        _ => panic!("--side ours, crate or floor"),
    }
}

fn table(rounds: usize, calls: u64) {
    println!("{rounds} rounds; ns per call, median (minimum)\n");
    println!("| operation | bytes | ours ns | crate ns | ours/crate | floor ns | within 3 x floor + 20 ns (frames: 2 x) |");
    println!("|---|---|---|---|---|---|---|");
    let (mut allocated, mut scraps) = (vec![], vec![]);
    for (id, name, set_up) in all() {
        let mut o = set_up();
        let t = time::rounds(&mut o, rounds);
        let within = o.within.map_or("".into(), |times| {
            let spare = times * t.floor.median + 20.0 - t.ours.median;
            if spare >= 0.0 {
                format!("yes, by {spare:.1}")
            } else {
                format!("no, over by {:.1}", -spare)
            }
        });
        if id.starts_with("scraps-") {
            scraps.push((o.bytes, t.ours.median));
        }
        let (theirs, ratio) = match t.theirs {
            Some(c) => (c.to_string(), format!("{:.2} ({:.2})", t.ours.median / c.median, t.ours.min / c.min)),
            None => ("none".into(), "".into()),
        };
        println!("| {name} | {} | {} | {theirs} | {ratio} | {} | {within} |", o.bytes, t.ours, t.floor);
        allocated.push((name, counted(&mut o.ours, calls), o.theirs.as_mut().map(|c| counted(c, 1000))));
    }
    println!("\nScraps of one byte:");
    for (n, ns) in &scraps {
        println!("{n} in {ns:.0} ns, {:.2} ns each, {:.2} times those of {}", ns / *n as f64, ns / scraps[0].1, scraps[0].0);
    }
    println!("\n| operation | ours: allocations in {calls} calls | crate: allocations in a call |");
    println!("|---|---|---|");
    let mut sum = 0;
    for (name, ours, theirs) in allocated {
        sum += ours;
        println!("| {name} | {ours} | {} |", theirs.map_or("none".into(), |n| format!("{:.0}", n as f64 / 1000.0)));
    }
    println!("\nallocations of ours: {sum}");
    assert!(sum == 0, "ours allocates");
}

fn counted(side: &mut Side, calls: u64) -> u64 {
    let before = allocations::count();
    side(calls);
    allocations::count() - before
}
