//! Document 01's bench cards against the crate (AGREE or DIFFER), and what the crate does past the edges (EDGE).
//! With `--record` the crate's answers to the cards alone, for the program `cards`.
//! "doc: 5" beside an edge is the refusal number that document 01 gives there.
mod bodies;
mod paths;
mod recorded;
mod replies;
mod requests;
mod shown;

use harness::quiet_panics;

fn main() {
    quiet_panics();
    if std::env::args().nth(1).as_deref() == Some("--record") {
        return recorded::print();
    }
    println!("profile: {}", if cfg!(debug_assertions) { "debug" } else { "release" });
    let mut t = shown::T::default();
    paths::run(&mut t);
    requests::run(&mut t);
    replies::run(&mut t);
    bodies::run(&mut t);
    println!("\n{} cards agree, {} differ", t.ok, t.bad);
    if t.bad > 0 {
        std::process::exit(1);
    }
}
