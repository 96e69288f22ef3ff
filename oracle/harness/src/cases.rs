//! The cases. Each kind of message has a file below with what its cases share, and a folder with those that are the same in
//! every run and those that are drawn by chance; `fixed` and `random` have a line for each.

pub mod asking;
mod bodies;
mod bytes;
mod envelopes;
mod frames;
pub mod lines;
mod nested;
mod paths;
mod replies;
mod requests;

use crate::rng::Rng;
pub use asking::{Case, Sink, Truth};

/// All fixed cases, then random ones until `count` of them were the crate's; how many there were of either.
pub fn all(seed: u64, count: u64, to: &mut Sink) -> (u64, u64) {
    let (mut same, mut drawn, mut of_crate) = (0, 0, 0);
    fixed(&mut |c| {
        same += 1;
        to(c);
    });
    let mut rng = Rng::new(seed);
    while of_crate < count {
        random(&mut rng, &mut |c| {
            drawn += 1;
            of_crate += u64::from(c.truth.is_crates());
            to(c);
        });
    }
    (same, drawn)
}

/// The same in every run: short cases exhaustively, and both sides of every limit.
pub fn fixed(to: &mut Sink) {
    paths::writes::fixed(to);
    paths::reads::fixed(to);
    paths::writes::refused(to);
    requests::fields::fixed(to);
    requests::limits::fixed(to);
    requests::reads::fixed(to);
    replies::reads::fixed(to);
    replies::writes::fixed(to);
    envelopes::fixed(to);
    bodies::writes::fixed(to);
    bodies::reads::fixed(to);
    bodies::joins::fixed(to);
    nested::reads::fixed(to);
    nested::order::fixed(to);
    nested::limits::fixed(to);
    frames::fixed(to);
    frames::states::fixed(to);
    lines::fixed(to);
}

/// One draw: a case or a few that belong together.
pub fn random(rng: &mut Rng, to: &mut Sink) {
    match rng.below(252) {
        0..=16 => paths::writes::random(rng, to),
        17..=43 => paths::writes::random_segment(rng, to),
        44..=54 => paths::reads::random(rng, to),
        55..=58 => paths::writes::random_refusal(rng, to),
        59..=136 => requests::drawn::random(rng, to),
        137..=152 => requests::drawn::random_read(rng, to),
        153..=156 => requests::drawn::random_refusal(rng, to),
        157 => requests::drawn::random_default(rng, to),
        158..=180 => replies::drawn::random(rng, to),
        181..=188 => replies::drawn::random_read(rng, to),
        189..=191 => replies::drawn::random_refusal(rng, to),
        192 => replies::drawn::random_routing(rng, to),
        193..=195 => envelopes::random(rng, to),
        196..=199 => lines::random(rng, to),
        200..=214 => bodies::drawn::random_write(rng, to),
        215..=219 => bodies::drawn::random(rng, to),
        220..=223 => bodies::drawn::random_read(rng, to),
        224..=225 => bodies::drawn::random_refusal(rng, to),
        226..=241 => nested::drawn::random(rng, to),
        242..=247 => nested::drawn::random_read(rng, to),
        248..=249 => frames::drawn::random(rng, to),
        250 => frames::drawn::random_state(rng, to),
        _ => frames::drawn::random_damaged(rng, to),
    }
}
