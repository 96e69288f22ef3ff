//! Rounds in which each side is timed for a batch of calls, in turn; who begins changes from round to round.
use crate::operations::{Operation, Side};
use std::fmt::{Display, Formatter, Result};
use std::time::Instant;

/// About what a batch takes: short, so that most batches run undisturbed.
const BATCH_NS: f64 = 100_000.0;

#[derive(Clone, Copy)]
pub struct Took {
    pub median: f64,
    pub min: f64,
}

impl Display for Took {
    fn fmt(&self, f: &mut Formatter<'_>) -> Result {
        write!(f, "{:.1} ({:.1})", self.median, self.min)
    }
}

pub struct Times {
    pub ours: Took,
    pub theirs: Option<Took>,
    pub floor: Took,
}

fn batch(side: &mut Side, calls: u64) -> f64 {
    let t = Instant::now();
    side(calls);
    t.elapsed().as_nanos() as f64
}

/// How many calls make a batch; it warms up too.
fn calls(side: &mut Side) -> u64 {
    let mut n = 1;
    while batch(side, n) < BATCH_NS {
        n *= 2;
    }
    let best = (0..5).map(|_| batch(side, n)).fold(f64::MAX, f64::min);
    ((n as f64 * BATCH_NS / best) as u64).max(1)
}

pub fn rounds(o: &mut Operation, rounds: usize) -> Times {
    let has_crate = o.theirs.is_some();
    let mut sides: Vec<&mut Side> = [Some(&mut o.ours), Some(&mut o.floor), o.theirs.as_mut()].into_iter().flatten().collect();
    let n: Vec<u64> = sides.iter_mut().map(|s| calls(s)).collect();
    let mut took = vec![vec![]; sides.len()];
    for r in 0..rounds {
        for k in 0..sides.len() {
            let i = (r + k) % sides.len();
            took[i].push(batch(sides[i], n[i]) / n[i] as f64);
        }
    }
    let took: Vec<Took> = took.into_iter().map(sorted).collect();
    Times { ours: took[0], floor: took[1], theirs: has_crate.then(|| took[2]) }
}

fn sorted(mut v: Vec<f64>) -> Took {
    v.sort_by(f64::total_cmp);
    Took { median: v[v.len() / 2], min: v[0] }
}
