//! The yardsticks of the segment trees' benchmark in ordinary Rust: seeks by `BTreeSet::range`, and a merge by `Vec::sort` of
//! old and new datoms together and new leaves of 512. `plain seek COUNT` and `plain merge COUNT` and `plain behind COUNT`
//! print the processor's nanoseconds of one seek, and of one merged datom in one order, the least of a few rounds.
use std::cmp::Ordering;
use std::collections::BTreeSet;
use std::sync::Arc;

#[path = "../datom.rs"]
mod datom;

use datom::{Datom, Value};

impl Datom {
    fn key(&self) -> (u64, u64, &Value, u32) {
        (self.e, self.a, &self.v, self.t)
    }
}

impl Ord for Datom {
    fn cmp(&self, other: &Self) -> Ordering {
        self.key().cmp(&other.key())
    }
}

impl PartialOrd for Datom {
    fn partial_cmp(&self, other: &Self) -> Option<Ordering> {
        Some(self.cmp(other))
    }
}

impl PartialEq for Datom {
    fn eq(&self, other: &Self) -> bool {
        self.cmp(other) == Ordering::Equal
    }
}

impl Eq for Datom {}

unsafe extern "C" {
    /// The processor's time of this process, in microseconds.
    safe fn clock() -> i64;
}

const STEP: u64 = 32;
const MERGED: u64 = 65_536;
const SOUGHT: u64 = 1_000_000;
const ROUNDS: u32 = 7;

fn datom(n: u64, t: u32) -> Datom {
    Datom { e: n, a: 7, v: Value::Long(n as i64), t, added: true }
}

fn least(mut round: impl FnMut()) -> i64 {
    let times = (0..ROUNDS).map(|_| {
        let start = clock();
        round();
        clock() - start
    });
    times.min().unwrap()
}

fn seeks(count: u64) -> f64 {
    let set: BTreeSet<Datom> = (0..count).map(|n| datom(n * STEP, 1)).collect();
    let mut sum = 0u64;
    let took = least(|| {
        let mut at = 1u64;
        for _ in 0..SOUGHT {
            at = at.wrapping_mul(6364136223846793005).wrapping_add(1442695040888963407);
            let e = (at >> 33) % (count * STEP + 1);
            let probe = Datom { e, a: 0, v: Value::Bool(false), t: 0, added: false };
            if let Some(datom) = set.range(probe..).next() {
                sum = sum.wrapping_add(datom.e);
            }
        }
    });
    assert!(sum > 0);
    took as f64 * 1e3 / SOUGHT as f64
}

fn merges(count: u64, from: u64, step: u64) -> f64 {
    let old: Vec<Datom> = (0..count).map(|n| datom(n * STEP, 1)).collect();
    let new: Vec<Datom> = (0..MERGED).map(|n| datom(from + n * step, 2)).collect();
    let took = least(|| {
        let mut all: Vec<Datom> = old.iter().chain(new.iter()).cloned().collect();
        all.sort();
        let leaves: Vec<Arc<Vec<Datom>>> = all.chunks(512).map(|leaf| Arc::new(leaf.to_vec())).collect();
        assert!(leaves.iter().all(|leaf| leaf[0].added));
    });
    took as f64 * 1e3 / MERGED as f64
}

fn main() {
    let words: Vec<String> = std::env::args().collect();
    let count: u64 = words[2].parse().unwrap();
    let end = count * STEP;
    let nanoseconds = match words[1].as_str() {
        "seek" => seeks(count),
        "merge" => merges(count, 1, end / MERGED),
        _ => merges(count, end, 1),
    };
    println!("{nanoseconds}");
}
