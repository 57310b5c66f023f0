//! The yardstick of the live index's benchmark in ordinary Rust: insertions into `BTreeSet`s of the same datoms, and
//! nothing shared. `plain COUNT` prints the processor's microseconds of one entry of three datoms, on sets of COUNT datoms together;
//! the entries are made before the clock starts.
use std::cmp::Ordering;
use std::collections::BTreeSet;
use std::sync::Arc;

#[path = "../datom.rs"]
mod datom;

use datom::{Datom, Value};

macro_rules! order {
    ($name:ident, $compare:ident, $d:ident => $key:expr) => {
        fn $compare(x: &Datom, y: &Datom) -> Ordering {
            fn key($d: &Datom) -> impl Ord + '_ {
                $key
            }
            key(x).cmp(&key(y))
        }

        #[derive(Clone)]
        struct $name(Datom);
        impl Ord for $name {
            fn cmp(&self, other: &Self) -> Ordering {
                $compare(&self.0, &other.0)
            }
        }
        impl PartialOrd for $name {
            fn partial_cmp(&self, other: &Self) -> Option<Ordering> {
                Some(self.cmp(other))
            }
        }
        impl PartialEq for $name {
            fn eq(&self, other: &Self) -> bool {
                self.cmp(other) == Ordering::Equal
            }
        }
        impl Eq for $name {}
    };
}
order!(Eavt, eavt, d => (d.e, d.a, &d.v, d.t));
order!(Aevt, aevt, d => (d.a, d.e, &d.v, d.t));
order!(Avet, avet, d => (d.a, &d.v, d.e, d.t));

#[derive(Clone, Default)]
struct Sets {
    eavt: BTreeSet<Eavt>,
    aevt: BTreeSet<Aevt>,
    avet: BTreeSet<Avet>,
}

impl Sets {
    fn add(&mut self, entry: &[Datom; 3]) {
        for d in entry {
            self.eavt.insert(Eavt(d.clone()));
            self.aevt.insert(Aevt(d.clone()));
            if d.a != 8 {
                self.avet.insert(Avet(d.clone()));
            }
        }
    }
}

fn entry(n: u32) -> [Datom; 3] {
    let added = n % 4 != 3;
    let e = 17592186044416 + n as u64;
    let key: Arc<str> = format!("0-{n}").into();
    [
        Datom { e: 13194139533312 + n as u64, a: 8, v: Value::Instant(n as i64), t: n, added },
        Datom { e, a: 65, v: Value::Str(key), t: n, added },
        Datom { e, a: 66, v: Value::Long(n as i64 * 7919 % 1000), t: n, added },
    ]
}

unsafe extern "C" {
    /// The processor's time of this process, in microseconds.
    safe fn clock() -> i64;
}

const ROUNDS: usize = 100;
const ENTRIES: u32 = 250;

fn main() {
    let count: u32 = std::env::args().nth(1).unwrap().parse().unwrap();
    let mut sets = Sets::default();
    for n in 0..count / 8 {
        sets.add(&entry(n));
    }
    let entries: Vec<_> = (count / 8..count / 8 + ENTRIES).map(entry).collect();
    let mut times = Vec::new();
    for _ in 0..ROUNDS {
        let mut grown = sets.clone();
        let start = clock();
        for entry in &entries {
            grown.add(entry);
        }
        times.push((clock() - start) as f64 / ENTRIES as f64);
    }
    times.sort_by(f64::total_cmp);
    assert!(grown_is_larger(&sets, &entries));
    println!("{}", times[ROUNDS / 2]);
}

fn grown_is_larger(sets: &Sets, entries: &[[Datom; 3]]) -> bool {
    let mut grown = sets.clone();
    entries.iter().for_each(|entry| grown.add(entry));
    let added = grown.eavt.iter().filter(|d| d.0.added).count();
    grown.eavt.len() == sets.eavt.len() + 3 * entries.len() && added < grown.eavt.len()
}
