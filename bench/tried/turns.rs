//! What an entry of three datoms costs where several threads take turns, each on a core of its own, in plain Rust: the
//! figures by which the newest datoms were kept before trees, when the live index had these. README.md says more.
//! `rustc -O --edition 2024 turns.rs && ./turns`
//!
//! Each turn makes the next version from the one that another thread made, and drops that one. The datoms of an entry go
//! into EAVT and AEVT all, and two of them into AVET.

use std::cell::UnsafeCell;
use std::cmp::Ordering;
use std::sync::Arc;
use std::sync::atomic::{AtomicUsize, Ordering::SeqCst};
use std::time::Instant;

#[derive(Clone, PartialEq, Eq, PartialOrd, Ord)]
enum Value {
    Str(Arc<str>),
    Long(i64),
}

struct Facts {
    e: u64,
    a: u64,
    v: Value,
    t: u32,
    #[allow(dead_code)]
    added: bool,
}
type Datom = Arc<Facts>;

type Compare = fn(&Facts, &Facts) -> Ordering;

fn eavt(x: &Facts, y: &Facts) -> Ordering {
    (x.e, x.a, &x.v, x.t).cmp(&(y.e, y.a, &y.v, y.t))
}
fn aevt(x: &Facts, y: &Facts) -> Ordering {
    (x.a, x.e, &x.v, x.t).cmp(&(y.a, y.e, &y.v, y.t))
}
fn avet(x: &Facts, y: &Facts) -> Ordering {
    (x.a, &x.v, x.e, x.t).cmp(&(y.a, &y.v, y.e, y.t))
}
const ORDERS: [Compare; 3] = [eavt, aevt, avet];

fn is_held(order: usize, d: &Facts) -> bool {
    order < 2 || d.a != 8
}

// A balanced binary tree of blocks, which takes a sorted list in one walk.
const BLOCK: usize = 15;

enum Tree {
    Leaf(Vec<Datom>),
    Fork { left: Arc<Tree>, mid: Datom, right: Arc<Tree>, height: u32, count: usize },
}

fn copy_cap<T: Clone>(v: &Vec<T>, cap: usize) -> Vec<T> {
    let mut n = Vec::with_capacity(cap);
    n.extend_from_slice(v);
    n
}

impl Tree {
    fn height(&self) -> u32 {
        match self {
            Tree::Leaf(_) => 0,
            Tree::Fork { height, .. } => *height,
        }
    }
    fn count(&self) -> usize {
        match self {
            Tree::Leaf(v) => v.len(),
            Tree::Fork { count, .. } => *count,
        }
    }
    fn fork(left: Arc<Self>, mid: Datom, right: Arc<Self>) -> Self {
        let height = left.height().max(right.height()) + 1;
        let count = left.count() + right.count() + 1;
        Tree::Fork { left, mid, right, height, count }
    }
    fn alone(this: Arc<Self>) -> Self {
        match Arc::try_unwrap(this) {
            Ok(n) => n,
            Err(n) => match &*n {
                Tree::Leaf(v) => Tree::Leaf(copy_cap(v, v.len() + 1)),
                Tree::Fork { left, mid, right, height, count } => {
                    Tree::Fork { left: left.clone(), mid: mid.clone(), right: right.clone(), height: *height, count: *count }
                }
            },
        }
    }
    fn balance(left: Arc<Self>, mid: Datom, right: Arc<Self>) -> Self {
        let (hl, hr) = (left.height(), right.height());
        if hl > hr + 1 {
            let Tree::Fork { left: a, mid: m, right: b, .. } = Self::alone(left) else { unreachable!() };
            if a.height() >= b.height() {
                return Self::fork(a, m, Arc::new(Self::fork(b, mid, right)));
            }
            let Tree::Fork { left: b1, mid: n, right: b2, .. } = Self::alone(b) else { unreachable!() };
            return Self::fork(Arc::new(Self::fork(a, m, b1)), n, Arc::new(Self::fork(b2, mid, right)));
        }
        if hr > hl + 1 {
            let Tree::Fork { left: a, mid: m, right: b, .. } = Self::alone(right) else { unreachable!() };
            if b.height() >= a.height() {
                return Self::fork(Arc::new(Self::fork(left, mid, a)), m, b);
            }
            let Tree::Fork { left: a1, mid: n, right: a2, .. } = Self::alone(a) else { unreachable!() };
            return Self::fork(Arc::new(Self::fork(left, mid, a1)), n, Arc::new(Self::fork(a2, m, b)));
        }
        Self::fork(left, mid, right)
    }
    fn join(left: Arc<Self>, mid: Datom, right: Arc<Self>) -> Self {
        let (hl, hr) = (left.height(), right.height());
        if hl > hr + 1 {
            let Tree::Fork { left: a, mid: m, right: b, .. } = Self::alone(left) else { unreachable!() };
            Self::balance(a, m, Arc::new(Self::join(b, mid, right)))
        } else if hr > hl + 1 {
            let Tree::Fork { left: a, mid: m, right: b, .. } = Self::alone(right) else { unreachable!() };
            Self::balance(Arc::new(Self::join(left, mid, a)), m, b)
        } else {
            Self::fork(left, mid, right)
        }
    }
    fn built(mut v: Vec<Datom>) -> Self {
        if v.len() <= BLOCK {
            return Tree::Leaf(v);
        }
        let right = v.split_off(v.len() / 2 + 1);
        let mid = v.pop().unwrap();
        Self::fork(Arc::new(Self::built(v)), mid, Arc::new(Self::built(right)))
    }
    fn with_datoms<'a, S: Copy>(this: Arc<Self>, from: usize, below: &[usize], new: &[S], at: &impl Fn(S) -> &'a Datom) -> Arc<Self> {
        if new.is_empty() {
            return this;
        }
        Arc::new(match Self::alone(this) {
            Tree::Leaf(mut v) => {
                v.reserve(new.len());
                for n in (0..new.len()).rev() {
                    v.insert(below[n] - from, at(new[n]).clone());
                }
                Self::built(v)
            }
            Tree::Fork { left, mid, right, .. } => {
                let before = left.count();
                let cut = below.partition_point(|b| *b <= from + before);
                let left = Self::with_datoms(left, from, &below[..cut], &new[..cut], at);
                let right = Self::with_datoms(right, from + before + 1, &below[cut..], &new[cut..], at);
                Self::join(left, mid, right)
            }
        })
    }
    fn place(&self, d: &Facts, cmp: Compare) -> usize {
        match self {
            Tree::Leaf(v) => v.partition_point(|x| cmp(x, d) == Ordering::Less),
            Tree::Fork { left, mid, right, .. } => {
                if cmp(mid, d) == Ordering::Less {
                    left.count() + 1 + right.place(d, cmp)
                } else {
                    left.place(d, cmp)
                }
            }
        }
    }
    fn at(&self, mut place: usize) -> &Datom {
        let mut n = self;
        loop {
            match n {
                Tree::Leaf(v) => return &v[place],
                Tree::Fork { left, mid, right, .. } => {
                    let l = left.count();
                    if place == l {
                        return mid;
                    }
                    if place < l {
                        n = left
                    } else {
                        n = right;
                        place -= l + 1
                    }
                }
            }
        }
    }
}

fn first_at(below: &[usize], place: usize) -> usize {
    let (mut from, mut to) = (0, below.len());
    while from < to {
        let m = from + (to - from) / 2;
        if below[m] + m < place { from = m + 1 } else { to = m }
    }
    from
}

trait Live: Sized {
    fn empty() -> Self;
    fn with_entry(&self, entry: Vec<Datom>) -> Self;
    fn len(&self, order: usize) -> usize;
    fn at(&self, order: usize, place: usize) -> &Datom;
    fn is_nothing(&self) -> bool {
        false
    }
}

// The shape that stood: each order has its own list of the newest.
struct New {
    datoms: Vec<Datom>,
    below: Vec<usize>,
}
#[derive(Clone)]
struct Own<const N: usize> {
    tree: Option<Arc<Tree>>,
    newest: Arc<New>,
}
impl<const N: usize> Own<N> {
    fn place(&self, d: &Facts, cmp: Compare) -> usize {
        let t = self.tree.as_ref().map_or(0, |t| t.place(d, cmp));
        t + self.newest.datoms.partition_point(|x| cmp(x, d) == Ordering::Less)
    }
    fn at(&self, place: usize) -> &Datom {
        let i = first_at(&self.newest.below, place);
        if i < self.newest.datoms.len() && self.newest.below[i] + i == place {
            &self.newest.datoms[i]
        } else {
            self.tree.as_ref().unwrap().at(place - i)
        }
    }
    fn len(&self) -> usize {
        self.tree.as_ref().map_or(0, |t| t.count()) + self.newest.datoms.len()
    }
    fn insert(self, place: usize, d: Datom) -> Self {
        let Own { tree, newest } = self;
        if newest.datoms.len() == N {
            let all: Vec<usize> = (0..N).collect();
            let tree = Some(match tree {
                None => Arc::new(Tree::built(newest.datoms.clone())),
                Some(t) => Tree::with_datoms(t, 0, &newest.below, &all, &|n: usize| &newest.datoms[n]),
            });
            return Own { tree, newest: Arc::new(New { datoms: vec![d], below: vec![place] }) };
        }
        let New { mut datoms, mut below } = match Arc::try_unwrap(newest) {
            Ok(n) => n,
            Err(n) => New { datoms: copy_cap(&n.datoms, N), below: copy_cap(&n.below, N) },
        };
        let i = first_at(&below, place);
        datoms.insert(i, d);
        below.insert(i, place - i);
        Own { tree, newest: Arc::new(New { datoms, below }) }
    }
}
struct Owns<const N: usize>([Own<N>; 3]);
impl<const N: usize> Live for Owns<N> {
    fn empty() -> Self {
        Owns(std::array::from_fn(|_| Own { tree: None, newest: Arc::new(New { datoms: Vec::new(), below: Vec::new() }) }))
    }
    fn with_entry(&self, entry: Vec<Datom>) -> Self {
        Owns(std::array::from_fn(|k| {
            let mut list = self.0[k].clone();
            for d in &entry {
                if is_held(k, d) {
                    let place = list.place(d, ORDERS[k]);
                    if place < list.len() {
                        assert!(ORDERS[k](list.at(place), d) != Ordering::Equal);
                    }
                    list = list.insert(place, d.clone());
                }
            }
            list
        }))
    }
    fn len(&self, order: usize) -> usize {
        self.0[order].len()
    }
    fn at(&self, order: usize, place: usize) -> &Datom {
        self.0[order].at(place)
    }
}

// The newest once for all orders, in the order in which they came; each order has numbers alone.
trait Pool: Clone {
    fn none() -> Self;
    fn len(&self) -> usize;
    fn at(&self, slot: usize) -> &Datom;
    fn push(&mut self, d: Datom);
    fn close(&mut self) {}
}
#[derive(Clone)]
struct Blocks<const B: usize>(Vec<Arc<Vec<Datom>>>);
impl<const B: usize> Pool for Blocks<B> {
    fn none() -> Self {
        Blocks(Vec::new())
    }
    fn len(&self) -> usize {
        match self.0.last() {
            None => 0,
            Some(b) => (self.0.len() - 1) * B + b.len(),
        }
    }
    fn at(&self, slot: usize) -> &Datom {
        &self.0[slot / B][slot % B]
    }
    fn push(&mut self, d: Datom) {
        if let Some(last) = self.0.last_mut() {
            if last.len() < B {
                if Arc::get_mut(last).is_none() {
                    *last = Arc::new(copy_cap(last, B));
                }
                Arc::get_mut(last).unwrap().push(d);
                return;
            }
        }
        let mut b = Vec::with_capacity(B);
        b.push(d);
        self.0.push(Arc::new(b));
    }
}
#[derive(Clone)]
struct Entries(Vec<(usize, Arc<Vec<Datom>>)>, usize, bool);
impl Pool for Entries {
    fn none() -> Self {
        Entries(Vec::new(), 0, false)
    }
    fn len(&self) -> usize {
        self.1
    }
    fn at(&self, slot: usize) -> &Datom {
        let b = self.0.partition_point(|b| b.0 <= slot) - 1;
        &self.0[b].1[slot - self.0[b].0]
    }
    fn push(&mut self, d: Datom) {
        if !self.2 {
            self.0.push((self.1, Arc::new(Vec::with_capacity(3))));
            self.2 = true;
        }
        Arc::get_mut(&mut self.0.last_mut().unwrap().1).unwrap().push(d);
        self.1 += 1;
    }
    fn close(&mut self) {
        self.2 = false;
    }
}

trait Slot: Copy {
    fn of(n: usize) -> Self;
    fn to(self) -> usize;
}
impl Slot for u8 {
    fn of(n: usize) -> u8 {
        n as u8
    }
    fn to(self) -> usize {
        self as usize
    }
}
impl Slot for usize {
    fn of(n: usize) -> usize {
        n
    }
    fn to(self) -> usize {
        self
    }
}

struct Order<S> {
    tree: Option<Arc<Tree>>,
    below: Vec<usize>,
    slots: Vec<S>,
}
struct All<P, S> {
    pool: P,
    orders: [Order<S>; 3],
}
struct Once<P, S, const N: usize>(Arc<All<P, S>>);
impl<S: Slot> Order<S> {
    fn copy(&self, cap: usize) -> Self {
        Order { tree: self.tree.clone(), below: copy_cap(&self.below, cap), slots: copy_cap(&self.slots, cap) }
    }
    fn insert<P: Pool>(&mut self, pool: &P, d: &Datom, slot: usize, cmp: Compare) {
        let t = self.tree.as_ref().map_or(0, |t| t.place(d, cmp));
        let n = self.slots.partition_point(|s| cmp(pool.at(s.to()), d) == Ordering::Less);
        if let Some(s) = self.slots.get(n) {
            assert!(cmp(pool.at(s.to()), d) != Ordering::Equal);
        }
        if let Some(tree) = &self.tree {
            if t < tree.count() {
                assert!(cmp(tree.at(t), d) != Ordering::Equal);
            }
        }
        self.below.insert(n, t);
        self.slots.insert(n, S::of(slot));
    }
    fn flush<P: Pool>(&mut self, pool: &P) {
        let tree = match self.tree.take() {
            None => Arc::new(Tree::built(self.slots.iter().map(|s| pool.at(s.to()).clone()).collect())),
            Some(t) => Tree::with_datoms(t, 0, &self.below, &self.slots, &|s: S| pool.at(s.to())),
        };
        self.tree = Some(tree);
        self.below.clear();
        self.slots.clear();
    }
}
impl<P: Pool, S: Slot, const N: usize> Live for Once<P, S, N> {
    fn empty() -> Self {
        Once(Arc::new(All { pool: P::none(), orders: std::array::from_fn(|_| Order { tree: None, below: Vec::new(), slots: Vec::new() }) }))
    }
    fn with_entry(&self, entry: Vec<Datom>) -> Self {
        let mut pool = self.0.pool.clone();
        let room = (self.0.orders[0].slots.len() + entry.len()).min(N);
        let mut orders: [Order<S>; 3] = std::array::from_fn(|k| self.0.orders[k].copy(room));
        for d in entry {
            if pool.len() == N {
                for order in &mut orders {
                    order.flush(&pool);
                }
                pool = P::none();
            }
            let slot = pool.len();
            for k in 0..3 {
                if is_held(k, &d) {
                    orders[k].insert(&pool, &d, slot, ORDERS[k]);
                }
            }
            pool.push(d);
        }
        pool.close();
        Once(Arc::new(All { pool, orders }))
    }
    fn len(&self, order: usize) -> usize {
        let order = &self.0.orders[order];
        order.tree.as_ref().map_or(0, |t| t.count()) + order.slots.len()
    }
    fn at(&self, order: usize, place: usize) -> &Datom {
        let order = &self.0.orders[order];
        let i = first_at(&order.below, place);
        if i < order.slots.len() && order.below[i] + i == place {
            self.0.pool.at(order.slots[i].to())
        } else {
            order.tree.as_ref().unwrap().at(place - i)
        }
    }
}

// Nothing kept: what a turn and the making of an entry cost.
struct Nothing(Arc<Vec<Datom>>);
impl Live for Nothing {
    fn empty() -> Self {
        Nothing(Arc::new(Vec::new()))
    }
    fn with_entry(&self, entry: Vec<Datom>) -> Self {
        Nothing(Arc::new(entry))
    }
    fn len(&self, _: usize) -> usize {
        65_536
    }
    fn at(&self, _: usize, place: usize) -> &Datom {
        &self.0[place % 3]
    }
    fn is_nothing(&self) -> bool {
        true
    }
}

fn entry(i: usize, random: bool) -> Vec<Datom> {
    let j = if random { (i as u64).wrapping_mul(0x9E3779B97F4A7C15) >> 40 } else { i as u64 };
    let (tx, e, t) = (13194139533314 + i as u64, 17592186044419 + j, i as u32 + 2);
    let key: Arc<str> = format!("0-{j}").into();
    vec![
        Arc::new(Facts { e: tx, a: 8, v: Value::Long(i as i64), t, added: true }),
        Arc::new(Facts { e, a: 17592186044417, v: Value::Str(key), t, added: true }),
        Arc::new(Facts { e, a: 17592186044418, v: Value::Long(7919 * i as i64 % 1000), t, added: true }),
    ]
}

unsafe extern "C" {
    fn sched_setaffinity(pid: i32, size: usize, mask: *const u64) -> i32;
}
fn pin(core: usize) {
    let mask = 1u64 << core;
    assert!(unsafe { sched_setaffinity(0, 8, &mask) } == 0);
}

struct Held<T>(UnsafeCell<T>);
unsafe impl<T> Sync for Held<T> {}

const TURNS: usize = 2000;
const LIVE: usize = 65_536;

/// The median and the mean of a turn, in nanoseconds.
fn turns<L: Live>(random: bool, threads: usize) -> (u64, u64) {
    let mut now = L::empty();
    let mut i = 0;
    while (0..3).map(|k| now.len(k)).sum::<usize>() < LIVE {
        now = now.with_entry(entry(i, random));
        i += 1;
    }
    let held = Held(UnsafeCell::new((now, Vec::with_capacity(TURNS))));
    let turn = AtomicUsize::new(0);
    std::thread::scope(|s| {
        for me in 0..threads {
            let (held, turn) = (&held, &turn);
            s.spawn(move || {
                pin(me);
                for n in (me..TURNS).step_by(threads) {
                    while turn.load(SeqCst) != n {
                        std::hint::spin_loop();
                    }
                    // The turn is this thread's alone.
                    let (now, times) = unsafe { &mut *held.0.get() };
                    let start = Instant::now();
                    *now = now.with_entry(entry(i + n, random));
                    times.push(start.elapsed().as_nanos() as u64);
                    turn.store(n + 1, SeqCst);
                }
            });
        }
    });
    let (now, mut times) = held.0.into_inner();
    for k in 0..3 {
        for p in 1..now.len(k) {
            assert!(now.is_nothing() || ORDERS[k](now.at(k, p - 1), now.at(k, p)) == Ordering::Less);
        }
    }
    times.sort();
    (times[TURNS / 2], times.iter().sum::<u64>() / TURNS as u64)
}

type Shape = (&'static str, fn(bool, usize) -> (u64, u64));
const SHAPES: [Shape; 9] = [
    ("nothing", turns::<Nothing>),
    ("own 63", turns::<Owns<63>>),
    ("once, 4 of 63", turns::<Once<Blocks<4>, u8, 63>>),
    ("once, 8 of 63", turns::<Once<Blocks<8>, u8, 63>>),
    ("once, 8 of 63, w", turns::<Once<Blocks<8>, usize, 63>>),
    ("once, 8 of 127", turns::<Once<Blocks<8>, u8, 127>>),
    ("once, 8 of 255", turns::<Once<Blocks<8>, u8, 255>>),
    ("once, 16 of 255", turns::<Once<Blocks<16>, u8, 255>>),
    ("once, entries, 63", turns::<Once<Entries, u8, 63>>),
];
const THREADS: [usize; 3] = [1, 2, 4];
const ROUNDS: usize = 6;

fn main() {
    println!("us a turn, mean (median), the least of {ROUNDS} rounds by turns of the shapes: 1, 2 and 4 threads");
    for random in [false, true] {
        println!("{}", if random { "keys anywhere" } else { "rising keys" });
        let mut least = [[(u64::MAX, u64::MAX); THREADS.len()]; SHAPES.len()];
        for _ in 0..ROUNDS {
            for (least, (_, turns)) in least.iter_mut().zip(SHAPES) {
                for (least, threads) in least.iter_mut().zip(THREADS) {
                    let (median, mean) = turns(random, threads);
                    *least = (least.0.min(median), least.1.min(mean));
                }
            }
        }
        for (least, (name, _)) in least.iter().zip(SHAPES) {
            print!("{name:18}");
            for (median, mean) in least {
                print!("  {:6.2} ({:5.2})", *mean as f64 / 1e3, *median as f64 / 1e3);
            }
            println!();
        }
    }
}
