//! What one-entity entries cost in shared indexes of several shapes, in plain Rust: the figures by which the live index was
//! a tree of blocks, before it became sorted numbers. `rustc -O --edition 2024 shapes.rs && ./shapes`; README.md says more.
//!
//! An entry has three datoms, put into EAVT and AEVT all, and two of them into AVET. The version before stays shared
//! while the next one is made, and is dropped then. The least of 150 runs of 250 entries is printed.

use std::cmp::Ordering;
use std::collections::BTreeSet;
use std::sync::Arc;
use std::time::Instant;

#[derive(Clone, PartialEq, Eq, PartialOrd, Ord)]
enum Value {
    Str(Arc<str>),
    Long(i64),
}

#[derive(Clone)]
#[allow(dead_code)]
struct Datom {
    e: u64,
    a: u64,
    v: Value,
    t: u32,
    added: bool,
}

type Compare = fn(&Datom, &Datom) -> Ordering;

fn eavt(x: &Datom, y: &Datom) -> Ordering {
    (x.e, x.a, &x.v, x.t).cmp(&(y.e, y.a, &y.v, y.t))
}
fn aevt(x: &Datom, y: &Datom) -> Ordering {
    (x.a, x.e, &x.v, x.t).cmp(&(y.a, y.e, &y.v, y.t))
}
fn avet(x: &Datom, y: &Datom) -> Ordering {
    (x.a, &x.v, x.e, x.t).cmp(&(y.a, &y.v, y.e, y.t))
}

trait Index: Clone {
    fn empty() -> Self;
    fn put(&mut self, d: &Datom, cmp: Compare);
    fn len(&self) -> usize;
    fn at(&self, place: usize) -> &Datom;
}

// Classic B-tree, datoms in every node.
#[derive(Clone)]
struct BNode<const L: usize, const F: usize> {
    datoms: Vec<Datom>,
    kids: Vec<Arc<BNode<L, F>>>,
    count: usize,
}
fn copy_cap<T: Clone>(v: &Vec<T>, cap: usize) -> Vec<T> {
    let mut n = Vec::with_capacity(cap);
    n.extend_from_slice(v);
    n
}
impl<const L: usize, const F: usize> BNode<L, F> {
    fn own(this: &mut Arc<Self>) -> &mut Self {
        if Arc::get_mut(this).is_none() {
            let leaf = this.kids.is_empty();
            *this = Arc::new(BNode {
                datoms: copy_cap(&this.datoms, if leaf { L + 1 } else { F + 1 }),
                kids: if leaf { Vec::new() } else { copy_cap(&this.kids, F + 2) },
                count: this.count,
            });
        }
        Arc::get_mut(this).unwrap()
    }
    fn put(this: &mut Arc<Self>, d: &Datom, cmp: Compare) -> Option<(Datom, Arc<Self>)> {
        let n = Self::own(this);
        let i = n.datoms.partition_point(|x| cmp(x, d) == Ordering::Less);
        n.count += 1;
        if n.kids.is_empty() {
            n.datoms.insert(i, d.clone());
            if n.datoms.len() <= L {
                return None;
            }
            let at = L / 2;
            let mut right = Vec::with_capacity(L + 1);
            right.extend(n.datoms.drain(at + 1..));
            let mid = n.datoms.pop().unwrap();
            n.count = n.datoms.len();
            let count = right.len();
            return Some((mid, Arc::new(BNode { datoms: right, kids: Vec::new(), count })));
        }
        let (mid, right) = Self::put(&mut n.kids[i], d, cmp)?;
        n.datoms.insert(i, mid);
        n.kids.insert(i + 1, right);
        if n.datoms.len() <= F {
            return None;
        }
        let at = F / 2;
        let mut datoms = Vec::with_capacity(F + 1);
        datoms.extend(n.datoms.drain(at + 1..));
        let mut kids = Vec::with_capacity(F + 2);
        kids.extend(n.kids.drain(at + 1..));
        let mid = n.datoms.pop().unwrap();
        let count = datoms.len() + kids.iter().map(|k| k.count).sum::<usize>();
        n.count -= count + 1;
        Some((mid, Arc::new(BNode { datoms, kids, count })))
    }
}
#[derive(Clone)]
struct BTree<const L: usize, const F: usize>(Arc<BNode<L, F>>);
impl<const L: usize, const F: usize> Index for BTree<L, F> {
    fn empty() -> Self {
        BTree(Arc::new(BNode { datoms: Vec::new(), kids: Vec::new(), count: 0 }))
    }
    fn put(&mut self, d: &Datom, cmp: Compare) {
        if let Some((mid, right)) = BNode::put(&mut self.0, d, cmp) {
            let count = self.0.count + right.count + 1;
            let left = self.0.clone();
            let mut datoms = Vec::with_capacity(F + 1);
            datoms.push(mid);
            let mut kids = Vec::with_capacity(F + 2);
            kids.push(left);
            kids.push(right);
            self.0 = Arc::new(BNode { datoms, kids, count });
        }
    }
    fn len(&self) -> usize {
        self.0.count
    }
    fn at(&self, mut place: usize) -> &Datom {
        let mut n = &self.0;
        'down: loop {
            if n.kids.is_empty() {
                return &n.datoms[place];
            }
            for (i, k) in n.kids.iter().enumerate() {
                if place < k.count {
                    n = k;
                    continue 'down;
                }
                if place == k.count {
                    return &n.datoms[i];
                }
                place -= k.count + 1;
            }
            unreachable!()
        }
    }
}

// Binary tree with leaf buckets, by height.
#[derive(Clone)]
enum Bin<const L: usize> {
    Leaf(Vec<Datom>),
    Fork(Box<Fork<L>>),
}
#[derive(Clone)]
struct Fork<const L: usize> {
    left: Arc<Bin<L>>,
    mid: Datom,
    right: Arc<Bin<L>>,
    height: u32,
    count: usize,
}
impl<const L: usize> Bin<L> {
    fn height(&self) -> u32 {
        match self {
            Bin::Leaf(_) => 0,
            Bin::Fork(f) => f.height,
        }
    }
    fn count(&self) -> usize {
        match self {
            Bin::Leaf(v) => v.len(),
            Bin::Fork(f) => f.count,
        }
    }
    fn fork(left: Arc<Self>, mid: Datom, right: Arc<Self>) -> Self {
        let height = left.height().max(right.height()) + 1;
        let count = left.count() + right.count() + 1;
        Bin::Fork(Box::new(Fork { left, mid, right, height, count }))
    }
    fn put(this: &mut Arc<Self>, d: &Datom, cmp: Compare) {
        if Arc::get_mut(this).is_none() {
            let new = match &**this {
                Bin::Leaf(v) => Bin::Leaf(copy_cap(v, L + 1)),
                Bin::Fork(f) => Bin::Fork(f.clone()),
            };
            *this = Arc::new(new);
        }
        let n = Arc::get_mut(this).unwrap();
        match n {
            Bin::Leaf(v) => {
                let i = v.partition_point(|x| cmp(x, d) == Ordering::Less);
                v.insert(i, d.clone());
                if v.len() > L {
                    let mut right = Vec::with_capacity(L + 1);
                    right.extend(v.drain(L / 2 + 1..));
                    let mid = v.pop().unwrap();
                    let left = std::mem::take(v);
                    *n = Self::fork(Arc::new(Bin::Leaf(left)), mid, Arc::new(Bin::Leaf(right)));
                }
            }
            Bin::Fork(f) => {
                f.count += 1;
                if cmp(&f.mid, d) == Ordering::Less {
                    Self::put(&mut f.right, d, cmp);
                } else {
                    Self::put(&mut f.left, d, cmp);
                }
                let (hl, hr) = (f.left.height(), f.right.height());
                if hl > hr + 1 {
                    let Bin::Fork(l) = &*f.left else { unreachable!() };
                    let new = if l.left.height() >= l.right.height() {
                        let r = Self::fork(l.right.clone(), f.mid.clone(), f.right.clone());
                        Self::fork(l.left.clone(), l.mid.clone(), Arc::new(r))
                    } else {
                        let Bin::Fork(m) = &*l.right else { unreachable!() };
                        let a = Self::fork(l.left.clone(), l.mid.clone(), m.left.clone());
                        let b = Self::fork(m.right.clone(), f.mid.clone(), f.right.clone());
                        Self::fork(Arc::new(a), m.mid.clone(), Arc::new(b))
                    };
                    *n = new;
                } else if hr > hl + 1 {
                    let Bin::Fork(r) = &*f.right else { unreachable!() };
                    let new = if r.right.height() >= r.left.height() {
                        let l = Self::fork(f.left.clone(), f.mid.clone(), r.left.clone());
                        Self::fork(Arc::new(l), r.mid.clone(), r.right.clone())
                    } else {
                        let Bin::Fork(m) = &*r.left else { unreachable!() };
                        let a = Self::fork(f.left.clone(), f.mid.clone(), m.left.clone());
                        let b = Self::fork(m.right.clone(), r.mid.clone(), r.right.clone());
                        Self::fork(Arc::new(a), m.mid.clone(), Arc::new(b))
                    };
                    *n = new;
                } else {
                    f.height = hl.max(hr) + 1;
                }
            }
        }
    }
}
#[derive(Clone)]
struct Binary<const L: usize>(Arc<Bin<L>>);
impl<const L: usize> Index for Binary<L> {
    fn empty() -> Self {
        Binary(Arc::new(Bin::Leaf(Vec::new())))
    }
    fn put(&mut self, d: &Datom, cmp: Compare) {
        Bin::put(&mut self.0, d, cmp)
    }
    fn len(&self) -> usize {
        self.0.count()
    }
    fn at(&self, mut place: usize) -> &Datom {
        let mut n = &self.0;
        loop {
            match &**n {
                Bin::Leaf(v) => return &v[place],
                Bin::Fork(f) => {
                    let l = f.left.count();
                    if place == l {
                        return &f.mid;
                    }
                    if place < l {
                        n = &f.left
                    } else {
                        n = &f.right;
                        place -= l + 1
                    }
                }
            }
        }
    }
}

// B-tree of parts: each part is a datom and the node behind it; one Vec a node.
struct Part<const L: usize, const F: usize> {
    datom: Datom,
    kid: Arc<Node2<L, F>>,
}
impl<const L: usize, const F: usize> Clone for Part<L, F> {
    fn clone(&self) -> Self {
        Part { datom: self.datom.clone(), kid: self.kid.clone() }
    }
}
enum Node2<const L: usize, const F: usize> {
    Leaf(Vec<Datom>),
    Inner { first: Arc<Node2<L, F>>, parts: Vec<Part<L, F>>, count: usize },
}
enum Grown<const L: usize, const F: usize> {
    One(Node2<L, F>),
    Two(Node2<L, F>, Datom, Node2<L, F>),
}
fn own<T: Clone>(v: Vec<T>) -> Vec<T> { v }
impl<const L: usize, const F: usize> Node2<L, F> {
    fn count(&self) -> usize {
        match self {
            Node2::Leaf(v) => v.len(),
            Node2::Inner { count, .. } => *count,
        }
    }
    // the node alone, by moving where it is not shared
    fn alone(this: Arc<Self>) -> Self {
        match Arc::try_unwrap(this) {
            Ok(n) => n,
            Err(n) => match &*n {
                Node2::Leaf(v) => Node2::Leaf(copy_cap(v, v.len() + 1)),
                Node2::Inner { first, parts, count } => Node2::Inner { first: first.clone(), parts: copy_cap(parts, parts.len() + 1), count: *count },
            },
        }
    }
    fn put(self, d: &Datom, cmp: Compare) -> Grown<L, F> {
        match self {
            Node2::Leaf(v) => {
                let mut v = own(v);
                let i = v.partition_point(|x| cmp(x, d) == Ordering::Less);
                v.insert(i, d.clone());
                if v.len() <= L {
                    return Grown::One(Node2::Leaf(v));
                }
                let right = v.split_off(v.len() / 2 + 1);
                let mid = v.pop().unwrap();
                Grown::Two(Node2::Leaf(v), mid, Node2::Leaf(right))
            }
            Node2::Inner { mut first, mut parts, count } => {
                let i = parts.partition_point(|x| cmp(&x.datom, d) == Ordering::Less);
                let grown = if i == 0 {
                    match Self::alone(first).put(d, cmp) {
                        Grown::One(n) => { first = Arc::new(n); None }
                        Grown::Two(l, m, r) => { first = Arc::new(l); Some((m, r)) }
                    }
                } else {
                    // take the kid out, put it back
                    let Part { datom, kid } = parts.remove(i - 1);
                    match Self::alone(kid).put(d, cmp) {
                        Grown::One(n) => { parts.insert(i - 1, Part { datom, kid: Arc::new(n) }); None }
                        Grown::Two(l, m, r) => { parts.insert(i - 1, Part { datom, kid: Arc::new(l) }); Some((m, r)) }
                    }
                };
                let count = count + 1;
                if let Some((datom, r)) = grown {
                    parts.insert(i, Part { datom, kid: Arc::new(r) });
                    if parts.len() > F {
                        let rest = parts.split_off(parts.len() / 2 + 1);
                        let Part { datom, kid } = parts.pop().unwrap();
                        let c = kid.count() + rest.iter().map(|p| p.kid.count() + 1).sum::<usize>();
                        return Grown::Two(Node2::Inner { first, parts, count: count - c - 1 }, datom, Node2::Inner { first: kid, parts: rest, count: c });
                    }
                }
                Grown::One(Node2::Inner { first, parts, count })
            }
        }
    }
}
#[derive(Clone)]
struct BTree2<const L: usize, const F: usize>(Arc<Node2<L, F>>);
impl<const L: usize, const F: usize> Index for BTree2<L, F> {
    fn empty() -> Self {
        BTree2(Arc::new(Node2::Leaf(Vec::new())))
    }
    fn put(&mut self, d: &Datom, cmp: Compare) {
        let old = std::mem::replace(&mut self.0, Arc::new(Node2::Leaf(Vec::new())));
        self.0 = Arc::new(match Node2::alone(old).put(d, cmp) {
            Grown::One(n) => n,
            Grown::Two(l, m, r) => {
                let count = l.count() + r.count() + 1;
                Node2::Inner { first: Arc::new(l), parts: vec![Part { datom: m, kid: Arc::new(r) }], count }
            }
        });
    }
    fn len(&self) -> usize {
        self.0.count()
    }
    fn at(&self, mut place: usize) -> &Datom {
        let mut n = &self.0;
        'down: loop {
            match &**n {
                Node2::Leaf(v) => return &v[place],
                Node2::Inner { first, parts, .. } => {
                    if place < first.count() {
                        n = first;
                        continue;
                    }
                    place -= first.count();
                    for p in parts {
                        if place == 0 { return &p.datom; }
                        place -= 1;
                        if place < p.kid.count() { n = &p.kid; continue 'down; }
                        place -= p.kid.count();
                    }
                    unreachable!()
                }
            }
        }
    }
}

// Binary tree again, by moving what is not shared.
enum Bin2<const L: usize> {
    Leaf(Vec<Datom>),
    Fork { left: Arc<Bin2<L>>, mid: Datom, right: Arc<Bin2<L>>, height: u32, count: usize },
}
impl<const L: usize> Bin2<L> {
    fn height(&self) -> u32 {
        match self { Bin2::Leaf(_) => 0, Bin2::Fork { height, .. } => *height }
    }
    fn count(&self) -> usize {
        match self { Bin2::Leaf(v) => v.len(), Bin2::Fork { count, .. } => *count }
    }
    fn fork(left: Arc<Self>, mid: Datom, right: Arc<Self>) -> Self {
        let height = left.height().max(right.height()) + 1;
        let count = left.count() + right.count() + 1;
        Bin2::Fork { left, mid, right, height, count }
    }
    fn alone(this: Arc<Self>) -> Self {
        match Arc::try_unwrap(this) {
            Ok(n) => n,
            Err(n) => match &*n {
                Bin2::Leaf(v) => Bin2::Leaf(copy_cap(v, v.len() + 1)),
                Bin2::Fork { left, mid, right, height, count } => Bin2::Fork { left: left.clone(), mid: mid.clone(), right: right.clone(), height: *height, count: *count },
            },
        }
    }
    fn balance(left: Arc<Self>, mid: Datom, right: Arc<Self>) -> Self {
        let (hl, hr) = (left.height(), right.height());
        if hl > hr + 1 {
            let Bin2::Fork { left: a, mid: m, right: b, .. } = Self::alone(left) else { unreachable!() };
            if a.height() >= b.height() {
                return Self::fork(a, m, Arc::new(Self::fork(b, mid, right)));
            }
            let Bin2::Fork { left: b1, mid: n, right: b2, .. } = Self::alone(b) else { unreachable!() };
            return Self::fork(Arc::new(Self::fork(a, m, b1)), n, Arc::new(Self::fork(b2, mid, right)));
        }
        if hr > hl + 1 {
            let Bin2::Fork { left: a, mid: m, right: b, .. } = Self::alone(right) else { unreachable!() };
            if b.height() >= a.height() {
                return Self::fork(Arc::new(Self::fork(left, mid, a)), m, b);
            }
            let Bin2::Fork { left: a1, mid: n, right: a2, .. } = Self::alone(a) else { unreachable!() };
            return Self::fork(Arc::new(Self::fork(left, mid, a1)), n, Arc::new(Self::fork(a2, m, b)));
        }
        Self::fork(left, mid, right)
    }
    fn put(self, d: &Datom, cmp: Compare) -> Self {
        match self {
            Bin2::Leaf(mut v) => {
                let i = v.partition_point(|x| cmp(x, d) == Ordering::Less);
                v.insert(i, d.clone());
                if v.len() <= L {
                    return Bin2::Leaf(v);
                }
                let right = v.split_off(v.len() / 2 + 1);
                let mid = v.pop().unwrap();
                Self::fork(Arc::new(Bin2::Leaf(v)), mid, Arc::new(Bin2::Leaf(right)))
            }
            Bin2::Fork { left, mid, right, .. } => {
                if cmp(&mid, d) == Ordering::Less {
                    let right = Arc::new(Self::alone(right).put(d, cmp));
                    Self::balance(left, mid, right)
                } else {
                    let left = Arc::new(Self::alone(left).put(d, cmp));
                    Self::balance(left, mid, right)
                }
            }
        }
    }
}
#[derive(Clone)]
struct Binary2<const L: usize>(Arc<Bin2<L>>);
impl<const L: usize> Index for Binary2<L> {
    fn empty() -> Self {
        Binary2(Arc::new(Bin2::Leaf(Vec::new())))
    }
    fn put(&mut self, d: &Datom, cmp: Compare) {
        let old = std::mem::replace(&mut self.0, Arc::new(Bin2::Leaf(Vec::new())));
        self.0 = Arc::new(Bin2::alone(old).put(d, cmp));
    }
    fn len(&self) -> usize {
        self.0.count()
    }
    fn at(&self, mut place: usize) -> &Datom {
        let mut n = &self.0;
        loop {
            match &**n {
                Bin2::Leaf(v) => return &v[place],
                Bin2::Fork { left, mid, right, .. } => {
                    let l = left.count();
                    if place == l { return mid; }
                    if place < l { n = left } else { n = right; place -= l + 1 }
                }
            }
        }
    }
}

// A short list of the newest datoms before a binary tree; the whole list goes into the tree when it is full.
impl<const L: usize> Bin2<L> {
    fn built(mut v: Vec<Datom>) -> Self {
        if v.len() <= L {
            return Bin2::Leaf(v);
        }
        let right = v.split_off(v.len() / 2 + 1);
        let mid = v.pop().unwrap();
        Self::fork(Arc::new(Self::built(v)), mid, Arc::new(Self::built(right)))
    }
    fn join(left: Arc<Self>, mid: Datom, right: Arc<Self>) -> Self {
        let (hl, hr) = (left.height(), right.height());
        if hl > hr + 1 {
            let Bin2::Fork { left: a, mid: m, right: b, .. } = Self::alone(left) else { unreachable!() };
            Self::balance(a, m, Arc::new(Self::join(b, mid, right)))
        } else if hr > hl + 1 {
            let Bin2::Fork { left: a, mid: m, right: b, .. } = Self::alone(right) else { unreachable!() };
            Self::balance(Arc::new(Self::join(left, mid, a)), m, b)
        } else {
            Self::fork(left, mid, right)
        }
    }
    fn with_datoms(this: Arc<Self>, from: usize, below: &[usize], datoms: &[Datom]) -> Arc<Self> {
        if datoms.is_empty() {
            return this;
        }
        Arc::new(match Self::alone(this) {
            Bin2::Leaf(v) => {
                let mut all = Vec::with_capacity(v.len() + datoms.len());
                let mut n = 0;
                for (i, d) in v.into_iter().enumerate() {
                    while n < datoms.len() && below[n] - from <= i {
                        all.push(datoms[n].clone());
                        n += 1;
                    }
                    all.push(d);
                }
                all.extend_from_slice(&datoms[n..]);
                Self::built(all)
            }
            Bin2::Fork { left, mid, right, .. } => {
                let before = left.count();
                let cut = below.partition_point(|b| *b <= from + before);
                let left = Self::with_datoms(left, from, &below[..cut], &datoms[..cut]);
                let right = Self::with_datoms(right, from + before + 1, &below[cut..], &datoms[cut..]);
                Self::join(left, mid, right)
            }
        })
    }
    fn place(&self, d: &Datom, cmp: Compare) -> usize {
        match self {
            Bin2::Leaf(v) => v.partition_point(|x| cmp(x, d) == Ordering::Less),
            Bin2::Fork { left, mid, right, .. } => {
                if cmp(mid, d) == Ordering::Less {
                    left.count() + 1 + right.place(d, cmp)
                } else {
                    left.place(d, cmp)
                }
            }
        }
    }
    fn datom(&self, mut place: usize) -> &Datom {
        let mut n = self;
        loop {
            match n {
                Bin2::Leaf(v) => return &v[place],
                Bin2::Fork { left, mid, right, .. } => {
                    let l = left.count();
                    if place == l { return mid; }
                    if place < l { n = left } else { n = right; place -= l + 1 }
                }
            }
        }
    }
}
struct New { datoms: Vec<Datom>, below: Vec<usize> }
#[derive(Clone)]
struct Newest<const N: usize, const L: usize> { tree: Option<Arc<Bin2<L>>>, newest: Arc<New> }
impl<const N: usize, const L: usize> Newest<N, L> {
    fn place(&self, d: &Datom, cmp: Compare) -> usize {
        let t = match &self.tree { None => 0, Some(t) => t.place(d, cmp) };
        t + self.newest.datoms.partition_point(|x| cmp(x, d) == Ordering::Less)
    }
    fn first_at(below: &[usize], place: usize) -> usize {
        let (mut from, mut to) = (0, below.len());
        while from < to {
            let m = from + (to - from) / 2;
            if below[m] + m < place { from = m + 1 } else { to = m }
        }
        from
    }
    fn insert(self, place: usize, d: Datom) -> Self {
        let Newest { tree, newest } = self;
        let New { mut datoms, mut below } = match Arc::try_unwrap(newest) {
            Ok(n) => n,
            Err(n) => if n.datoms.len() == N {
                let tree = Some(match tree { None => Arc::new(Bin2::built(n.datoms.clone())), Some(t) => Bin2::with_datoms(t, 0, &n.below, &n.datoms) });
                return Newest { tree, newest: Arc::new(New { datoms: vec![d], below: vec![place] }) };
            } else { New { datoms: copy_cap(&n.datoms, N), below: copy_cap(&n.below, N) } },
        };
        if datoms.len() == N {
            let tree = Some(match tree { None => Arc::new(Bin2::built(datoms)), Some(t) => Bin2::with_datoms(t, 0, &below, &datoms) });
            return Newest { tree, newest: Arc::new(New { datoms: vec![d], below: vec![place] }) };
        }
        let i = Self::first_at(&below, place);
        datoms.insert(i, d);
        below.insert(i, place - i);
        Newest { tree, newest: Arc::new(New { datoms, below }) }
    }
}
impl<const N: usize, const L: usize> Index for Newest<N, L> {
    fn empty() -> Self { Newest { tree: None, newest: Arc::new(New { datoms: Vec::new(), below: Vec::new() }) } }
    fn put(&mut self, d: &Datom, cmp: Compare) {
        let old = std::mem::replace(self, Self::empty());
        let place = old.place(d, cmp);
        *self = old.insert(place, d.clone());
    }
    fn len(&self) -> usize { self.tree.as_ref().map_or(0, |t| t.count()) + self.newest.datoms.len() }
    fn at(&self, place: usize) -> &Datom {
        let i = Self::first_at(&self.newest.below, place);
        if i < self.newest.datoms.len() && self.newest.below[i] + i == place { &self.newest.datoms[i] } else { self.tree.as_ref().unwrap().datom(place - i) }
    }
}

fn entry(i: usize, random: bool) -> [Datom; 3] {
    let j = if random { (i as u64).wrapping_mul(0x9E3779B97F4A7C15) >> 40 } else { i as u64 };
    let (tx, e, t) = (13194139533314 + i as u64, 17592186044419 + j, i as u32 + 2);
    let key: Arc<str> = format!("0-{j}").into();
    [
        Datom { e: tx, a: 8, v: Value::Long(i as i64), t, added: true },
        Datom { e, a: 17592186044417, v: Value::Str(key), t, added: true },
        Datom { e, a: 17592186044418, v: Value::Long(7919 * i as i64 % 1000), t, added: true },
    ]
}

fn run<I: Index>(live: usize, random: bool) -> f64 {
    let orders: [Compare; 3] = [eavt, aevt, avet];
    let mut lists = [I::empty(), I::empty(), I::empty()];
    let mut i = 0;
    while lists.iter().map(|l| l.len()).sum::<usize>() < live {
        for d in &entry(i, random) {
            for k in 0..3 {
                if k < 2 || d.a != 8 {
                    lists[k].put(d, orders[k]);
                }
            }
        }
        i += 1;
    }
    // check order
    for k in 0..3 {
        for p in 1..lists[k].len() {
            assert!(orders[k](lists[k].at(p - 1), lists[k].at(p)) == Ordering::Less);
        }
    }
    let reps = 150;
    let n = 250;
    let mut best = f64::MAX;
    for _ in 0..reps {
        let mut now = lists.clone();
        let entries: Vec<_> = (i..i + n).map(|i| entry(i, random)).collect();
        let start = Instant::now();
        for en in &entries {
            let mut new = now.clone();
            for k in 0..3 {
                for d in en {
                    if k < 2 || d.a != 8 {
                        new[k].put(d, orders[k]);
                    }
                }
            }
            now = new;
        }
        best = best.min(start.elapsed().as_secs_f64() / n as f64);
    }
    best * 1e6
}

macro_rules! key {
    ($name:ident, $cmp:ident) => {
        #[derive(Clone)]
        struct $name(Datom);
        impl PartialEq for $name {
            fn eq(&self, o: &Self) -> bool {
                $cmp(&self.0, &o.0) == Ordering::Equal
            }
        }
        impl Eq for $name {}
        impl PartialOrd for $name {
            fn partial_cmp(&self, o: &Self) -> Option<Ordering> {
                Some(self.cmp(o))
            }
        }
        impl Ord for $name {
            fn cmp(&self, o: &Self) -> Ordering {
                $cmp(&self.0, &o.0)
            }
        }
    };
}
key!(E, eavt);
key!(A, aevt);
key!(V, avet);

fn set(live: usize, random: bool) -> f64 {
    let (mut e, mut a, mut v) = (BTreeSet::new(), BTreeSet::new(), BTreeSet::new());
    let mut i = 0;
    let put = |d: &Datom, e: &mut BTreeSet<E>, a: &mut BTreeSet<A>, v: &mut BTreeSet<V>| {
        e.insert(E(d.clone()));
        a.insert(A(d.clone()));
        if d.a != 8 {
            v.insert(V(d.clone()));
        }
    };
    while e.len() + a.len() + v.len() < live {
        for d in &entry(i, random) {
            put(d, &mut e, &mut a, &mut v);
        }
        i += 1;
    }
    let n = 250;
    let mut best = f64::MAX;
    for _ in 0..150 {
        let (mut e2, mut a2, mut v2) = (e.clone(), a.clone(), v.clone());
        let entries: Vec<_> = (i..i + n).map(|i| entry(i, random)).collect();
        let start = Instant::now();
        for en in &entries {
            for d in en {
                put(d, &mut e2, &mut a2, &mut v2);
            }
        }
        best = best.min(start.elapsed().as_secs_f64() / n as f64);
    }
    best * 1e6
}

fn row(name: &str, f: impl Fn(usize, bool) -> f64) {
    print!("{name:16}");
    for random in [false, true] {
        for live in [1000, 10_000, 65_536] {
            print!(" {:7.2}", f(live, random));
        }
        print!("   |");
    }
    println!();
}

fn main() {
    println!("us per entry; rising keys, then keys anywhere; live datoms of the orders together: 1000 10000 65536");
    for _ in 0..2 {
    row("BTreeSet", set);
    row("btree 8 7", run::<BTree<8, 7>>);
    row("btree 16 15", run::<BTree<16, 15>>);
    row("btree2 8 7", run::<BTree2<8, 7>>);
    row("btree2 12 7", run::<BTree2<12, 7>>);
    row("btree2 16 7", run::<BTree2<16, 7>>);
    row("btree2 16 11", run::<BTree2<16, 11>>);
    row("btree2 16 15", run::<BTree2<16, 15>>);
    row("btree2 24 15", run::<BTree2<24, 15>>);
    row("btree2 32 15", run::<BTree2<32, 15>>);
    row("binary 16", run::<Binary<16>>);
    row("binary2 8", run::<Binary2<8>>);
    row("binary2 12", run::<Binary2<12>>);
    row("binary2 16", run::<Binary2<16>>);
    row("binary2 24", run::<Binary2<24>>);
    row("newest 15, 16", run::<Newest<15, 16>>);
    row("newest 31, 16", run::<Newest<31, 16>>);
    row("newest 63, 15", run::<Newest<63, 15>>);
    row("newest 63, 31", run::<Newest<63, 31>>);
    }
}
