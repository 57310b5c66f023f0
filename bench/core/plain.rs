//! The yardstick of the core's benchmark in ordinary Rust: a database as four `BTreeSet`s that share nothing, hash maps for its attributes,
//! and the checks of the definitions as far as they touch a transaction of new entities. `plain` does what each line of standard input
//! asks, as the proved program does, and gives the same answers.
use std::cmp::Ordering;
use std::collections::{BTreeMap, BTreeSet, HashMap};
use std::io::{BufRead, Write};
use std::sync::Arc;

#[path = "../datom.rs"]
mod datom;

use datom::{Datom, Value};

// ---- the database

const DOC: u64 = 7;
const TX_INSTANT: u64 = 8;
const STRING: u64 = 11;
const LONG: u64 = 13;
const INSTANT: u64 = 15;
const TX: u64 = 3 << 42;
const USER: u64 = 4 << 42;
const NUM: u64 = USER + 1;
const TEXT: u64 = USER + 2;
const CLOCK: i64 = 1_704_067_200_000;

macro_rules! order {
    ($name:ident, $compare:ident, $d:ident => $key:expr) => {
        fn $compare(x: &Datom, y: &Datom) -> Ordering {
            fn key($d: &Datom) -> impl Ord + '_ {
                $key
            }
            key(x).cmp(&key(y))
        }

        struct $name(Datom);
        impl Ord for $name {
            fn cmp(&self, other: &Self) -> Ordering {
                $compare(&self.0, &other.0)
            }
        }
        impl PartialOrd for $name {
            fn partial_cmp(&self, other: &Self) -> Option<Ordering> {
                Some(self.cmp(other))
            }
        }
        impl PartialEq for $name {
            fn eq(&self, other: &Self) -> bool {
                self.cmp(other) == Ordering::Equal
            }
        }
        impl Eq for $name {}
    };
}
order!(Eavt, eavt, d => (d.e, d.a, &d.v, d.t));
order!(Aevt, aevt, d => (d.a, d.e, &d.v, d.t));
order!(Avet, avet, d => (d.a, &d.v, d.e, d.t));
order!(Vaet, vaet, d => (&d.v, d.a, d.e, d.t));

#[derive(Clone, Copy)]
struct Attribute {
    id: u64,
    kind: u64,
    many: bool,
    unique: bool,
    index: bool,
}

#[derive(Default)]
struct Database {
    idents: HashMap<Arc<str>, u64>,
    attributes: HashMap<u64, Attribute>,
    eavt: BTreeSet<Eavt>,
    aevt: BTreeSet<Aevt>,
    avet: BTreeSet<Avet>,
    vaet: BTreeSet<Vaet>,
    /// The text of the least value that there is.
    nothing: Arc<str>,
    issued: u64,
    basis: u32,
    instant: i64,
}

fn is_of(d: &Datom, e: u64, a: u64, v: &Value) -> bool {
    d.e == e && d.a == a && d.v == *v
}

impl Database {
    /// It has a number with an index and a text, as the first transaction of the other program makes them.
    fn new() -> Database {
        let mut db = Database { issued: 2, basis: 1, instant: CLOCK, ..Database::default() };
        let attributes = [(NUM, "b/num", LONG, true), (TEXT, "b/text", STRING, false), (DOC, "db/doc", STRING, false), (TX_INSTANT, "db/txInstant", INSTANT, true)];
        for (id, name, kind, index) in attributes {
            db.idents.insert(name.into(), id);
            db.attributes.insert(id, Attribute { id, kind, many: false, unique: false, index });
        }
        db
    }

    fn named(&self, name: &str) -> Option<&Attribute> {
        self.attributes.get(self.idents.get(name)?)
    }

    fn holds(&self, e: u64, a: u64, v: &Value) -> bool {
        let last = Eavt(Datom { e, a, v: v.clone(), t: u32::MAX, added: true });
        self.eavt.range(..=last).next_back().is_some_and(|d| is_of(&d.0, e, a, v) && d.0.added)
    }

    fn holder(&self, a: u64, v: &Value) -> Option<u64> {
        let first = Avet(Datom { e: 0, a, v: v.clone(), t: 0, added: true });
        let mut ahead = self.avet.range(first..).map(|d| &d.0).take_while(|d| d.a == a && d.v == *v).peekable();
        while let Some(d) = ahead.next() {
            if d.added && !ahead.peek().is_some_and(|next| next.e == d.e) {
                return Some(d.e);
            }
        }
        None
    }

    fn values_of(&self, e: u64, a: u64) -> Vec<Value> {
        let least = Value::Keyword(self.nothing.clone());
        let first = Eavt(Datom { e, a, v: least, t: 0, added: true });
        let mut ahead = self.eavt.range(first..).map(|d| &d.0).take_while(|d| d.e == e && d.a == a).peekable();
        let mut values = Vec::new();
        while let Some(d) = ahead.next() {
            if d.added && !ahead.peek().is_some_and(|next| next.v == d.v) {
                values.push(d.v.clone());
            }
        }
        values
    }

    fn record(&mut self, entry: Vec<Datom>) {
        for d in entry {
            self.issued = self.issued.max(d.e.saturating_sub(USER));
            let attribute = self.attributes[&d.a];
            if attribute.index || attribute.unique {
                self.avet.insert(Avet(d.clone()));
            }
            if let Value::Ref(_) = d.v {
                self.vaet.insert(Vaet(d.clone()));
            }
            self.aevt.insert(Aevt(d.clone()));
            self.eavt.insert(Eavt(d));
        }
        self.basis += 1;
        self.instant += 1;
    }
}

// ---- deciding

enum Form {
    Int(i64),
    Str(Arc<str>),
    Key(Arc<str>),
    Vector(Vec<Form>),
    Map(Vec<(Form, Form)>),
}

/// The number of a rule, and the place of the form that breaks it.
type Refusal = (u32, usize);

/// Who asks a triple.
#[derive(Default)]
struct Ways {
    added: Option<usize>,
    replaced: Option<usize>,
}

type Triples = BTreeMap<(u64, u64, Value), Ways>;

fn value_of(kind: u64, form: &Form) -> Option<Value> {
    match (kind, form) {
        (STRING, Form::Str(text)) if text.len() <= 1 << 20 => Some(Value::Str(text.clone())),
        (LONG, Form::Int(n)) => Some(Value::Long(*n)),
        _ => None,
    }
}

fn decide(db: &Database, data: &Form) -> Result<Vec<Datom>, Refusal> {
    let Form::Vector(forms) = data else {
        return Err((1, 0));
    };
    let (mut adds, mut protected, mut wrong) = (Vec::new(), None, None);
    for (place, form) in forms.iter().enumerate() {
        let Form::Map(pairs) = form else {
            return Err((1, place));
        };
        if pairs.is_empty() {
            return Err((1, place));
        }
        for (key, value) in pairs {
            let Form::Key(name) = key else {
                return Err((1, place));
            };
            let attribute = db.named(name).ok_or((2, place))?;
            if attribute.id == TX_INSTANT {
                protected.get_or_insert(place);
            }
            match value_of(attribute.kind, value) {
                Some(v) => adds.push((place, attribute, v)),
                None => _ = wrong.get_or_insert(place),
            }
        }
    }
    for (rule, first) in [(3, protected), (4, wrong)] {
        if let Some(place) = first {
            return Err((rule, place));
        }
    }
    changes(db, forms.len(), adds)
}

fn changes(db: &Database, count: usize, adds: Vec<(usize, &Attribute, Value)>) -> Result<Vec<Datom>, Refusal> {
    let mut holders: Vec<Option<u64>> = vec![None; count];
    for (place, attribute, v) in &adds {
        if attribute.unique {
            match (holders[*place], db.holder(attribute.id, v)) {
                (Some(one), Some(other)) if one != other => return Err((8, *place)),
                (None, found) => holders[*place] = found,
                _ => {}
            }
        }
    }
    let mut users = db.issued;
    let entities: Vec<u64> = holders
        .into_iter()
        .map(|holder| {
            holder.unwrap_or_else(|| {
                users += 1;
                USER + users
            })
        })
        .collect();
    let mut triples = Triples::new();
    for (place, attribute, v) in adds {
        let e = entities[place];
        if !attribute.many && e <= USER + db.issued {
            for other in db.values_of(e, attribute.id) {
                if other != v {
                    triples.entry((e, attribute.id, other)).or_default().replaced.get_or_insert(place);
                }
            }
        }
        triples.entry((e, attribute.id, v)).or_default().added.get_or_insert(place);
    }
    judged(db, triples, users)
}

fn judged(db: &Database, triples: Triples, users: u64) -> Result<Vec<Datom>, Refusal> {
    let t = db.basis + 1;
    let (mut conflict, mut taken) = (None, None);
    let mut datoms = Vec::with_capacity(triples.len() + 1);
    let mut before: Option<(u64, u64)> = None;
    for ((e, a, v), ways) in triples {
        let attribute = &db.attributes[&a];
        if let Some(place) = ways.added {
            if !attribute.many && before == Some((e, a)) {
                conflict.get_or_insert(place);
            }
            if attribute.unique && db.holder(a, &v).is_some_and(|holder| holder != e) {
                taken.get_or_insert(place);
            }
            before = Some((e, a));
        }
        let holds = e <= USER + db.issued && db.holds(e, a, &v);
        if holds != ways.added.is_some() {
            datoms.push(Datom { e, a, v, t, added: !holds });
        }
    }
    for (rule, first) in [(12, conflict), (13, taken)] {
        if let Some(place) = first {
            return Err((rule, place));
        }
    }
    if datoms.len() + 1 > 65_535 || size(&datoms) > 67_108_864 {
        return Err((16, 0));
    }
    if t > 2_147_483_647 || users > 1 << 40 {
        return Err((17, 0));
    }
    let instant = Datom { e: TX + u64::from(t), a: TX_INSTANT, v: Value::Instant(db.instant + 1), t, added: true };
    datoms.insert(datoms.partition_point(|d| d.e < instant.e), instant);
    Ok(datoms)
}

fn size(datoms: &[Datom]) -> usize {
    let value = |v: &Value| match v {
        Value::Keyword(text) | Value::Str(text) | Value::Symbol(text) | Value::Uri(text) => 5 + text.len(),
        Value::Bool(_) => 2,
        Value::Long(_) | Value::Ref(_) | Value::Instant(_) => 9,
        Value::Uuid(_) => 17,
    };
    43 + datoms.iter().map(|d| 17 + value(&d.v)).sum::<usize>()
}

// ---- the tasks

struct Program {
    db: Database,
    num: Arc<str>,
    text: Arc<str>,
    entities: u32,
}

impl Program {
    fn accept(&mut self, count: u32) -> u32 {
        for _ in 0..count {
            let n = self.entities;
            let form = Form::Vector(vec![Form::Map(vec![
                (Form::Key(self.num.clone()), Form::Int(i64::from(n))),
                (Form::Key(self.text.clone()), Form::Str(format!("text {n}").into())),
            ])]);
            let entry = decide(&self.db, &form).expect("an entry");
            self.db.record(entry);
            self.entities += 1;
        }
        self.db.basis
    }

    /// How many of so many numbers the question finds.
    fn found(&self, count: u32, finds: impl Fn(&Database, u64, Value) -> bool) -> u32 {
        let mut state = 1u64;
        let mut found = 0;
        for _ in 0..count {
            state = state.wrapping_mul(6_364_136_223_846_793_005).wrapping_add(1_442_695_040_888_963_407);
            let n = ((state >> 33) % u64::from(self.entities.max(1))) as u32;
            found += u32::from(finds(&self.db, USER + 3 + u64::from(n), Value::Long(i64::from(n))));
        }
        found
    }
}

fn main() {
    let mut program = Program { db: Database::new(), num: "b/num".into(), text: "b/text".into(), entities: 0 };
    for line in std::io::stdin().lock().lines() {
        let line = line.expect("a line");
        let (task, number) = line.split_once(' ').expect("a task and a number");
        let count: u32 = number.parse().expect("a number");
        let answer = match task {
            "accept" => program.accept(count),
            "holds" => program.found(count, |db, e, v| db.holds(e, NUM, &v)),
            "holder" => program.found(count, |db, e, v| db.holder(NUM, &v) == Some(e)),
            _ => program.found(count, |db, e, _| db.values_of(e, NUM).len() == 1),
        };
        println!("{answer}");
        std::io::stdout().flush().expect("standard output");
    }
}
