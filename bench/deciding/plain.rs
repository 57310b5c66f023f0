//! The yardstick of deciding transactions in ordinary Rust: hash maps for the database, the same checks, the same answers.
//! `plain FILE ROUNDS` reads transactions from FILE, records all but the last one, decides the last one ROUNDS times, and prints
//! what it comes to: the number of datoms, or the rule and the form that refuse it.
use std::collections::{BTreeSet, HashMap, HashSet};
use std::hint::black_box;
use std::sync::Arc;

#[path = "../datom.rs"]
mod datom;

use datom::{Datom, Value};

// ---- forms

#[derive(Clone, PartialEq)]
enum Form {
    Nil,
    Bool(bool),
    Int(i64),
    Str(Arc<str>),
    Key(Arc<str>),
    Vector(Vec<Form>),
    List(Vec<Form>),
    Set(Vec<Form>),
    Map(Vec<(Form, Form)>),
}

struct Reader<'a> {
    bytes: &'a [u8],
    at: usize,
}

impl Reader<'_> {
    fn skip(&mut self) {
        while self.at < self.bytes.len() && (self.bytes[self.at].is_ascii_whitespace() || self.bytes[self.at] == b',') {
            self.at += 1;
        }
    }

    fn next(&mut self) -> Option<Form> {
        self.skip();
        match *self.bytes.get(self.at)? {
            b'[' => Some(Form::Vector(self.members(1, b']'))),
            b'(' => Some(Form::List(self.members(1, b')'))),
            b'{' => {
                let mut members = self.members(1, b'}').into_iter();
                let mut pairs = Vec::new();
                while let (Some(key), Some(value)) = (members.next(), members.next()) {
                    pairs.push((key, value));
                }
                Some(Form::Map(pairs))
            }
            b'#' => Some(Form::Set(self.members(2, b'}'))),
            b'"' => Some(Form::Str(self.string())),
            _ => Some(self.token()),
        }
    }

    fn members(&mut self, open: usize, close: u8) -> Vec<Form> {
        self.at += open;
        let mut members = Vec::new();
        loop {
            self.skip();
            if self.bytes[self.at] == close {
                self.at += 1;
                return members;
            }
            members.push(self.next().expect("a form"));
        }
    }

    fn string(&mut self) -> Arc<str> {
        let from = self.at + 1;
        self.at = from;
        while self.bytes[self.at] != b'"' {
            self.at += 1;
        }
        self.at += 1;
        std::str::from_utf8(&self.bytes[from..self.at - 1]).expect("text").into()
    }

    fn token(&mut self) -> Form {
        let from = self.at;
        while self.at < self.bytes.len() && !b" \t\r\n,()[]{}\"".contains(&self.bytes[self.at]) {
            self.at += 1;
        }
        match std::str::from_utf8(&self.bytes[from..self.at]).expect("text") {
            "nil" => Form::Nil,
            "true" => Form::Bool(true),
            "false" => Form::Bool(false),
            key if key.starts_with(':') => Form::Key(key[1..].into()),
            number => Form::Int(number.parse().expect("an integer")),
        }
    }
}

// ---- the database

const IDENT: u64 = 1;
const VALUE_TYPE: u64 = 2;
const CARDINALITY: u64 = 3;
const UNIQUE: u64 = 4;
const IS_COMPONENT: u64 = 5;
const INDEX: u64 = 6;
const DOC: u64 = 7;
const TX_INSTANT: u64 = 8;
const REF: u64 = 14;
const MANY: u64 = 21;
const IDENTITY: u64 = 30;
const TX: u64 = 3 << 42;
const USER: u64 = 4 << 42;

#[derive(Clone)]
struct Attribute {
    id: u64,
    kind: u64,
    many: bool,
    unique: u64,
    component: bool,
}

#[derive(Default)]
struct Database {
    idents: HashMap<Arc<str>, u64>,
    attributes: HashMap<u64, Attribute>,
    values: HashMap<(u64, u64), BTreeSet<Value>>,
    attributes_of: HashMap<u64, BTreeSet<u64>>,
    holders: HashMap<(u64, Value), u64>,
    refs: HashMap<u64, HashSet<(u64, u64)>>,
    under: HashMap<u64, HashSet<u64>>,
    issued: u64,
    basis: u32,
    instant: i64,
}

impl std::hash::Hash for Value {
    fn hash<H: std::hash::Hasher>(&self, state: &mut H) {
        match self {
            Value::Keyword(text) | Value::Str(text) | Value::Symbol(text) | Value::Uri(text) => text.hash(state),
            Value::Bool(b) => b.hash(state),
            Value::Long(n) | Value::Instant(n) => n.hash(state),
            Value::Ref(e) => e.hash(state),
            Value::Uuid(n) => n.hash(state),
        }
    }
}

impl Database {
    fn new() -> Database {
        let mut db = Database::default();
        let built_in = [
            (IDENT, "db/ident", 10, false, IDENTITY),
            (VALUE_TYPE, "db/valueType", REF, false, 0),
            (CARDINALITY, "db/cardinality", REF, false, 0),
            (UNIQUE, "db/unique", REF, false, 0),
            (IS_COMPONENT, "db/isComponent", 12, false, 0),
            (INDEX, "db/index", 12, false, 0),
            (DOC, "db/doc", 11, false, 0),
            (TX_INSTANT, "db/txInstant", 15, false, 0),
        ];
        for (id, name, kind, many, unique) in built_in {
            db.idents.insert(name.into(), id);
            db.attributes.insert(id, Attribute { id, kind, many, unique, component: false });
        }
        let names = [
            (10, "db.type/keyword"),
            (11, "db.type/string"),
            (12, "db.type/boolean"),
            (13, "db.type/long"),
            (14, "db.type/ref"),
            (15, "db.type/instant"),
            (16, "db.type/uuid"),
            (20, "db.cardinality/one"),
            (21, "db.cardinality/many"),
            (30, "db.unique/identity"),
            (31, "db.unique/value"),
        ];
        for (id, name) in names {
            db.idents.insert(name.into(), id);
        }
        db
    }

    fn named(&self, name: &str) -> Option<&Attribute> {
        self.attributes.get(self.idents.get(name)?)
    }

    fn is_issued(&self, n: u64) -> bool {
        (1..100).contains(&n) || (TX..=TX + u64::from(self.basis)).contains(&n) || (USER + 1..=USER + self.issued).contains(&n)
    }

    fn values(&self, e: u64, a: u64) -> impl Iterator<Item = &Value> {
        self.values.get(&(e, a)).into_iter().flatten()
    }

    fn holds(&self, e: u64, a: u64, v: &Value) -> bool {
        self.values.get(&(e, a)).is_some_and(|values| values.contains(v))
    }

    fn record(&mut self, entry: &[Datom]) {
        let mut described = HashSet::new();
        for d in entry {
            if d.e > USER {
                self.issued = self.issued.max(d.e - USER);
            }
            if (IDENT..=INDEX).contains(&d.a) {
                described.insert(d.e);
            }
            let unique = self.attributes.get(&d.a).is_some_and(|a| a.unique != 0);
            let values = self.values.entry((d.e, d.a)).or_default();
            if d.added {
                values.insert(d.v.clone());
                self.attributes_of.entry(d.e).or_default().insert(d.a);
                self.under.entry(d.a).or_default().insert(d.e);
                if unique {
                    self.holders.insert((d.a, d.v.clone()), d.e);
                }
                if let Value::Ref(to) = d.v {
                    self.refs.entry(to).or_default().insert((d.e, d.a));
                }
            } else {
                values.remove(&d.v);
                if unique && self.holders.get(&(d.a, d.v.clone())) == Some(&d.e) {
                    self.holders.remove(&(d.a, d.v.clone()));
                }
                if let Value::Ref(to) = d.v {
                    self.refs.entry(to).or_default().remove(&(d.e, d.a));
                }
            }
        }
        for e in described {
            self.describe(e);
        }
        self.basis += 1;
        self.instant += 1;
    }

    fn describe(&mut self, e: u64) {
        let first = |a| self.values(e, a).next().cloned();
        let (Some(Value::Keyword(name)), Some(Value::Ref(kind)), Some(Value::Ref(count))) = (first(IDENT), first(VALUE_TYPE), first(CARDINALITY)) else {
            return;
        };
        let unique = if let Some(Value::Ref(u)) = first(UNIQUE) { u } else { 0 };
        let component = first(IS_COMPONENT) == Some(Value::Bool(true));
        self.idents.insert(name, e);
        self.attributes.insert(e, Attribute { id: e, kind, many: count == MANY, unique, component });
    }
}

// ---- what forms ask

#[derive(Clone)]
enum Name<'a> {
    Number(i64),
    Ident(&'a Arc<str>),
    Lookup(&'a Arc<str>, &'a Form),
    Tempid(&'a Arc<str>),
    Nameless(usize),
}

enum Part<'a> {
    Plain(Value),
    Entity(Name<'a>),
}

enum Ask<'a> {
    Add(Name<'a>, &'a Attribute, Part<'a>),
    Retract(Name<'a>, &'a Attribute, Part<'a>),
    RetractAll(Name<'a>, &'a Attribute),
    Cas(Name<'a>, &'a Attribute, Option<Part<'a>>, Part<'a>),
    RetractEntity(Name<'a>),
    Meets(Name<'a>),
}

type Refusal = (u32, usize);

fn note(first: &mut Option<usize>, place: usize) {
    if first.is_none() {
        *first = Some(place);
    }
}

struct Walk<'a> {
    db: &'a Database,
    asks: Vec<(usize, Ask<'a>)>,
    place: usize,
    nameless: usize,
    shape: Option<usize>,
    protected: Option<usize>,
    wrong: Option<usize>,
    lookup: Option<usize>,
    lacking: Option<usize>,
}

fn lookup_in(form: &Form) -> Option<(&Arc<str>, &Form)> {
    match form {
        Form::Vector(members) => match members.as_slice() {
            [Form::Key(key), value] => Some((key, value)),
            _ => None,
        },
        _ => None,
    }
}

fn value_of(kind: u64, form: &Form) -> Option<Value> {
    match (kind, form) {
        (10, Form::Key(text)) => Some(Value::Keyword(text.clone())),
        (11, Form::Str(text)) if text.len() <= 1 << 20 => Some(Value::Str(text.clone())),
        (12, Form::Bool(b)) => Some(Value::Bool(*b)),
        (13, Form::Int(n)) => Some(Value::Long(*n)),
        _ => None,
    }
}

impl<'a> Walk<'a> {
    fn attribute(&self, name: &str) -> Result<&'a Attribute, Refusal> {
        self.db.named(name).ok_or((2, self.place))
    }

    fn name(&mut self, form: &'a Form, new: bool) -> Result<Name<'a>, Refusal> {
        match form {
            Form::Int(n) => Ok(Name::Number(*n)),
            Form::Key(text) => Ok(Name::Ident(text)),
            Form::Str(text) if new => Ok(Name::Tempid(text)),
            _ => {
                let (key, value) = lookup_in(form).ok_or((1, self.place))?;
                let attribute = self.attribute(key)?;
                if value_of(attribute.kind, value).is_none() {
                    note(&mut self.wrong, self.place);
                }
                if attribute.unique == 0 {
                    note(&mut self.lookup, self.place);
                }
                Ok(Name::Lookup(key, value))
            }
        }
    }

    fn part(&mut self, attribute: &'a Attribute, form: &'a Form, new: bool) -> Result<Option<Part<'a>>, Refusal> {
        if attribute.kind == REF {
            let names = match form {
                Form::Int(n) => *n >= 0,
                Form::Key(_) => true,
                Form::Str(_) => new,
                other => lookup_in(other).is_some(),
            };
            if names {
                return Ok(Some(Part::Entity(self.name(form, new)?)));
            }
        }
        let value = value_of(attribute.kind, form);
        if value.is_none() {
            note(&mut self.wrong, self.place);
        }
        Ok(value.map(Part::Plain))
    }

    fn guarded(&mut self, attribute: &Attribute, part: &Option<Part<'a>>) {
        if attribute.id == TX_INSTANT {
            note(&mut self.protected, self.place);
        }
        if let (IDENT, Some(Part::Plain(Value::Keyword(text)))) = (attribute.id, part) {
            if text.starts_with("db/") || text.starts_with("db.") {
                note(&mut self.protected, self.place);
            }
        }
    }

    fn form(&mut self, form: &'a Form) -> Result<(), Refusal> {
        match form {
            Form::Map(pairs) if !pairs.is_empty() => {
                let name = self.map_name(pairs)?;
                self.asks.push((self.place, Ask::Meets(name.clone())));
                self.map(name, pairs)
            }
            Form::Vector(members) | Form::List(members) => self.list(members),
            _ => Err((1, self.place)),
        }
    }

    fn list(&mut self, members: &'a [Form]) -> Result<(), Refusal> {
        let [Form::Key(verb), arguments @ ..] = members else {
            return Err((1, self.place));
        };
        match (&**verb, arguments) {
            ("db/add", [e, Form::Key(a), v]) => {
                let (on, attribute) = (self.name(e, true)?, self.attribute(a)?);
                let part = self.part(attribute, v, true)?;
                self.guarded(attribute, &part);
                if let Some(part) = part {
                    self.asks.push((self.place, Ask::Add(on, attribute, part)));
                }
            }
            ("db/retract", [e, Form::Key(a), v]) => {
                let (on, attribute) = (self.name(e, false)?, self.attribute(a)?);
                let part = self.part(attribute, v, false)?;
                self.guarded(attribute, &None);
                if let Some(part) = part {
                    self.asks.push((self.place, Ask::Retract(on, attribute, part)));
                }
            }
            ("db/retract", [e, Form::Key(a)]) => {
                let (on, attribute) = (self.name(e, false)?, self.attribute(a)?);
                self.guarded(attribute, &None);
                self.asks.push((self.place, Ask::RetractAll(on, attribute)));
            }
            ("db/cas", [e, Form::Key(a), old, new]) => {
                let (on, attribute) = (self.name(e, false)?, self.attribute(a)?);
                let old = if *old == Form::Nil { None } else { self.part(attribute, old, false)? };
                let new = self.part(attribute, new, false)?;
                self.guarded(attribute, &new);
                if let Some(new) = new {
                    self.asks.push((self.place, Ask::Cas(on, attribute, old, new)));
                }
            }
            ("db/retractEntity", [e]) => {
                let on = self.name(e, false)?;
                self.asks.push((self.place, Ask::RetractEntity(on)));
            }
            _ => return Err((1, self.place)),
        }
        Ok(())
    }

    fn map_name(&mut self, pairs: &'a [(Form, Form)]) -> Result<Name<'a>, Refusal> {
        for (key, value) in pairs {
            if matches!(key, Form::Key(text) if &**text == "db/id") {
                return self.name(value, true);
            }
        }
        self.nameless += 1;
        Ok(Name::Nameless(self.nameless - 1))
    }

    fn has_identity(&self, pairs: &[(Form, Form)]) -> bool {
        pairs.iter().any(|(key, _)| match key {
            Form::Key(text) => &**text == "db/id" || self.db.named(text).is_some_and(|a| a.unique != 0),
            _ => false,
        })
    }

    fn map(&mut self, on: Name<'a>, pairs: &'a [(Form, Form)]) -> Result<(), Refusal> {
        for (key, value) in pairs {
            let Form::Key(text) = key else {
                return Err((1, self.place));
            };
            if &**text == "db/id" {
                continue;
            }
            let attribute = self.attribute(text)?;
            self.guarded(attribute, &None);
            match value {
                Form::Set(members) => self.members(&on, attribute, members)?,
                Form::Vector(members) | Form::List(members) if attribute.many && lookup_in(value).is_none() => self.members(&on, attribute, members)?,
                other => self.member(&on, attribute, other)?,
            }
        }
        Ok(())
    }

    fn members(&mut self, on: &Name<'a>, attribute: &'a Attribute, members: &'a [Form]) -> Result<(), Refusal> {
        for member in members {
            self.member(on, attribute, member)?;
        }
        Ok(())
    }

    fn member(&mut self, on: &Name<'a>, attribute: &'a Attribute, value: &'a Form) -> Result<(), Refusal> {
        if let (Form::Map(pairs), REF) = (value, attribute.kind) {
            let name = self.map_name(pairs)?;
            self.asks.push((self.place, Ask::Add(on.clone(), attribute, Part::Entity(name.clone()))));
            if !attribute.component && !self.has_identity(pairs) {
                note(&mut self.lacking, self.place);
            }
            return self.map(name, pairs);
        }
        let part = self.part(attribute, value, true)?;
        self.guarded(attribute, &part);
        if let Some(part) = part {
            self.asks.push((self.place, Ask::Add(on.clone(), attribute, part)));
        }
        Ok(())
    }
}

// ---- names to numbers

#[derive(Default)]
struct Tempid {
    holder: Option<u64>,
    held_at: Option<usize>,
    of_two: bool,
    added: bool,
    used_at: usize,
    entity: u64,
}

struct Names<'a> {
    db: &'a Database,
    by_text: HashMap<&'a str, usize>,
    by_map: Vec<Option<usize>>,
    tempids: Vec<Tempid>,
    missing: Option<usize>,
}

impl<'a> Names<'a> {
    fn tempid(&mut self, name: &Name<'a>) -> Option<usize> {
        match name {
            Name::Tempid(text) if &***text != "datomic.tx" => self.by_text.get(&***text).copied(),
            Name::Nameless(n) => self.by_map[*n],
            _ => None,
        }
    }

    fn meet(&mut self, name: &Name<'a>, place: usize) {
        match name {
            Name::Tempid(text) if &***text != "datomic.tx" => {
                let next = self.tempids.len();
                if *self.by_text.entry(&***text).or_insert(next) == next {
                    self.tempids.push(Tempid { used_at: place, ..Tempid::default() });
                }
            }
            Name::Nameless(n) => {
                if self.by_map[*n].is_none() {
                    self.by_map[*n] = Some(self.tempids.len());
                    self.tempids.push(Tempid { used_at: place, ..Tempid::default() });
                }
            }
            Name::Tempid(_) => {}
            other => {
                if self.found(other).is_none() {
                    note(&mut self.missing, place);
                }
            }
        }
    }

    fn found(&self, name: &Name<'a>) -> Option<u64> {
        match name {
            Name::Number(n) => u64::try_from(*n).ok().filter(|n| self.db.is_issued(*n)),
            Name::Ident(text) => self.db.idents.get(&***text).copied(),
            Name::Lookup(key, value) => {
                let attribute = self.db.named(key)?;
                self.db.holders.get(&(attribute.id, value_of(attribute.kind, value)?)).copied()
            }
            _ => None,
        }
    }

    fn add(&mut self, on: &Name<'a>, attribute: &Attribute, part: &Part<'a>, place: usize) {
        let Some(at) = self.tempid(on) else {
            return;
        };
        self.tempids[at].added = true;
        if attribute.unique != IDENTITY {
            return;
        }
        let Part::Plain(v) = part else {
            return;
        };
        let Some(holder) = self.db.holders.get(&(attribute.id, v.clone())).copied() else {
            return;
        };
        let tempid = &mut self.tempids[at];
        note(&mut tempid.held_at, place);
        match tempid.holder {
            None => tempid.holder = Some(holder),
            Some(other) => tempid.of_two |= other != holder,
        }
    }

    fn entity(&mut self, name: &Name<'a>) -> u64 {
        match name {
            Name::Tempid(text) if &***text == "datomic.tx" => TX + u64::from(self.db.basis) + 1,
            Name::Tempid(_) | Name::Nameless(_) => self.tempid(name).map_or(0, |at| self.tempids[at].entity),
            other => self.found(other).unwrap_or(0),
        }
    }

    fn value(&mut self, part: Part<'a>) -> Value {
        match part {
            Part::Plain(v) => v,
            Part::Entity(name) => Value::Ref(self.entity(&name)),
        }
    }
}

fn names_of<'b, 'a>(ask: &'b Ask<'a>) -> Vec<&'b Name<'a>> {
    let part = |part: &'b Part<'a>| match part {
        Part::Entity(name) => Some(name),
        Part::Plain(_) => None,
    };
    match ask {
        Ask::Add(on, _, v) | Ask::Retract(on, _, v) => std::iter::once(on).chain(part(v)).collect(),
        Ask::RetractAll(on, _) | Ask::RetractEntity(on) | Ask::Meets(on) => vec![on],
        Ask::Cas(on, _, old, new) => std::iter::once(on).chain(old.as_ref().and_then(part)).chain(part(new)).collect(),
    }
}

// ---- deciding

#[derive(Default)]
struct Ways {
    added: Option<usize>,
    retracted: Option<usize>,
    swept: Option<usize>,
    replaced: Option<usize>,
}

impl Ways {
    fn first(&self) -> usize {
        [self.added, self.retracted, self.swept, self.replaced].into_iter().flatten().min().unwrap_or(0)
    }
}

fn least(first: &mut Option<usize>, place: usize) {
    *first = Some(first.map_or(place, |other| other.min(place)));
}

fn closed_set(db: &Database, e: u64) -> Vec<u64> {
    let mut met = HashSet::from([e]);
    let mut set = vec![e];
    let mut at = 0;
    while at < set.len() {
        let e = set[at];
        at += 1;
        for a in db.attributes_of.get(&e).into_iter().flatten() {
            if !db.attributes.get(a).is_some_and(|a| a.component) {
                continue;
            }
            for v in db.values(e, *a) {
                if let Value::Ref(part) = v {
                    if met.insert(*part) {
                        set.push(*part);
                    }
                }
            }
        }
    }
    set
}

fn decide(db: &Database, data: &Form) -> Result<Vec<Datom>, Refusal> {
    let (Form::Vector(forms) | Form::List(forms)) = data else {
        return Err((1, 0));
    };
    let mut walk = Walk {
        db,
        asks: Vec::new(),
        place: 0,
        nameless: 0,
        shape: None,
        protected: None,
        wrong: None,
        lookup: None,
        lacking: None,
    };
    for (place, form) in forms.iter().enumerate() {
        walk.place = place;
        walk.form(form)?;
    }
    for (rule, first) in [(1, walk.shape), (3, walk.protected), (4, walk.wrong), (5, walk.lookup)] {
        if let Some(place) = first {
            return Err((rule, place));
        }
    }
    let mut names = Names { db, by_text: HashMap::new(), by_map: vec![None; walk.nameless], tempids: Vec::new(), missing: None };
    for (place, ask) in &walk.asks {
        for name in names_of(ask) {
            names.meet(name, *place);
        }
        if let Ask::Add(on, attribute, part) = ask {
            names.add(on, attribute, part, *place);
        }
    }
    let of_two = names.tempids.iter().filter(|t| t.of_two).filter_map(|t| t.held_at).min();
    let unused = names.tempids.iter().filter(|t| !t.added).map(|t| t.used_at).min();
    for (rule, first) in [(6, names.missing), (7, walk.lacking), (8, of_two), (9, unused)] {
        if let Some(place) = first {
            return Err((rule, place));
        }
    }
    let mut next = db.issued;
    for tempid in &mut names.tempids {
        tempid.entity = tempid.holder.unwrap_or_else(|| {
            next += 1;
            USER + next
        });
    }
    changes(db, walk.asks, names, next)
}

fn changes<'a>(db: &'a Database, asks: Vec<(usize, Ask<'a>)>, mut names: Names<'a>, users: u64) -> Result<Vec<Datom>, Refusal> {
    let mut ways: HashMap<(u64, u64, Value), Ways> = HashMap::new();
    let mut swept: HashSet<u64> = HashSet::new();
    let (mut many, mut failed) = (None, None);
    for (place, ask) in asks {
        match ask {
            Ask::Add(on, attribute, part) => {
                let (e, v) = (names.entity(&on), names.value(part));
                add(db, &mut ways, e, attribute, v, place);
            }
            Ask::Retract(on, attribute, part) => {
                let (e, v) = (names.entity(&on), names.value(part));
                note(&mut ways.entry((e, attribute.id, v)).or_default().retracted, place);
            }
            Ask::RetractAll(on, attribute) => {
                let e = names.entity(&on);
                for v in db.values(e, attribute.id) {
                    note(&mut ways.entry((e, attribute.id, v.clone())).or_default().swept, place);
                }
            }
            Ask::Cas(on, attribute, old, new) => {
                let e = names.entity(&on);
                let old = old.map(|part| names.value(part));
                let new = names.value(new);
                if attribute.many {
                    note(&mut many, place);
                }
                if db.values(e, attribute.id).next() != old.as_ref() {
                    note(&mut failed, place);
                }
                add(db, &mut ways, e, attribute, new, place);
            }
            Ask::RetractEntity(on) => {
                let e = names.entity(&on);
                if swept.contains(&e) {
                    continue;
                }
                for e in closed_set(db, e) {
                    if !swept.insert(e) {
                        continue;
                    }
                    for a in db.attributes_of.get(&e).into_iter().flatten() {
                        for v in db.values(e, *a) {
                            note(&mut ways.entry((e, *a, v.clone())).or_default().swept, place);
                        }
                    }
                    for (from, a) in db.refs.get(&e).into_iter().flatten() {
                        note(&mut ways.entry((*from, *a, Value::Ref(e))).or_default().swept, place);
                    }
                }
            }
            Ask::Meets(_) => {}
        }
    }
    for (rule, first) in [(10, many), (11, failed)] {
        if let Some(place) = first {
            return Err((rule, place));
        }
    }
    judge(db, ways, users)
}

fn add(db: &Database, ways: &mut HashMap<(u64, u64, Value), Ways>, e: u64, attribute: &Attribute, v: Value, place: usize) {
    if !attribute.many && e <= USER + db.issued {
        for other in db.values(e, attribute.id) {
            if *other != v {
                note(&mut ways.entry((e, attribute.id, other.clone())).or_default().replaced, place);
            }
        }
    }
    note(&mut ways.entry((e, attribute.id, v)).or_default().added, place);
}

fn judge(db: &Database, ways: HashMap<(u64, u64, Value), Ways>, users: u64) -> Result<Vec<Datom>, Refusal> {
    let mut triples: Vec<((u64, u64, Value), Ways)> = ways.into_iter().collect();
    triples.sort_unstable_by(|x, y| x.0.cmp(&y.0));
    let mut one: HashMap<(u64, u64), u32> = HashMap::new();
    for ((e, a, _), ways) in &triples {
        if ways.added.is_some() && !db.attributes[a].many {
            *one.entry((*e, *a)).or_default() += 1;
        }
    }
    let (mut conflict, mut incomplete, mut fixed, mut altered) = (None, None, None, None);
    let mut datoms = Vec::with_capacity(triples.len() + 1);
    let t = db.basis + 1;
    for ((e, a, v), ways) in &triples {
        let crowded = one.get(&(*e, *a)).is_some_and(|n| *n > 1);
        if ways.added.is_some() && (crowded || ways.retracted.is_some() || ways.swept.is_some()) {
            least(&mut conflict, ways.first());
        }
        let holds = *e <= USER + db.issued && db.holds(*e, *a, v);
        let recorded = if holds { ways.added.is_none() } else { ways.added.is_some() };
        if recorded {
            datoms.push(Datom { e: *e, a: *a, v: v.clone(), t, added: !holds });
            if db.attributes.contains_key(e) && [IDENT, VALUE_TYPE, IS_COMPONENT].contains(a) || (IDENT..=INDEX).contains(a) && *e < 100 {
                least(&mut fixed, ways.first());
            }
        }
    }
    if let Some(place) = conflict {
        return Err((12, place));
    }
    if let Some(place) = unique_conflict(db, &triples) {
        return Err((13, place));
    }
    described(db, &triples, &datoms, &mut incomplete, &mut altered);
    for (rule, first) in [(14, incomplete), (15, fixed)] {
        if let Some(place) = first {
            return Err((rule, place));
        }
    }
    if datoms.len() + 1 > 65_535 || size(&datoms) > 67_108_864 {
        return Err((16, 0));
    }
    if t > 2_147_483_647 || users > 1 << 40 {
        return Err((17, 0));
    }
    if let Some(place) = altered {
        return Err((18, place));
    }
    let instant = Datom { e: TX + u64::from(t), a: TX_INSTANT, v: Value::Instant(db.instant + 1), t, added: true };
    let at = datoms.partition_point(|d| d.e < instant.e);
    datoms.insert(at, instant);
    Ok(datoms)
}

fn size(datoms: &[Datom]) -> usize {
    let value = |v: &Value| match v {
        Value::Keyword(text) | Value::Str(text) | Value::Symbol(text) | Value::Uri(text) => 5 + text.len(),
        Value::Bool(_) => 2,
        Value::Long(_) | Value::Ref(_) | Value::Instant(_) => 9,
        Value::Uuid(_) => 17,
    };
    43 + datoms.iter().map(|d| 17 + value(&d.v)).sum::<usize>()
}

fn unique_conflict(db: &Database, triples: &[((u64, u64, Value), Ways)]) -> Option<usize> {
    let mut takers: HashMap<(u64, &Value), (u64, usize)> = HashMap::new();
    let mut given_up: HashSet<(u64, u64, &Value)> = HashSet::new();
    for ((e, a, v), ways) in triples {
        if db.attributes[a].unique != 0 && ways.added.is_none() {
            given_up.insert((*e, *a, v));
        }
    }
    let mut first = None;
    for ((e, a, v), ways) in triples {
        let (Some(place), true) = (ways.added, db.attributes[a].unique != 0) else {
            continue;
        };
        if let Some((_, other)) = takers.insert((*a, v), (*e, place)) {
            least(&mut first, other.min(place));
        }
        if let Some(holder) = db.holders.get(&(*a, v.clone())) {
            if holder != e && !given_up.contains(&(*holder, *a, v)) {
                least(&mut first, place);
            }
        }
    }
    first
}

/// The rules on attributes: one that is new has to have all that it needs, and one that is altered keeps its promises.
fn described(db: &Database, triples: &[((u64, u64, Value), Ways)], datoms: &[Datom], incomplete: &mut Option<usize>, altered: &mut Option<usize>) {
    let mut after: HashMap<u64, Vec<&Datom>> = HashMap::new();
    for d in datoms {
        if (IDENT..=INDEX).contains(&d.a) {
            after.entry(d.e).or_default().push(d);
        }
    }
    for ((e, a, _), ways) in triples {
        if !(IDENT..=INDEX).contains(a) {
            continue;
        }
        let has = |a: u64| {
            after.get(e).is_some_and(|ds| ds.iter().any(|d| d.a == a && d.added))
                || db.values(*e, a).any(|v| !after.get(e).is_some_and(|ds| ds.iter().any(|d| d.a == a && !d.added && d.v == *v)))
        };
        let whole = has(IDENT) && has(VALUE_TYPE) && has(CARDINALITY);
        let new = !db.attributes.contains_key(e) && (VALUE_TYPE..=INDEX).any(has);
        if (new || db.attributes.contains_key(e)) && !whole {
            least(incomplete, ways.first());
        }
        if [CARDINALITY, UNIQUE].contains(a) && db.attributes.contains_key(e) {
            let crowded = db.under.get(e).into_iter().flatten().any(|holder| db.values(*holder, *e).count() > 1);
            if crowded {
                least(altered, ways.first());
            }
        }
    }
}

fn main() {
    let words: Vec<String> = std::env::args().collect();
    let bytes = std::fs::read(&words[1]).expect("a file");
    let rounds: u32 = words[2].parse().expect("a number");
    let mut reader = Reader { bytes: &bytes, at: 0 };
    let mut forms = Vec::new();
    while let Some(form) = reader.next() {
        forms.push(form);
    }
    let last = forms.pop().expect("a transaction");
    let mut db = Database::new();
    for form in &forms {
        let entry = decide(&db, form).expect("a transaction of the database");
        db.record(&entry);
    }
    let mut answer = decide(&db, &last);
    for _ in 0..rounds {
        answer = black_box(decide(black_box(&db), black_box(&last)));
    }
    match answer {
        Ok(datoms) => println!("{} datoms", datoms.len()),
        Err((rule, place)) => println!("rule {rule} at {place}"),
    }
}
