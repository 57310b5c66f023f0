//! The datom of the yardsticks that keep sorted sets: ordinary Rust, with a value of each type of the product's.
use std::sync::Arc;

#[derive(Clone, PartialEq, Eq, PartialOrd, Ord)]
#[allow(dead_code)]
pub enum Value {
    Keyword(Arc<str>),
    Str(Arc<str>),
    Bool(bool),
    Long(i64),
    Ref(u64),
    Instant(i64),
    Uuid(u128),
    Symbol(Arc<str>),
    Uri(Arc<str>),
}

#[derive(Clone)]
#[allow(dead_code)]
pub struct Datom {
    pub e: u64,
    pub a: u64,
    pub v: Value,
    pub t: u32,
    pub added: bool,
}
