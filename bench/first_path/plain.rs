//! The yardstick of the first path: ordinary Rust with std alone and no proofs, which reads the same script
//! into the same kind of tree, keeps the same entries and prints the same lines with one write each.
use std::io::{self, Read, Write};
use std::sync::Arc;
use std::time::{SystemTime, UNIX_EPOCH};

#[path = "../datom.rs"]
mod datom;

use datom::{Datom, Value};

enum Edn {
    Key(Arc<str>),
    Str(Arc<str>),
    Vector(Vec<Edn>),
}

#[allow(dead_code)]
struct Entry {
    t: u32,
    instant: i64,
    datoms: Vec<Datom>,
}

fn is_white(b: u8) -> bool {
    matches!(b, 9..=13 | 32 | b',')
}

fn ends_token(b: Option<&u8>) -> bool {
    match b {
        None => true,
        Some(&b) => is_white(b) || matches!(b, b'(' | b')' | b'[' | b']' | b'{' | b'}' | b'"'),
    }
}

fn skip_white(bytes: &[u8], mut at: usize) -> usize {
    while at < bytes.len() && is_white(bytes[at]) {
        at += 1;
    }
    at
}

fn read_string(bytes: &[u8], at: usize) -> Option<(Edn, usize)> {
    let len = bytes[at + 1..].iter().position(|b| *b == b'"' || *b == b'\\' || *b < 32)?;
    let end = at + 1 + len;
    if bytes[end] != b'"' {
        return None;
    }
    let text = std::str::from_utf8(&bytes[at + 1..end]).ok()?;
    Some((Edn::Str(text.into()), end + 1))
}

fn read_keyword(bytes: &[u8], at: usize) -> Option<(Edn, usize)> {
    let mut end = at + 1;
    let mut slashes = 0;
    while end < bytes.len() && (bytes[end].is_ascii_alphabetic() || bytes[end] == b'/') {
        slashes += usize::from(bytes[end] == b'/');
        end += 1;
    }
    let name = &bytes[at + 1..end];
    let whole = !name.is_empty() && name[0] != b'/' && name[name.len() - 1] != b'/' && slashes <= 1;
    if !whole || !ends_token(bytes.get(end)) {
        return None;
    }
    let text = std::str::from_utf8(name).ok()?;
    Some((Edn::Key(text.into()), end))
}

fn read_text(bytes: &[u8], at: usize, open: usize) -> Option<(Edn, usize)> {
    match bytes[at] {
        b'"' => read_string(bytes, at),
        b':' => read_keyword(bytes, at),
        b'[' if open < 64 => {
            let mut items = Vec::new();
            let mut at = at + 1;
            loop {
                at = skip_white(bytes, at);
                if *bytes.get(at)? == b']' {
                    return Some((Edn::Vector(items), at + 1));
                }
                let (item, next) = read_text(bytes, at, open + 1)?;
                items.push(item);
                at = next;
            }
        }
        _ => None,
    }
}

fn asked(form: &Edn) -> Option<(&Arc<str>, &Arc<str>)> {
    let Edn::Vector(command) = form else { return None };
    let [Edn::Key(name), Edn::Vector(forms)] = command.as_slice() else { return None };
    let [Edn::Vector(add)] = forms.as_slice() else { return None };
    let [Edn::Key(op), Edn::Str(tempid), Edn::Key(attr), Edn::Str(doc)] = add.as_slice() else { return None };
    let command = &**name == "transact" && &**op == "db/add" && &**attr == "db/doc";
    (command && &**tempid != "datomic.tx" && doc.len() <= 1_048_576).then_some((tempid, doc))
}

fn now() -> i64 {
    SystemTime::now().duration_since(UNIX_EPOCH).map_or(0, |d| d.as_millis() as i64)
}

fn main() -> io::Result<()> {
    let mut bytes = Vec::new();
    io::stdin().lock().read_to_end(&mut bytes)?;
    let mut out = io::stdout().lock();
    let mut line: Vec<u8> = Vec::new();
    let mut entries = vec![Entry { t: 0, instant: 0, datoms: Vec::new() }];
    let mut at = skip_white(&bytes, 0);
    while at < bytes.len() {
        let Some((form, next)) = read_text(&bytes, at, 0) else {
            eprintln!("factbase: script -: bad at byte {at}");
            std::process::exit(5);
        };
        line.clear();
        let last = &entries[entries.len() - 1];
        match asked(&form) {
            None => writeln!(line, "{{:refused :read/not-a-command :at 0 :basis {}}}", last.t)?,
            Some((tempid, doc)) => {
                let t = last.t + 1;
                let instant = now().max(last.instant + 1);
                let tx = Datom { e: 13194139533312 + u64::from(t), a: 8, v: Value::Instant(instant), t, added: true };
                let e = 17592186044416 + u64::from(t);
                let added = Datom { e, a: 7, v: Value::Str(doc.clone()), t, added: true };
                entries.push(Entry { t, instant, datoms: vec![tx, added] });
                writeln!(line, "{{:t {t} :tempids {{\"{tempid}\" {e}}}}}")?;
            }
        }
        out.write_all(&line)?;
        at = skip_white(&bytes, next);
    }
    Ok(())
}
