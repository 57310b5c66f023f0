//! The yardstick of the reader and the printer: ordinary Rust with std alone and no proofs, for the same profile of
//! EDN and the same kind of tree. `plain read` reads all forms of standard input and prints how many there are; `plain
//! print` prints each in its canonical text, one a line, and writes whole lines of 64 KiB at a time. A fault ends either,
//! with its kind and its byte.
use std::collections::hash_map::DefaultHasher;
use std::collections::HashSet;
use std::hash::{Hash, Hasher};
use std::io::{self, Read, Write};
use std::sync::Arc;

enum Edn {
    Nil,
    Bool(bool),
    Int(i64),
    Str(Arc<str>),
    Sym(Arc<str>),
    Key(Arc<str>),
    List(Vec<Edn>),
    Vector(Vec<Edn>),
    Map(Vec<(Edn, Edn)>),
    Set(Vec<Edn>),
    Inst(i64),
    Uuid(u128),
}

enum Fault {
    Bad(usize),
    Unsupported(usize),
    Deep(usize),
    Cut(usize),
}

type Read1<T> = Result<T, Fault>;

const MAX_DEPTH: usize = 64;

/// How many bytes are gathered before they are written.
const FULL: usize = 65536;

// ---- likeness

impl PartialEq for Edn {
    fn eq(&self, other: &Edn) -> bool {
        match (self, other) {
            (Edn::Nil, Edn::Nil) => true,
            (Edn::Bool(a), Edn::Bool(b)) => a == b,
            (Edn::Int(a), Edn::Int(b)) | (Edn::Inst(a), Edn::Inst(b)) => a == b,
            (Edn::Str(a), Edn::Str(b)) | (Edn::Sym(a), Edn::Sym(b)) | (Edn::Key(a), Edn::Key(b)) => a == b,
            (Edn::List(a) | Edn::Vector(a), Edn::List(b) | Edn::Vector(b)) => a == b,
            (Edn::Map(a), Edn::Map(b)) => {
                a.len() == b.len() && a.iter().all(|(k, v)| b.iter().any(|(l, w)| k == l && v == w))
            }
            (Edn::Set(a), Edn::Set(b)) => a.len() == b.len() && a.iter().all(|x| b.contains(x)),
            (Edn::Uuid(a), Edn::Uuid(b)) => a == b,
            _ => false,
        }
    }
}

impl Eq for Edn {}

fn hash_of(form: &impl Hash) -> u64 {
    let mut hasher = DefaultHasher::new();
    form.hash(&mut hasher);
    hasher.finish()
}

impl Hash for Edn {
    fn hash<H: Hasher>(&self, state: &mut H) {
        match self {
            Edn::Nil => 0.hash(state),
            Edn::Bool(b) => b.hash(state),
            Edn::Int(n) | Edn::Inst(n) => n.hash(state),
            Edn::Str(s) | Edn::Sym(s) | Edn::Key(s) => s.hash(state),
            Edn::List(items) | Edn::Vector(items) => items.hash(state),
            Edn::Map(pairs) => pairs.iter().fold(0u64, |sum, pair| sum.wrapping_add(hash_of(pair))).hash(state),
            Edn::Set(items) => items.iter().fold(0u64, |sum, item| sum.wrapping_add(hash_of(item))).hash(state),
            Edn::Uuid(n) => n.hash(state),
        }
    }
}

/// The first place whose form is alike to one before it.
fn first_twice<'a>(forms: impl ExactSizeIterator<Item = &'a Edn> + Clone) -> Option<usize> {
    if forms.len() <= 8 {
        return forms.clone().enumerate().find(|(n, f)| forms.clone().take(*n).any(|g| g == *f)).map(|(n, _)| n);
    }
    let mut seen = HashSet::with_capacity(forms.len());
    forms.enumerate().find(|(_, f)| !seen.insert(*f)).map(|(n, _)| n)
}

// ---- reading

fn is_blank(b: u8) -> bool {
    matches!(b, 9..=13 | 32 | b',')
}

fn is_bracket(b: u8) -> bool {
    matches!(b, b'(' | b')' | b'[' | b']' | b'{' | b'}')
}

fn ends_token(b: u8) -> bool {
    is_blank(b) || is_bracket(b) || matches!(b, b'"' | b';')
}

fn is_name_byte(b: u8) -> bool {
    b.is_ascii_alphanumeric() || b >= 128 || b".*+!-_?$%&=<>:#".contains(&b)
}

struct Reader<'a> {
    bytes: &'a [u8],
    at: usize,
    /// The length of the front of the input that is UTF-8.
    utf8: usize,
}

impl Reader<'_> {
    fn peek(&self, ahead: usize) -> Option<u8> {
        self.bytes.get(self.at + ahead).copied()
    }

    fn bad<T>(&self) -> Read1<T> {
        Err(Fault::Bad(self.at))
    }

    /// Reads white space, comments and discards.
    fn skip(&mut self, depth: usize) -> Read1<()> {
        loop {
            match self.peek(0) {
                Some(b) if is_blank(b) => self.at += 1,
                Some(b';') => {
                    let len = self.bytes[self.at..].iter().position(|b| *b == b'\n');
                    let end = len.map_or(self.bytes.len(), |n| self.at + n);
                    self.within_utf8(end)?;
                    self.at = end;
                }
                Some(b'#') if self.peek(1) == Some(b'_') => {
                    if depth == 0 {
                        return Err(Fault::Deep(self.at));
                    }
                    self.at += 2;
                    self.skip(depth - 1)?;
                    self.form(depth - 1)?;
                }
                _ => return Ok(()),
            }
        }
    }

    fn within_utf8(&self, end: usize) -> Read1<()> {
        if end > self.utf8 { Err(Fault::Bad(self.utf8)) } else { Ok(()) }
    }

    fn form(&mut self, depth: usize) -> Read1<Edn> {
        match self.peek(0) {
            None => Err(Fault::Cut(self.at)),
            Some(b'"') => Ok(Edn::Str(self.string()?.into())),
            Some(b'(') => Ok(Edn::List(self.items(depth, 1, b')', None)?)),
            Some(b'[') => Ok(Edn::Vector(self.items(depth, 1, b']', None)?)),
            Some(b'{') => self.map(depth),
            Some(b'#') if self.peek(1) == Some(b'{') => Ok(Edn::Set(self.items(depth, 2, b'}', Some(1))?)),
            Some(b) if is_bracket(b) => self.bad(),
            Some(_) => self.token(depth),
        }
    }

    /// The members of a collection up to its bracket. Where each `step`th may not be alike to another, one that is comes
    /// before a fault behind it.
    fn items(&mut self, depth: usize, open: usize, close: u8, step: Option<usize>) -> Read1<Vec<Edn>> {
        if depth == 0 {
            return Err(Fault::Deep(self.at));
        }
        self.at += open;
        let (mut items, mut places) = (Vec::new(), Vec::new());
        let read = self.rest(depth - 1, close, &mut items, &mut places);
        if let Some(step) = step {
            if let Some(n) = first_twice(items.iter().step_by(step)) {
                return Err(Fault::Bad(places[n * step]));
            }
        }
        read.map(|()| items)
    }

    fn rest(&mut self, depth: usize, close: u8, items: &mut Vec<Edn>, places: &mut Vec<usize>) -> Read1<()> {
        loop {
            self.skip(depth)?;
            if self.peek(0) == Some(close) {
                self.at += 1;
                return Ok(());
            }
            let place = self.at;
            items.push(self.form(depth)?);
            places.push(place);
        }
    }

    fn map(&mut self, depth: usize) -> Read1<Edn> {
        let items = self.items(depth, 1, b'}', Some(2))?;
        if items.len() % 2 == 1 {
            return Err(Fault::Bad(self.at - 1));
        }
        let mut pairs = Vec::with_capacity(items.len() / 2);
        let mut items = items.into_iter();
        while let (Some(key), Some(value)) = (items.next(), items.next()) {
            pairs.push((key, value));
        }
        Ok(Edn::Map(pairs))
    }

    fn string(&mut self) -> Read1<String> {
        let mut text = Vec::new();
        self.at += 1;
        loop {
            let rest = &self.bytes[self.at..];
            let Some(plain) = rest.iter().position(|b| *b == b'"' || *b == b'\\') else {
                self.within_utf8(self.bytes.len())?;
                return Err(Fault::Cut(self.bytes.len()));
            };
            self.within_utf8(self.at + plain)?;
            text.extend_from_slice(&rest[..plain]);
            self.at += plain;
            if rest[plain] == b'"' {
                self.at += 1;
                return Ok(String::from_utf8(text).unwrap());
            }
            let read = self.escape()?;
            text.extend_from_slice(read.encode_utf8(&mut [0; 4]).as_bytes());
        }
    }

    fn escape(&mut self) -> Read1<char> {
        let (read, len) = match self.peek(1) {
            None => return Err(Fault::Cut(self.bytes.len())),
            Some(b't') => ('\t', 2),
            Some(b'r') => ('\r', 2),
            Some(b'n') => ('\n', 2),
            Some(b'b') => ('\u{8}', 2),
            Some(b'f') => ('\u{c}', 2),
            Some(b @ (b'\\' | b'"')) => (b as char, 2),
            Some(b'u') => {
                let mut code = 0;
                for n in 2..6 {
                    match self.peek(n).map(|b| (b as char).to_digit(16)) {
                        None => return Err(Fault::Cut(self.bytes.len())),
                        Some(None) => return self.bad(),
                        Some(Some(digit)) => code = code * 16 + digit,
                    }
                }
                match char::from_u32(code) {
                    Some(c) => (c, 6),
                    None => return self.bad(),
                }
            }
            Some(_) => return self.bad(),
        };
        self.at += len;
        Ok(read)
    }

    fn token(&mut self, depth: usize) -> Read1<Edn> {
        let start = self.at;
        let len = self.bytes[start..].iter().position(|b| ends_token(*b)).unwrap_or(self.bytes.len() - start);
        let end = start + len;
        self.within_utf8(end)?;
        let token = std::str::from_utf8(&self.bytes[start..end]).unwrap();
        match token.as_bytes() {
            b"nil" => return self.done(end, Edn::Nil),
            b"true" => return self.done(end, Edn::Bool(true)),
            b"false" => return self.done(end, Edn::Bool(false)),
            b"#inst" | b"#uuid" => {
                let is_instant = token == "#inst";
                self.at = end;
                self.skip(depth)?;
                return self.tagged(is_instant);
            }
            [b':', name @ ..] if is_keyword(name) => return self.done(end, Edn::Key(token[1..].into())),
            [b'\\', ..] | [b'#', b'#', ..] | [b'#', b':', ..] => return Err(Fault::Unsupported(start)),
            [b'#', b, ..] if b.is_ascii_alphabetic() => return Err(Fault::Unsupported(start)),
            bytes => {
                if let Some(number) = number(bytes, token) {
                    return match number {
                        Some(n) => self.done(end, Edn::Int(n)),
                        None => Err(Fault::Unsupported(start)),
                    };
                }
                if is_symbol(bytes) {
                    return self.done(end, Edn::Sym(token.into()));
                }
            }
        }
        self.bad()
    }

    fn done(&mut self, end: usize, form: Edn) -> Read1<Edn> {
        self.at = end;
        Ok(form)
    }

    fn tagged(&mut self, is_instant: bool) -> Read1<Edn> {
        let start = self.at;
        match self.peek(0) {
            None => return Err(Fault::Cut(self.at)),
            Some(b'"') => {}
            Some(_) => return self.bad(),
        }
        let text = self.string()?;
        let form = if is_instant { instant(&text).map(Edn::Inst) } else { uuid(&text).map(Edn::Uuid) };
        form.ok_or(Fault::Bad(start))
    }
}

fn is_keyword(name: &[u8]) -> bool {
    let whole = |n: &[u8]| !n.is_empty() && !matches!(n[0], b':' | b'#') && n.iter().all(|b| is_name_byte(*b));
    let mut names = name.splitn(2, |b| *b == b'/');
    whole(names.next().unwrap()) && names.next().map_or(true, whole)
}

fn is_symbol(token: &[u8]) -> bool {
    if token == b"/" {
        return true;
    }
    let first = token[0];
    let digit_behind = token.get(1).map_or(false, |b| b.is_ascii_digit());
    if first.is_ascii_digit() || matches!(first, b':' | b'#') || (matches!(first, b'.' | b'+' | b'-') && digit_behind) {
        return false;
    }
    let whole = |n: &[u8]| !n.is_empty() && n.iter().all(|b| is_name_byte(*b));
    let mut names = token.splitn(2, |b| *b == b'/');
    whole(names.next().unwrap()) && names.next().map_or(true, whole)
}

/// `None` where the token is no numeral, `Some(None)` where it is one that is not supported.
fn number(bytes: &[u8], token: &str) -> Option<Option<i64>> {
    let signs = usize::from(matches!(bytes[0], b'+' | b'-'));
    let digits = bytes[signs..].iter().take_while(|b| b.is_ascii_digit()).count();
    if digits == 0 {
        return None;
    }
    match bytes.get(signs + digits) {
        None if digits > 1 && bytes[signs] == b'0' => None,
        None => Some(token.parse().ok()),
        Some(b'.' | b'e' | b'E' | b'M' | b'N') => Some(None),
        Some(_) => None,
    }
}

// ---- instants and identifiers

fn two(text: &[u8]) -> Option<i64> {
    match text {
        [a @ b'0'..=b'9', b @ b'0'..=b'9'] => Some(i64::from(a - b'0') * 10 + i64::from(b - b'0')),
        _ => None,
    }
}

fn days_from_civil(year: i64, month: i64, day: i64) -> i64 {
    let y = if month <= 2 { year - 1 } else { year };
    let era = y.div_euclid(400);
    let year_of_era = y - era * 400;
    let day_of_year = (153 * ((month + 9) % 12) + 2) / 5 + day - 1;
    era * 146_097 + year_of_era * 365 + year_of_era / 4 - year_of_era / 100 + day_of_year - 719_468
}

fn days_in(year: i64, month: i64) -> i64 {
    match month {
        2 if year % 4 == 0 && (year % 100 != 0 || year % 400 == 0) => 29,
        2 => 28,
        4 | 6 | 9 | 11 => 30,
        _ => 31,
    }
}

const GREATEST: i64 = 253_402_300_799_999;
const LEAST: i64 = -62_135_596_800_000;

fn instant(text: &str) -> Option<i64> {
    let b = text.as_bytes();
    if b.len() < 10 || b[4] != b'-' || b[7] != b'-' {
        return None;
    }
    let year = two(&b[0..2])? * 100 + two(&b[2..4])?;
    let (month, day) = (two(&b[5..7])?, two(&b[8..10])?);
    if year == 0 || !(1..=12).contains(&month) || day == 0 || day > days_in(year, month) {
        return None;
    }
    let midnight = days_from_civil(year, month, day) * 86_400_000;
    if b.len() == 10 {
        return Some(midnight);
    }
    let b = &b[10..];
    if b.len() < 9 || b[0] != b'T' || b[3] != b':' || b[6] != b':' {
        return None;
    }
    let (hour, minute, second) = (two(&b[1..3])?, two(&b[4..6])?, two(&b[7..9])?);
    if hour > 23 || minute > 59 || second > 59 {
        return None;
    }
    let mut rest = &b[9..];
    let mut millis = ((hour * 60 + minute) * 60 + second) * 1000;
    if let [b'.', fraction @ ..] = rest {
        let len = fraction.iter().take_while(|b| b.is_ascii_digit()).count();
        if len == 0 || len > 9 {
            return None;
        }
        millis += (0..3).fold(0, |n, place| n * 10 + fraction[..len].get(place).map_or(0, |b| i64::from(b - b'0')));
        rest = &fraction[len..];
    }
    let ahead = match rest {
        [] | [b'Z'] => 0,
        [sign @ (b'+' | b'-'), h1, h2, b':', m1, m2] => {
            let (hours, minutes) = (two(&[*h1, *h2])?, two(&[*m1, *m2])?);
            if hours > 23 || minutes > 59 {
                return None;
            }
            (hours * 60 + minutes) * if *sign == b'+' { 1 } else { -1 }
        }
        _ => return None,
    };
    Some(midnight + millis - ahead * 60_000).filter(|z| (LEAST..=GREATEST).contains(z))
}

fn uuid(text: &str) -> Option<u128> {
    if text.len() != 36 {
        return None;
    }
    let mut value = 0;
    for (place, b) in text.bytes().enumerate() {
        match (place, (b as char).to_digit(16)) {
            (8 | 13 | 18 | 23, None) if b == b'-' => {}
            (8 | 13 | 18 | 23, _) | (_, None) => return None,
            (_, Some(digit)) => value = value << 4 | u128::from(digit),
        }
    }
    Some(value)
}

// ---- printing

fn civil_from_days(days: i64) -> (i64, i64, i64) {
    let z = days + 719_468;
    let era = z.div_euclid(146_097);
    let day_of_era = z - era * 146_097;
    let year_of_era = (day_of_era - day_of_era / 1460 + day_of_era / 36_524 - day_of_era / 146_096) / 365;
    let day_of_year = day_of_era - (365 * year_of_era + year_of_era / 4 - year_of_era / 100);
    let shifted = (5 * day_of_year + 2) / 153;
    let month = if shifted < 10 { shifted + 3 } else { shifted - 9 };
    let year = year_of_era + era * 400 + i64::from(month <= 2);
    (year, month, day_of_year - (153 * shifted + 2) / 5 + 1)
}

fn print_string(text: &str, out: &mut Vec<u8>) {
    out.push(b'"');
    for b in text.bytes() {
        match b {
            b'\t' => out.extend_from_slice(b"\\t"),
            b'\n' => out.extend_from_slice(b"\\n"),
            b'\r' => out.extend_from_slice(b"\\r"),
            b'"' | b'\\' => out.extend_from_slice(&[b'\\', b]),
            _ => out.push(b),
        }
    }
    out.push(b'"');
}

fn print_items(open: &[u8], items: &[Edn], close: u8, out: &mut Vec<u8>) {
    out.extend_from_slice(open);
    for (n, item) in items.iter().enumerate() {
        if n > 0 {
            out.push(b' ');
        }
        print(item, out);
    }
    out.push(close);
}

fn print(form: &Edn, out: &mut Vec<u8>) {
    match form {
        Edn::Nil => out.extend_from_slice(b"nil"),
        Edn::Bool(b) => out.extend_from_slice(if *b { b"true" } else { b"false" }),
        Edn::Int(n) => write!(out, "{n}").unwrap(),
        Edn::Str(text) => print_string(text, out),
        Edn::Sym(text) => out.extend_from_slice(text.as_bytes()),
        Edn::Key(text) => {
            out.push(b':');
            out.extend_from_slice(text.as_bytes());
        }
        Edn::List(items) => print_items(b"(", items, b')', out),
        Edn::Vector(items) => print_items(b"[", items, b']', out),
        Edn::Set(items) => print_items(b"#{", items, b'}', out),
        Edn::Map(pairs) => {
            out.push(b'{');
            for (n, (key, value)) in pairs.iter().enumerate() {
                if n > 0 {
                    out.push(b' ');
                }
                print(key, out);
                out.push(b' ');
                print(value, out);
            }
            out.push(b'}');
        }
        Edn::Inst(z) => {
            let (year, month, day) = civil_from_days(z.div_euclid(86_400_000));
            let millis = z.rem_euclid(86_400_000);
            let (seconds, milli) = (millis / 1000, millis % 1000);
            let (hour, minute, second) = (seconds / 3600, seconds / 60 % 60, seconds % 60);
            write!(out, "#inst \"{year:04}-{month:02}-{day:02}T{hour:02}:{minute:02}:{second:02}.{milli:03}-00:00\"").unwrap();
        }
        Edn::Uuid(n) => {
            let (a, b, c, d, e) = (n >> 96, n >> 80 & 0xffff, n >> 64 & 0xffff, n >> 48 & 0xffff, n & 0xffff_ffff_ffff);
            write!(out, "#uuid \"{a:08x}-{b:04x}-{c:04x}-{d:04x}-{e:012x}\"").unwrap();
        }
    }
}

fn main() {
    let mut bytes = Vec::new();
    io::stdin().read_to_end(&mut bytes).unwrap();
    let prints = std::env::args().nth(1).as_deref() == Some("print");
    let utf8 = std::str::from_utf8(&bytes).map_or_else(|e| e.valid_up_to(), str::len);
    let mut reader = Reader { bytes: &bytes, at: 0, utf8 };
    let mut out = io::stdout().lock();
    let (mut lines, mut count) = (Vec::with_capacity(FULL), 0u64);
    loop {
        let read = reader.skip(MAX_DEPTH).and_then(|()| match reader.peek(0) {
            None => Ok(None),
            Some(_) => reader.form(MAX_DEPTH).map(Some),
        });
        match read {
            Ok(None) => break,
            Ok(Some(form)) => {
                count += 1;
                if prints {
                    print(&form, &mut lines);
                    lines.push(b'\n');
                    if lines.len() >= FULL {
                        out.write_all(&lines).unwrap();
                        lines.clear();
                    }
                }
            }
            Err(fault) => {
                let (what, at) = match fault {
                    Fault::Bad(at) => ("bad", at),
                    Fault::Unsupported(at) => ("unsupported", at),
                    Fault::Deep(at) => ("deep", at),
                    Fault::Cut(at) => ("cut", at),
                };
                writeln!(lines, "{what} at byte {at}").unwrap();
                break;
            }
        }
    }
    out.write_all(&lines).unwrap();
    if !prints {
        writeln!(out, "{count}").unwrap();
    }
}
