// The notation of productions, as far as they use it (XML 1.0, section 6).

use std::collections::BTreeMap;

/// Which bytes are in a set.
pub type Bytes = [bool; 256];

/// The right side of a production.
#[derive(Clone)]
pub enum Form {
    /// One byte of these.
    Byte(Bytes),
    Production(String),
    Row(Vec<Form>),
    Either(Vec<Form>),
    Optional(Box<Form>),
    AnyNumber(Box<Form>),
    OneOrMore(Box<Form>),
}

fn bytes(is_in: impl Fn(u8) -> bool) -> Bytes {
    std::array::from_fn(|byte| is_in(byte as u8))
}

/// Ways of one byte each are one way.
fn either(mut ways: Vec<Form>) -> Form {
    let sets: Vec<Bytes> = ways.iter().filter_map(set_of).collect();
    if sets.len() == ways.len() {
        return Form::Byte(bytes(|byte| sets.iter().any(|set| set[byte as usize])));
    }
    if ways.len() == 1 {
        return ways.remove(0);
    }
    Form::Either(ways)
}

fn set_of(form: &Form) -> Option<Bytes> {
    match form {
        Form::Byte(set) => Some(*set),
        _ => None,
    }
}

fn without(form: &Form, other: &Form) -> Form {
    let (of, less) = set_of(form).zip(set_of(other)).expect("a difference is one of bytes");
    Form::Byte(bytes(|byte| of[byte as usize] && !less[byte as usize]))
}

/// The rest of a right side, and the productions of single bytes that were read before.
struct Reader<'a> {
    rest: &'a str,
    sets: &'a BTreeMap<String, Form>,
}

impl<'a> Reader<'a> {
    fn accept(&mut self, sign: &str) -> bool {
        let behind = self.rest.strip_prefix(sign);
        self.rest = behind.unwrap_or(self.rest);
        behind.is_some()
    }

    /// What stands up to a sign, which is passed too.
    fn up_to(&mut self, sign: char) -> &'a str {
        let (taken, rest) = self.rest.split_once(sign).expect("what is opened is closed");
        self.rest = rest;
        taken
    }

    /// What stands up to the first character that is no letter or digit.
    fn word(&mut self) -> &'a str {
        let end = self.rest.find(|c: char| !c.is_ascii_alphanumeric()).unwrap_or(self.rest.len());
        let (taken, rest) = self.rest.split_at(end);
        self.rest = rest;
        taken
    }

    fn either(&mut self) -> Form {
        let mut ways = vec![self.row()];
        while self.accept("|") {
            ways.push(self.row());
        }
        either(ways)
    }

    fn row(&mut self) -> Form {
        let mut parts = Vec::new();
        loop {
            self.rest = self.rest.trim_start();
            if self.rest.is_empty() || self.rest.starts_with(['|', ')']) {
                return if parts.len() == 1 { parts.remove(0) } else { Form::Row(parts) };
            }
            parts.push(self.part());
        }
    }

    fn part(&mut self) -> Form {
        let form = self.simple();
        if self.accept("?") {
            Form::Optional(Box::new(form))
        } else if self.accept("*") {
            Form::AnyNumber(Box::new(form))
        } else if self.accept("+") {
            Form::OneOrMore(Box::new(form))
        } else if self.accept(" - ") {
            without(&form, &self.simple())
        } else {
            form
        }
    }

    fn simple(&mut self) -> Form {
        if self.accept("(") {
            let form = self.either();
            assert!(self.accept(")"), "what is opened is closed");
            form
        } else if self.accept("'") {
            literal(self.up_to('\''))
        } else if self.accept("\"") {
            literal(self.up_to('"'))
        } else if self.accept("[") {
            let (first, last) = self.up_to(']').split_once('-').expect("a range has two ends");
            Form::Byte(bytes(|byte| (end(first)..=end(last)).contains(&byte)))
        } else if self.accept("#x") {
            let code = hexadecimal(self.word());
            Form::Byte(bytes(|byte| byte == code))
        } else {
            let name = self.word().to_string();
            self.sets.get(&name).cloned().unwrap_or(Form::Production(name))
        }
    }
}

fn literal(text: &str) -> Form {
    let mut row: Vec<Form> = text.bytes().map(|one| Form::Byte(bytes(|byte| byte == one))).collect();
    if row.len() == 1 {
        row.remove(0)
    } else {
        Form::Row(row)
    }
}

fn hexadecimal(digits: &str) -> u8 {
    u8::from_str_radix(digits, 16).expect("a byte in hexadecimal digits")
}

/// An end of a range: a character, or its code.
fn end(text: &str) -> u8 {
    text.strip_prefix("#x").map_or_else(|| text.as_bytes()[0], hexadecimal)
}

/// The productions of a text in this notation, a line for each, by name and right side. Those of single
/// bytes come before others that name them, and are put in there.
pub fn read_productions(text: &str) -> Vec<(String, Form)> {
    let mut sets = BTreeMap::new();
    let mut found = Vec::new();
    for line in text.lines().filter(|line| !line.trim().is_empty()) {
        let (left, right) = line.split_once("::=").expect("a production");
        let name = left.split_whitespace().last().expect("a production has a name").to_string();
        let form = Reader { rest: right, sets: &sets }.either();
        if set_of(&form).is_some() {
            sets.insert(name, form);
        } else {
            found.push((name, form));
        }
    }
    found
}
