// The schema table: its types, its privileges and their marks, what is below a type, and the call `check`.

use crate::answers::{refuse_at, refuse_if, Answer, Outcome};
use crate::format::Format;

pub const UNSET: u8 = 0;
pub const ALLOWED: u8 = 1;
pub const FORBIDDEN: u8 = 2;
pub const EMPTY: u16 = 0;
pub const TEXT: u16 = 1;
pub const SEQUENCE: u16 = 2;
pub const CHOICE: u16 = 3;
pub const STAR: u16 = 4;
pub const HEADER: usize = 8;
pub const RECORD: usize = 3;
pub const MOST_TYPES: usize = 256;
pub const MOST_ENTRIES: usize = 1024;
pub const MOST_CHILDREN: usize = 16;
pub const MOST_PRIVILEGES: usize = 4096;

#[derive(Clone)]
pub struct Type {
    pub kind: u16,
    pub children: Vec<usize>,
}

/// An accepted table: its format, its types, the first privilege of each type, the type of each
/// privilege, and the privileges below each type in ascending order.
pub struct Table {
    pub format: Format,
    pub types: Vec<Type>,
    pub first: Vec<usize>,
    pub owner: Vec<usize>,
    pub below: Vec<Vec<usize>>,
}

impl Table {
    fn of(format: Format, types: Vec<Type>) -> Table {
        let mut first = Vec::new();
        let mut owner = Vec::new();
        for (t, it) in types.iter().enumerate() {
            first.push(owner.len());
            owner.extend(vec![t; privileges_of(format, it)]);
        }
        let below = (0..types.len()).map(|y| privileges_below(&types, &owner, y)).collect();
        Table { format, types, first, owner, below }
    }

    pub fn v(&self) -> usize {
        self.owner.len()
    }

    pub fn insert(&self, star: usize) -> usize {
        self.first[star]
    }

    pub fn delete(&self, star: usize) -> usize {
        self.first[star] + 1
    }

    /// The privilege to replace a star's child by another of its kind, where the format has it.
    pub fn exchange(&self, star: usize) -> Option<usize> {
        match self.format {
            Format::One => None,
            Format::Two => Some(self.first[star] + 2),
        }
    }

    /// Whether insert and delete are both allowed.
    pub fn allows_both(&self, marks: &[u8], star: usize) -> bool {
        marks[self.insert(star)] == ALLOWED && marks[self.delete(star)] == ALLOWED
    }

    pub fn replacement(&self, choice: usize, i: usize, j: usize) -> usize {
        self.first[choice] + self.format.replacement(self.types[choice].children.len(), i, j)
    }

    /// Whether a privilege replaces an element by one of its own kind: an exchange, or a replacement of i by i.
    pub fn is_same_kind(&self, privilege: usize) -> bool {
        let of = self.owner[privilege];
        let own = |i: usize| self.replacement(of, i, i) == privilege;
        match self.types[of].kind {
            STAR => self.exchange(of) == Some(privilege),
            CHOICE => self.format == Format::Two && (0..self.types[of].children.len()).any(own),
            _ => false,
        }
    }

    pub fn allows(&self, marks: &[u8], choice: usize, i: usize, j: usize) -> bool {
        self.format.is_replaceable(i, j) && marks[self.replacement(choice, i, j)] == ALLOWED
    }
}

fn privileges_of(format: Format, it: &Type) -> usize {
    match it.kind {
        TEXT => 1,
        STAR => format.privileges_of_star(),
        CHOICE => format.privileges_of_choice(it.children.len()),
        _ => 0,
    }
}

pub fn total(format: Format, types: &[Type]) -> usize {
    types.iter().map(|it| privileges_of(format, it)).sum()
}

pub fn types_below(types: &[Type], y: usize) -> Vec<bool> {
    let mut found = vec![false; types.len()];
    let mut waiting = vec![y];
    while let Some(x) = waiting.pop() {
        if !found[x] {
            found[x] = true;
            waiting.extend(&types[x].children);
        }
    }
    found
}

fn privileges_below(types: &[Type], owner: &[usize], y: usize) -> Vec<usize> {
    let found = types_below(types, y);
    (0..owner.len()).filter(|&p| found[owner[p]]).collect()
}

/// Words 1 to 6, and the length of the run lent.
fn header_fits(words: &[u16]) -> bool {
    let word = |k: usize| words[k] as usize;
    let (e, c) = (word(2), word(5));
    word(1) == HEADER + RECORD * e + c
        && (1..=MOST_TYPES).contains(&e)
        && word(3) < e
        && word(4) == HEADER
        && c <= MOST_ENTRIES
        && word(6) == HEADER + RECORD * e
        && words.len() == word(1)
}

fn count_fits(kind: u16, count: usize) -> bool {
    match kind {
        EMPTY | TEXT => count == 0,
        STAR => count == 1,
        _ => (1..=MOST_CHILDREN).contains(&count),
    }
}

fn has_twice(children: &[usize]) -> bool {
    (0..children.len()).any(|k| children[..k].contains(&children[k]))
}

/// Number 1; gives the format.
fn check_format(words: &[u16]) -> Result<Format, Answer> {
    let format = if words.len() < HEADER { None } else { Format::of(words[0]) };
    format.ok_or(Answer { number: 1, ..Answer::default() })
}

/// Numbers 2 to 5; gives the types with their children.
pub fn check_records(words: &[u16]) -> Result<Vec<Type>, Answer> {
    refuse_if(2, !header_fits(words))?;
    let (records, list) = words[HEADER..].split_at(RECORD * words[2] as usize);
    let kinds: Vec<u16> = records.chunks(RECORD).map(|record| record[0]).collect();
    let counts: Vec<usize> = records.chunks(RECORD).map(|record| record[1] as usize).collect();
    let mut firsts: Vec<usize> = records.chunks(RECORD).map(|record| record[2] as usize).collect();
    firsts.push(list.len());
    let e = kinds.len();
    refuse_at(3, (0..e).find(|&t| kinds[t] > STAR))?;
    refuse_at(4, (0..e).find(|&t| !count_fits(kinds[t], counts[t])))?;
    // At place E stands the total of the counts, which must be C.
    refuse_at(5, (0..=e).find(|&t| firsts[t] != counts[..t].iter().sum::<usize>()))?;
    let children = |t: usize| list[firsts[t]..firsts[t + 1]].iter().map(|&x| x as usize).collect();
    Ok((0..e).map(|t| Type { kind: kinds[t], children: children(t) }).collect())
}

/// A type on a cycle has itself below one of its children.
pub fn on_cycle(types: &[Type], t: usize) -> bool {
    types[t].children.iter().any(|&child| types_below(types, child)[t])
}

/// Numbers 1 to 7, then 19, then 8 and 9.
pub fn check_table(words: &[u16]) -> Result<Table, Answer> {
    let format = check_format(words)?;
    let types = check_records(words)?;
    let e = types.len();
    let strays = |t: usize| types[t].children.iter().any(|&x| x >= e);
    refuse_at(6, (0..e).find(|&t| strays(t)))?;
    refuse_at(7, (0..e).find(|&t| has_twice(&types[t].children)))?;
    refuse_at(19, (0..e).find(|&t| on_cycle(&types, t)))?;
    let below_root = types_below(&types, words[3] as usize);
    refuse_at(8, (0..e).find(|&t| !below_root[t]))?;
    let v = total(format, &types);
    refuse_if(9, v > MOST_PRIVILEGES || words[7] as usize != v)?;
    Ok(Table::of(format, types))
}

pub fn check(words: &[u16]) -> Outcome {
    let table = check_table(words)?;
    Ok(Answer { place: table.v(), ..Answer::default() })
}
