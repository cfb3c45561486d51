// The conditions and the mending rule read literally, each format by itself, apart from the other files.

mod format_one;
mod format_two;

use crate::format::Format;
use crate::table::{Table, Type, ALLOWED, CHOICE, FORBIDDEN, STAR};

/// Which of n things lead to which by one or more steps, by Warshall's rule.
pub fn warshall(n: usize, step: impl Fn(usize, usize) -> bool) -> Vec<Vec<bool>> {
    let row = |i: usize| (0..n).map(|j| step(i, j)).collect();
    let mut leads: Vec<Vec<bool>> = (0..n).map(row).collect();
    for k in 0..n {
        for i in 0..n {
            for j in 0..n {
                leads[i][j] |= leads[i][k] && leads[k][j];
            }
        }
    }
    leads
}

fn is_below(types: &[Type], x: usize, y: usize) -> bool {
    x == y || types[y].children.iter().any(|&child| is_below(types, x, child))
}

/// The forbidden privileges below a type, in ascending order: each privilege of the table is asked once.
pub fn forbidden_below(table: &Table, marks: &[u8], y: usize) -> Vec<usize> {
    let below = |p: usize| is_below(&table.types, table.owner[p], y);
    (0..table.v()).filter(|&p| marks[p] == FORBIDDEN && below(p)).collect()
}

/// What one format says.
struct Sentences {
    /// The privileges that condition 1 can name at a star; it names the lowest of them.
    star: fn(&Table, &[u8], usize) -> Vec<usize>,
    /// The privilege to replace i by j at a choice, if there is one.
    replacement: fn(&Table, usize, usize, usize) -> Option<usize>,
    /// What mending condition 1 forbids at a star.
    mended: fn(&Table, &[u8], usize) -> usize,
}

fn sentences(table: &Table) -> Sentences {
    match table.format {
        Format::One => format_one::SENTENCES,
        Format::Two => format_two::SENTENCES,
    }
}

fn allows(table: &Table, marks: &[u8], t: usize, i: usize, j: usize) -> bool {
    (sentences(table).replacement)(table, t, i, j).map_or(false, |p| marks[p] == ALLOWED)
}

/// Which positions of a choice lead to which by allowed replacements.
fn closure(table: &Table, marks: &[u8], t: usize) -> Vec<Vec<bool>> {
    warshall(table.types[t].children.len(), |i, j| allows(table, marks, t, i, j))
}

/// Every breach, read from the three conditions literally and apart from `forced`, as type,
/// condition, i, j, privilege: the first one in the stated order is the least.
pub fn breaches(table: &Table, marks: &[u8]) -> Vec<[usize; 5]> {
    let mut found = Vec::new();
    for (t, it) in table.types.iter().enumerate() {
        match it.kind {
            STAR => found.extend((sentences(table).star)(table, marks, t).iter().map(|&p| [t, 1, 0, 0, p])),
            CHOICE => choice_breaches(table, marks, t, &mut found),
            _ => (),
        }
    }
    found
}

/// How many are forbidden where a breach is: as many as the conditions can name there.
pub fn count_there(breaches: &[[usize; 5]], breach: &[usize; 5]) -> usize {
    breaches.iter().filter(|other| other[..4] == breach[..4]).count()
}

fn choice_breaches(table: &Table, marks: &[u8], t: usize, found: &mut Vec<[usize; 5]>) {
    let leads = closure(table, marks, t);
    for (i, &child) in table.types[t].children.iter().enumerate() {
        for j in (0..leads.len()).filter(|&j| leads[i][j]) {
            let replacement = (sentences(table).replacement)(table, t, i, j);
            found.extend(replacement.filter(|&p| marks[p] == FORBIDDEN).map(|p| [t, 2, i, j, p]));
            if i == j {
                found.extend(forbidden_below(table, marks, child).iter().map(|&p| [t, 3, i, i, p]));
            }
        }
    }
}

/// Of all lists of positions, the shorter before the longer and then the lower at the first difference, the first that goes from i to j
/// by allowed replacements.
pub fn chain(table: &Table, marks: &[u8], t: usize, i: usize, j: usize) -> Vec<usize> {
    let n = table.types[t].children.len();
    let list = |length: u32, k: usize| (0..length).rev().map(|place| k / n.pow(place) % n).collect();
    let step = |two: &[usize]| allows(table, marks, t, two[0], two[1]);
    let fits =
        |way: &Vec<usize>| (way.first(), way.last()) == (Some(&i), Some(&j)) && way.windows(2).all(step);
    let mut all = (2..).flat_map(|length| (0..n.pow(length)).map(move |k| list(length, k)));
    all.find(fits).expect("a way from i to j, which is reached from i")
}

/// The positions of a choice of which the second is reached from the first.
pub fn reached_pairs(table: &Table, marks: &[u8], t: usize) -> Vec<(usize, usize)> {
    let leads = closure(table, marks, t);
    let pairs = (0..leads.len()).flat_map(|i| (0..leads.len()).map(move |j| (i, j)));
    pairs.filter(|&(i, j)| leads[i][j]).collect()
}

pub fn passes(table: &Table, marks: &[u8]) -> bool {
    breaches(table, marks).is_empty()
}

/// The lowest k such that the replacement of i by it is allowed and k is j or j is reached from k.
fn lowest_k(table: &Table, marks: &[u8], t: usize, i: usize, j: usize) -> usize {
    let leads = closure(table, marks, t);
    let fits = |&k: &usize| allows(table, marks, t, i, k) && (k == j || leads[k][j]);
    (0..leads.len()).find(fits).expect("a first step")
}

/// The mending rule read literally: the least breach, the least k.
pub fn mended_literally(table: &Table, marks: &[u8]) -> Vec<u8> {
    let Sentences { mended, replacement, .. } = sentences(table);
    let mut now = marks.to_vec();
    while let Some([of, condition, i, j, _]) = breaches(table, &now).into_iter().min() {
        let taken = match condition {
            1 => mended(table, &now, of),
            _ => replacement(table, of, i, lowest_k(table, &now, of, i, j)).expect("an allowed replacement"),
        };
        now[taken] = FORBIDDEN;
    }
    now
}
