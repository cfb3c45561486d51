// What an edit comes to, read literally and apart from the other files: the refusals, the entries of the new marks, and the first breach by what
// is kept.

use super::super::literal::{forbidden_below, warshall};
use crate::answers::{answer, Answer};
use crate::edit_case::{Edit, Step};
use crate::format::Format;
use crate::table::{check, Table, CHOICE, STAR};

/// The number and the place of an edit, each check by itself.
pub fn number_of(step: &Step) -> [usize; 2] {
    let Answer { number, place, .. } = answer(check(&step.words));
    let Edit { privilege, mark } = step.edit;
    if number != 0 {
        return [number, place];
    }
    let (v, e, bent) = (place, step.words[2] as usize, step.marks.iter().position(|&mark| mark > 2));
    match bent {
        _ if step.marks.len() != v => [10, 0],
        Some(place) => [11, place],
        None if privilege as usize >= v => [10, 0],
        None if mark > 2 => [11, privilege as usize],
        None if step.kept.len() / 2 < e => [12, 0],
        None => [0, 0],
    }
}

/// Which types are below which, by Warshall's rule.
pub fn below(table: &Table) -> Vec<Vec<bool>> {
    let types = &table.types;
    let mut leads = warshall(types.len(), |parent, child| types[parent].children.contains(&child));
    (0..types.len()).for_each(|t| leads[t][t] = true);
    leads
}

/// "The lowest forbidden privilege below t and how many there are, each counted once; 0 and 0 for none."
pub fn entry_of(table: &Table, marks: &[u8], t: usize) -> [u16; 2] {
    let all = forbidden_below(table, marks, t);
    [all.first().map_or(0, |&privilege| privilege as u16), all.len() as u16]
}

/// The privilege to replace i by j at a choice.
fn replacement(table: &Table, t: usize, i: usize, j: usize) -> Option<usize> {
    let n = table.types[t].children.len();
    match table.format {
        Format::One if i == j => None,
        Format::One => Some(table.first[t] + i * (n - 1) + j - (j > i) as usize),
        Format::Two => Some(table.first[t] + i * n + j),
    }
}

/// A breach: type, condition, i, j, privilege and count.
pub type Told = [usize; 6];

fn star_told(table: &Table, marks: &[u8], kept: &[u16], t: usize) -> Option<Told> {
    let own = table.first[t];
    let both = marks[own] == 1 && marks[own + 1] == 1;
    let exchange = if table.format == Format::Two { marks[own + 2] } else { 0 };
    let child = table.types[t].children[0];
    let [lowest, count] = [2 * child, 2 * child + 1].map(|k| kept[k] as usize);
    if both && exchange == 2 {
        return Some([t, 1, 0, 0, own + 2, 1]);
    }
    Some([t, 1, 0, 0, lowest, count]).filter(|_| (both || exchange == 1) && count != 0)
}

fn choice_told(table: &Table, marks: &[u8], kept: &[u16], t: usize) -> Vec<Told> {
    let children = &table.types[t].children;
    let has = |i, j, mark| replacement(table, t, i, j).filter(|&privilege| marks[privilege] == mark);
    let leads = warshall(children.len(), |i, j| has(i, j, 1).is_some());
    let mut all = Vec::new();
    for i in 0..children.len() {
        for j in (0..children.len()).filter(|&j| leads[i][j]) {
            all.extend(has(i, j, 2).map(|privilege| [t, 2, i, j, privilege, 1]));
        }
        let [lowest, count] = [2 * children[i], 2 * children[i] + 1].map(|k| kept[k] as usize);
        if leads[i][i] && count != 0 {
            all.push([t, 3, i, i, lowest, count]);
        }
    }
    all
}

/// The first breach in the stated order by what is kept; zeros where there is none.
pub fn first_told(table: &Table, marks: &[u8], kept: &[u16]) -> Told {
    let at = |t: usize| match table.types[t].kind {
        STAR => star_told(table, marks, kept, t).into_iter().collect(),
        CHOICE => choice_told(table, marks, kept, t),
        _ => Vec::new(),
    };
    (0..table.types.len()).flat_map(at).min().unwrap_or_default()
}
