// All roles of a show at once. The table is checked once, and what depends on it alone is made once: the order of its types, and their first
// privileges. Of a breach is asked whether there is one, not what is told of it.

use super::{
    check_marks, complete_all_in, fill_firsts, fill_spoilt, first_chain, first_cycle, reach,
    read_choice, read_table, refused, spoilt_in, star_breach, Table, CHOICE, ONE, STAR, TWO,
};
use crate::calls::Outcome;

fn is_broken_choice<const IS_TWO: bool>(
    marks: &[u8],
    spoilt: &[bool; 256],
    kids: &[u16],
    first: usize,
) -> bool {
    let (allowed, forbidden) = read_choice::<IS_TWO>(marks, first, kids.len());
    let reached = reach(&allowed, kids.len());
    first_chain(&reached, &forbidden).is_some()
        || first_cycle(&reached, spoilt_in(kids, spoilt)).is_some()
}

fn is_broken<const IS_TWO: bool>(table: &Table, firsts: &[u16; 256], marks: &[u8]) -> bool {
    let mut spoilt = [false; 256];
    fill_spoilt(table, marks, &mut spoilt);
    table.records.iter().zip(firsts).enumerate().any(|(x, (record, &first))| {
        let (kids, first) = (table.children(record), first as usize);
        match record[0] {
            CHOICE => is_broken_choice::<IS_TWO>(marks, &spoilt, kids, first),
            STAR => star_breach::<IS_TWO>(marks, &spoilt, x, kids, first).is_some(),
            _ => false,
        }
    })
}

/// The number of a role; done, its marks are completed into its stretch.
fn complete_role<const IS_TWO: bool>(
    table: &Table,
    firsts: &[u16; 256],
    marks: &[u8],
    stretch: &mut [u8],
) -> u16 {
    if check_marks(marks, table.v, 10).is_err() {
        return 11;
    }
    if is_broken::<IS_TWO>(table, firsts, marks) {
        return 16;
    }
    complete_all_in::<IS_TWO>(table, firsts, marks, stretch);
    0
}

fn complete_each<const IS_TWO: bool>(
    table: &Table,
    marks: &[u8],
    numbers: &mut [u16],
    out: &mut [u8],
) {
    let mut firsts = [0; 256];
    fill_firsts(table, &mut firsts);
    for (r, number) in numbers.iter_mut().enumerate() {
        let own = r * table.v..(r + 1) * table.v;
        *number = complete_role::<IS_TWO>(table, &firsts, &marks[own.clone()], &mut out[own]);
    }
}

pub fn complete_roles(words: &[u16], marks: &[u8], numbers: &mut [u16], out: &mut [u8]) -> Outcome {
    let mut order = [0; 256];
    let table = match read_table(words, &mut order) {
        Ok(table) => table,
        Err(refusal) => return refused(refusal),
    };
    if table.v.checked_mul(numbers.len()) != Some(marks.len()) {
        return Outcome::refusal(10, 0);
    }
    if out.len() < marks.len() {
        return Outcome::refusal(12, 0);
    }
    if table.is_two {
        complete_each::<TWO>(&table, marks, numbers, out);
    } else {
        complete_each::<ONE>(&table, marks, numbers, out);
    }
    Outcome::default()
}
