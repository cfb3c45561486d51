// Lists of new numbers that say something else than how the new table was made.

use super::super::chance::Random;
use super::super::schemas::Schema;
use crate::carrying::GONE;
use crate::table::{Type, CHOICE};

/// Says of a type that it is gone.
fn forget(r: &mut Random, numbers: &mut [u16]) {
    let t = r.below(numbers.len());
    numbers[t] = GONE;
}

/// Two types take each other's number.
fn exchange(r: &mut Random, numbers: &mut [u16]) {
    let (one, other) = (r.below(numbers.len()), r.below(numbers.len()));
    numbers.swap(one, other);
}

/// Two kinds of a choice do.
fn exchange_kinds(r: &mut Random, new: &Schema, numbers: &mut [u16]) {
    let fits = |it: &&Type| it.kind == CHOICE && it.children.len() > 1;
    let choices: Vec<&Type> = new.types.iter().filter(fits).collect();
    if choices.is_empty() {
        return;
    }
    let children = &r.pick(&choices).children;
    let [one, other] = [r.pick(children), r.pick(children)]
        .map(|child| numbers.iter().position(|&number| number as usize == child));
    if let (Some(one), Some(other)) = (one, other) {
        numbers.swap(one, other);
    }
}

/// Says of a type that is gone that it is one of the added ones, of which there are some.
fn adopt(r: &mut Random, numbers: &mut [u16], new_e: usize) {
    let added: Vec<u16> = (0..new_e as u16).filter(|number| !numbers.contains(number)).collect();
    let gone: Vec<usize> = (0..numbers.len()).filter(|&t| numbers[t] == GONE).collect();
    if !added.is_empty() && !gone.is_empty() {
        numbers[r.pick(&gone)] = r.pick(&added);
    }
}

/// Any list without a repeated number.
fn any(r: &mut Random, numbers: &mut [u16], new_e: usize) {
    let mut all: Vec<u16> = (0..new_e as u16).collect();
    all.resize(new_e.max(numbers.len()) + r.below(3), GONE);
    r.shuffle(&mut all);
    numbers.copy_from_slice(&all[..numbers.len()]);
}

/// As a rule nothing.
pub fn bend(r: &mut Random, new: &Schema, numbers: &mut [u16]) {
    match r.below(24) {
        0 | 1 => forget(r, numbers),
        2 => exchange(r, numbers),
        3 => exchange_kinds(r, new, numbers),
        4 | 5 => adopt(r, numbers, new.types.len()),
        6 => any(r, numbers, new.types.len()),
        7 => numbers.fill(GONE),
        _ => (),
    }
}
