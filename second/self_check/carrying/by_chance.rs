// Moves by chance: against the edits as lines of text, with what holds of every move, and with faults against another reading of the refusals.

use super::super::expect;
use super::spelled::carried;
use crate::answers::{answer, Answer};
use crate::carry_case::CarryCase;
use crate::carrying::{carry_marks, GONE};
use crate::format::Format;
use crate::making::carrying::Base;
use crate::making::chance::Random;
use crate::making::schemas::chance_numbers;
use crate::table::check;
use std::collections::BTreeSet;

/// The new marks and what is lost, of a move without a fault.
fn moved(old_words: &[u16], marks: &[u8], new_words: &[u16], numbers: &[u16]) -> [Vec<u8>; 2] {
    let (mut out, mut lost) = (vec![9; new_words[7] as usize], vec![9; marks.len()]);
    let told = carry_marks(old_words, marks, new_words, numbers, &mut out, &mut lost);
    expect(told == Ok(Answer::default()), "a move without a fault");
    [out, lost]
}

/// The list of the way back.
fn back(numbers: &[u16], new_e: usize) -> Vec<u16> {
    let place = |n: usize| numbers.iter().position(|&number| number as usize == n);
    (0..new_e).map(|n| place(n).map_or(GONE, |t| t as u16)).collect()
}

fn count_set(marks: &[u8]) -> usize {
    marks.iter().filter(|&&mark| mark != 0).count()
}

/// Over one table everything is kept, and through another numbering and back too.
fn self_same(r: &mut Random, base: &Base) {
    let (words, marks, e) = (base.old.words(), &base.old_marks, base.old.types.len());
    let none = vec![0; marks.len()];
    let identity: Vec<u16> = (0..e as u16).collect();
    expect(moved(&words, marks, &words, &identity) == [marks.clone(), none.clone()], "the identity");
    let numbers = chance_numbers(r, e);
    let other = base.old.renumbered(&numbers).words();
    let there: Vec<u16> = numbers.iter().map(|&number| number as u16).collect();
    let [after, lost] = moved(&words, marks, &other, &there);
    expect(lost == none, "a permutation loses nothing");
    expect(moved(&other, &after, &words, &back(&there, e)) == [marks.clone(), none], "there and back");
}

/// What is set is lost or found once; the way back brings it home; and one more mark set takes nothing away.
fn self_kept(r: &mut Random, base: &Base, [out, lost]: &[Vec<u8>; 2]) {
    let (old, new, numbers) = (base.old.words(), base.new.words(), &base.new_numbers);
    let (marks, found) = (&base.old_marks, count_set(out));
    expect(lost.iter().all(|&byte| byte < 2), "a lost byte is 0 or 1");
    expect(found + count_set(lost) == count_set(marks), "a set mark is lost or found once");
    let returned = moved(&new, out, &old, &back(numbers, base.new.types.len()));
    let home: Vec<u8> = marks.iter().zip(lost).map(|(&mark, &lost)| mark * (1 - lost)).collect();
    expect(returned == [home, vec![0; out.len()]], "what was found comes home");
    let unset: Vec<usize> = (0..marks.len()).filter(|&privilege| marks[privilege] == 0).collect();
    if !unset.is_empty() {
        let mut fuller = marks.clone();
        let privilege = r.pick(&unset);
        fuller[privilege] = 1 + r.below(2) as u8;
        let [more, more_lost] = moved(&old, &fuller, &new, numbers);
        let kept = |(&before, &after): (&u8, &u8)| before == after || before == 0;
        expect(out.iter().zip(&more).all(kept), "one more mark set takes no new one away");
        expect(lost.iter().zip(&more_lost).all(kept), "one more mark set finds no lost one");
        expect(count_set(&more) + count_set(&more_lost) == count_set(marks) + 1, "and comes to one more");
    }
}

/// The number and the place with which a case is refused, 0 and 0 if it is not.
fn refusal(case: &CarryCase) -> [usize; 2] {
    let [old, new] = [&case.old_words, &case.new_words].map(|words| answer(check(words)));
    let bent = case.old_marks.iter().enumerate().find(|(_, &mark)| ![0, 1, 2].contains(&mark));
    let is_short = || case.out.len() < new.place || case.lost.len() < old.place;
    match bent {
        _ if old.number > 0 => [old.number, old.place],
        _ if case.old_marks.len() != old.place => [10, 0],
        Some((privilege, _)) => [11, privilege],
        _ if new.number > 0 => [100 + new.number, new.place],
        _ if case.new_numbers.len() as u16 != case.old_words[2] => [17, 0],
        _ => match misfit(&case.new_numbers, case.new_words[2]) {
            Some(t) => [18, t],
            None if is_short() => [12, 0],
            None => [0, 0],
        },
    }
}

/// The first entry that is not one of the numbers still free, which each entry but 65,535 takes away.
fn misfit(numbers: &[u16], new_e: u16) -> Option<usize> {
    let mut free: BTreeSet<u16> = (0..new_e).collect();
    numbers.iter().position(|number| *number != 65_535 && !free.remove(number))
}

/// A case with faults, or none: what is told, and both results.
fn self_told(case: &CarryCase) -> usize {
    let CarryCase { old_words, old_marks, new_words, new_numbers, .. } = case;
    let (mut out, mut lost) = (case.out.clone(), case.lost.clone());
    let told = answer(carry_marks(old_words, old_marks, new_words, new_numbers, &mut out, &mut lost));
    let [number, place] = refusal(case);
    expect(told == Answer { number, place, ..Answer::default() }, "what carrying tells");
    let written = match number {
        0 => carried(old_words, old_marks, new_words, new_numbers),
        _ => [Vec::new(), Vec::new()],
    };
    for (after, (lent, written)) in [out, lost].iter().zip([&case.out, &case.lost].into_iter().zip(&written))
    {
        let expected = [&written[..], &lent[written.len()..]].concat();
        expect(*after == expected, "what carrying writes and keeps");
    }
    number
}

/// Gives the number with which a case of the same tables with faults is refused.
fn self_move(r: &mut Random, formats: [Format; 2]) -> usize {
    let base = Base::of(r, formats);
    self_told(&base.case(r, false));
    let after = moved(&base.old.words(), &base.old_marks, &base.new.words(), &base.new_numbers);
    self_same(r, &base);
    self_kept(r, &base, &after);
    self_told(&base.case(r, true))
}

const FORMATS: [[Format; 2]; 4] = [
    [Format::One, Format::One],
    [Format::One, Format::Two],
    [Format::Two, Format::One],
    [Format::Two, Format::Two],
];

pub fn self_by_chance(seed: u64, count: usize) -> String {
    let mut r = Random(seed);
    let numbers: Vec<usize> = (0..count).map(|k| self_move(&mut r, FORMATS[k % 4])).collect();
    let refused = numbers.iter().filter(|&&number| number > 0).count();
    format!("{} moves by chance, each once more with faults ({} refused)", count, refused)
}
