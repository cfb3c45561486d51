// What is measured of `carry_marks`: the sample and its revision; the ordinary and the largest tables, carried over to themselves, to themselves with
// the types renumbered, and besides with each type's children in another order; all types of the largest gone; the last two from each format to the
// other; and tables that double, renumbered and in another order. Of tables that are refused the stack is measured alone.

use crate::calls::Call;
use crate::inputs::{
    by_chance, cyclic, decode, digits, doubling, encode, in_order, largest_table, named, ordinary,
    shuffled, unreached, v_of, Input, ALLOWED, FORBIDDEN, ONE, SAMPLE, SAMPLES, SAMPLES_OF_TWO,
    TWO, UNSET,
};
use second::carry_case::CarryCase;

/// Cases that are run in turn; a time is the mean of one call on them.
pub struct Revision {
    pub name: String,
    pub cases: Vec<CarryCase>,
}

/// The new number of a type that is gone.
const GONE: u16 = u16::MAX;

fn case(
    old_words: &[u16],
    old_marks: Vec<u8>,
    new_words: Vec<u16>,
    new_numbers: Vec<u16>,
) -> CarryCase {
    let (out, lost) = (vec![UNSET; v_of(&new_words)], vec![0; old_marks.len()]);
    CarryCase { old_words: old_words.to_vec(), old_marks, new_words, new_numbers, out, lost }
}

/// A third of the marks each unset, allowed and forbidden.
fn marks_of(words: &[u16]) -> Vec<u8> {
    by_chance(v_of(words), &[UNSET, ALLOWED, FORBIDDEN], 1)
}

/// Each type keeps its number.
fn kept(old_words: &[u16], new_words: &[u16]) -> CarryCase {
    case(old_words, marks_of(old_words), new_words.to_vec(), (0..old_words[2]).collect())
}

fn all_gone(words: &[u16]) -> CarryCase {
    CarryCase { new_numbers: vec![GONE; words[2] as usize], ..kept(words, words) }
}

/// The types in another order by chance, and the children of each as it is said.
fn moved(words: &[u16], children: impl Fn(usize, Vec<u16>) -> Vec<u16>) -> CarryCase {
    let order = shuffled(words[2] as usize, 2);
    let (mut types, new_numbers) = in_order(&decode(words), &order);
    for (t, it) in types.iter_mut().enumerate() {
        it.children = children(t, it.children.clone());
    }
    let new_words = encode(words[0], &types, new_numbers[words[3] as usize] as usize);
    case(words, marks_of(words), new_words, new_numbers)
}

fn renumbered(words: &[u16]) -> CarryCase {
    moved(words, |_, children| children)
}

fn reordered(words: &[u16]) -> CarryCase {
    let by_chance = |t, children: Vec<u16>| -> Vec<u16> {
        shuffled(children.len(), t as u64 + 3).iter().map(|&k| children[k]).collect()
    };
    moved(words, by_chance)
}

/// The revision of the sample in samples/revised.txt: a kind added, a type gone, and the types by name.
const REVISED: [u16; 39] = [
    1, 39, 8, 2, 8, 7, 32, 12, 0, 0, 0, 1, 0, 0, 4, 1, 0, 2, 3, 1, 1, 0, 4, 1, 0, 4, 1, 0, 4, 3, 3,
    4, 3, 4, 5, 7, 0, 6, 1,
];
const REVISED_NUMBERS: [u16; 8] = [2, 3, 4, 5, 7, 0, GONE, 1];

fn sample(format: u16, samples: &[&str]) -> Revision {
    let old = encode(format, &decode(&SAMPLE), 0);
    let new = encode(format, &decode(&REVISED), 2);
    let one = |text: &&str| case(&old, digits(text), new.clone(), REVISED_NUMBERS.to_vec());
    Revision { name: named("sample", format), cases: samples.iter().map(one).collect() }
}

/// The revisions of a table in one format.
fn within(name: &str, words: &[u16]) -> Vec<Revision> {
    let of = |what: &str, case| Revision {
        name: named(&format!("{}{}", name, what), words[0]),
        cases: vec![case],
    };
    vec![
        of("", kept(words, words)),
        of("-renumbered", renumbered(words)),
        of("-reordered", reordered(words)),
    ]
}

/// From a format to the other.
fn across(name: &str, old: &[u16], new: &[u16]) -> Revision {
    Revision { name: format!("{}-to-{}", name, new[0]), cases: vec![kept(old, new)] }
}

pub fn revisions() -> Vec<Revision> {
    let [ordinary, largest] = [ordinary, largest_table].map(|table| [ONE, TWO].map(table));
    let mut all = vec![sample(ONE, &SAMPLES)];
    all.extend(within("ordinary", &ordinary[0]));
    all.extend(within("largest", &largest[0]));
    all.push(Revision { name: "largest-gone".to_string(), cases: vec![all_gone(&largest[0])] });
    all.push(sample(TWO, &SAMPLES_OF_TWO));
    all.extend(within("ordinary", &ordinary[1]));
    all.extend(within("largest", &largest[1]));
    for (name, [one, two]) in [("ordinary", &ordinary), ("largest", &largest)] {
        all.extend([across(name, one, two), across(name, two, one)]);
    }
    all
}

/// A table that is searched before it is refused, as the old one and as the new one.
pub fn refused() -> Vec<CarryCase> {
    let other = largest_table(ONE);
    let both = |words: Vec<u16>| [kept(&words, &other), kept(&other, &words)];
    [cyclic(), unreached()].into_iter().flat_map(both).collect()
}

/// The tables of `growth`, renumbered and in another order.
pub fn growing() -> Vec<Revision> {
    let of = |it: Input| Revision { name: it.name, cases: vec![reordered(&it.cases[0].words)] };
    doubling(Call::CheckTable).into_iter().map(of).collect()
}
