// Files for judge, some of them damaged as files.

use super::case_of;
use super::chance::Random;
use super::schemas::numbered;
use super::shapes::{full_ladder, large, long_chain, usual_shape};
use crate::format::Format;
use crate::judge::{found, outcome, outcomes, MOST_BYTES};
use crate::stream::{put_bytes, to_words};
use crate::table::{Type, EMPTY, HEADER, MOST_PRIVILEGES, SEQUENCE};

/// Cuts a file: anywhere, in or near the header, or nearly whole.
fn cut(r: &mut Random, file: &mut Vec<u8>) {
    let length = file.len();
    let nearly = length.saturating_sub(1 + r.below(3));
    let (anywhere, early) = (r.below(length + 1), r.below(2 * HEADER + 2));
    let tiny = r.below(4);
    file.truncate(r.pick(&[anywhere, anywhere, early, tiny, nearly]));
}

fn lengthen(r: &mut Random, file: &mut Vec<u8>) {
    for _ in 0..r.pick(&[1, 1, 2, 3, 20]) {
        file.push(r.next() as u8 % 4);
    }
}

/// As long as a file may be, or one byte longer; sometimes word 1 is changed too.
fn stretch_file(r: &mut Random, file: &mut Vec<u8>) {
    let fill = r.pick(&[0, 1, 2, 255]);
    file.resize(MOST_BYTES + r.below(2), fill);
    if r.one_in(2) {
        bend_length(r, file);
    }
}

/// Another number of words in word 1: near it, far from it, or near what the file holds.
fn bend_length(r: &mut Random, file: &mut [u8]) {
    if file.len() < 4 {
        return;
    }
    let word = to_words(file)[1];
    let whole = (file.len() / 2) as u16;
    let near = r.pick(&[word.wrapping_add(1), word.wrapping_sub(1), whole, whole - 1, whole + 1]);
    let far = r.pick(&[0, 0, 1, 7, 8, word / 2, word.wrapping_mul(2), 65535]);
    let other: u16 = r.pick(&[near, far, whole]);
    file[2..4].copy_from_slice(&other.to_le_bytes());
}

fn damage(r: &mut Random, file: &mut Vec<u8>) {
    for _ in 0..r.pick(&[1, 1, 2]) {
        match r.below(16) {
            0..=6 => cut(r, file),
            7..=9 => lengthen(r, file),
            10 => stretch_file(r, file),
            _ => bend_length(r, file),
        }
    }
    file.truncate(MOST_BYTES + 1);
}

/// The same types without a privilege.
pub fn bare(mut types: Vec<Type>) -> Vec<Type> {
    for it in types.iter_mut() {
        it.kind = if it.children.is_empty() { EMPTY } else { SEQUENCE };
    }
    types
}

/// More often large, and more often without a privilege, than in the cases.
fn file_shape(r: &mut Random, format: Format) -> Vec<Type> {
    match r.below(64) {
        0 => large(r, format, MOST_PRIVILEGES),
        1 => full_ladder(r, format),
        2 => long_chain(r),
        3..=5 => bare(usual_shape(r, format)),
        _ => usual_shape(r, format),
    }
}

fn file_of(r: &mut Random, format: Format, types: Vec<Type>) -> Vec<u8> {
    let schema = numbered(r, format, types);
    let mut file = case_of(r, &schema).file();
    if r.one_in(4) {
        damage(r, &mut file);
    }
    file
}

fn any_file(r: &mut Random, format: Format) -> Vec<u8> {
    let types = file_shape(r, format);
    file_of(r, format, types)
}

fn word_0_is(file: &[u8], format: Format) -> bool {
    to_words(file).first() == Some(&format.word())
}

/// What a file came to. Those of format 1 are made as they were before there was another: a word 0 of 2 is refused with 1.
fn came_to(format: Format, file: &[u8]) -> (usize, usize) {
    let is_bent = format == Format::One && word_0_is(file, Format::Two);
    if is_bent && file.len() <= MOST_BYTES {
        return (1, 0);
    }
    outcome(&found(file))
}

fn file_with(r: &mut Random, format: Format, wanted: (usize, usize)) -> Vec<u8> {
    loop {
        let types = usual_shape(r, format);
        let file = file_of(r, format, types);
        if came_to(format, &file) == wanted {
            return file;
        }
    }
}

/// So many files, every second of them with the outcome whose turn it is.
fn files(seed: u64, format: Format, count: usize) -> impl Iterator<Item = Vec<u8>> {
    let mut r = Random(seed);
    let outcomes = outcomes();
    (0..count).map(move |k| match k % 2 {
        0 => any_file(&mut r, format),
        _ => file_with(&mut r, format, outcomes[k / 2 % outcomes.len()]),
    })
}

/// The named files and so many random ones, and then the same of format 2.
pub fn random(seed: u64, count: usize, second_format: usize, named: Vec<Vec<u8>>) -> Vec<u8> {
    let (named_two, named_one): (Vec<_>, Vec<_>) =
        named.into_iter().partition(|file| word_0_is(file, Format::Two));
    let of_one = named_one.into_iter().chain(files(seed, Format::One, count));
    let of_two = named_two.into_iter().chain(files(seed, Format::Two, second_format));
    let mut stream = Vec::new();
    of_one.chain(of_two).for_each(|file| put_bytes(&mut stream, &file));
    stream
}
