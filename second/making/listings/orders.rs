// Ways to put lines out of their order. Each has the name of the situation that it is for.

use super::super::chance::Random;
use super::lines::{parts, place, Lines, Way};
use super::Mailed;

/// Exchanges a line and the next one, of which that is known, if there are such.
fn swap(r: &mut Random, lines: &mut Lines, known: impl Fn(&str, &str) -> bool) {
    let type_of = |k: usize| parts(&lines[k])[1].clone();
    let such: Vec<usize> = (1..lines.len()).filter(|&k| known(&type_of(k - 1), &type_of(k))).collect();
    if !such.is_empty() {
        let k = r.pick(&such);
        lines.swap(k - 1, k);
    }
}

/// Takes a line away and puts it at another place, if there is that.
fn carry(lines: &mut Lines, from: usize, to: usize) {
    if from < lines.len() && to < lines.len() {
        let line = lines.remove(from);
        lines.insert(to, line);
    }
}

/// A line once more, behind it.
fn again(r: &mut Random, lines: &mut Lines, how: impl Fn(&mut Vec<u8>)) {
    let k = place(r, lines.len());
    let mut line = lines[k].clone();
    how(&mut line);
    lines.insert(k + 1, line);
}

fn turn_sign(line: &mut Vec<u8>) {
    line[0] = if line[0] == b'+' { b'-' } else { b'+' };
}

fn other_sign(r: &mut Random, _: &Mailed, lines: &mut Lines) {
    again(r, lines, turn_sign);
}

fn is_made(name: &str) -> bool {
    name.starts_with('#')
}

pub const WAYS: &[Way] = &[
    ("26: the same line twice", |r, _, lines| again(r, lines, |_| ())),
    ("26: the same privilege with the other sign", other_sign),
    ("26: + and then -", other_sign),
    ("26: - and then +", other_sign),
    ("26: lower at the same type", |r, _, lines| swap(r, lines, |before, now| before == now)),
    ("26: lower at an earlier type", |r, _, lines| swap(r, lines, |before, now| before != now)),
    ("26: a declared type behind a made one", |r, _, lines| {
        swap(r, lines, |before, now| !is_made(before) && is_made(now))
    }),
    ("26: lower by one", |r, _, lines| swap(r, lines, |_, _| true)),
    ("26: the first privilege behind others", |r, _, lines| {
        let to = 1 + r.below(lines.len());
        carry(lines, 0, to)
    }),
    ("26: a privilege again, with others between", |r, _, lines| {
        let line = lines[r.below(lines.len())].clone();
        let k = r.below(lines.len() + 1);
        lines.insert(k, line);
    }),
    ("26, and the next line lies between", |r, _, lines| {
        let from = r.below(lines.len());
        carry(lines, from, from.saturating_sub(2))
    }),
    ("26 in the second line", |_, _, lines| carry(lines, 0, 1)),
    ("26 in the last of three lines or more", |_, _, lines| {
        let last = lines.len() - 1;
        carry(lines, last, last.saturating_sub(1))
    }),
    ("26 between", |r, _, lines| {
        let from = r.below(lines.len());
        carry(lines, from, from + 1)
    }),
];
