// Situations of lines that are not above the one before (26).

use super::super::listing::{Listing, Situation};

/// Whether the call is refused with 26, and that is known of what the line before tells and of what the line tells, privileges and marks.
fn falls(it: &Listing, known: impl Fn((usize, u8), (usize, u8)) -> bool) -> bool {
    it.is_refused(26) && {
        let (lines, (k, _)) = (it.lines(), it.at());
        let entry = |k: usize| it.entry(lines[k]).expect("a line of a privilege");
        known(entry(k - 1), entry(k))
    }
}

/// The type of a privilege.
fn owner(it: &Listing, privilege: usize) -> usize {
    it.listed.as_ref().map_or(0, |listed| listed.table.owner[privilege])
}

/// Whether the privilege of the line is one of an earlier line, or not.
fn is_again(it: &Listing) -> bool {
    falls(it, |_, now| {
        let (lines, (k, _)) = (it.lines(), it.at());
        lines[..k - 1].iter().any(|line| it.entry(line).is_some_and(|entry| entry.0 == now.0))
    })
}

/// Whether the line behind is above the one that is refused, and below the one before that.
fn goes_on(it: &Listing) -> bool {
    falls(it, |before, now| {
        let next = it.lines().get(it.at().0 + 1).and_then(|line| it.entry(line));
        next.is_some_and(|next| next.0 > now.0 && next.0 < before.0)
    })
}

pub const SITUATIONS: &[Situation] = &[
    ("26: the same line twice", |it| falls(it, |before, now| before == now)),
    ("26: the same privilege with the other sign", |it| {
        falls(it, |before, now| before.0 == now.0 && before.1 != now.1)
    }),
    ("26: + and then -", |it| falls(it, |before, now| before == (now.0, 1) && now.1 == 2)),
    ("26: - and then +", |it| falls(it, |before, now| before == (now.0, 2) && now.1 == 1)),
    ("26: lower at the same type", |it| {
        falls(it, |before, now| before.0 > now.0 && owner(it, before.0) == owner(it, now.0))
    }),
    ("26: lower at an earlier type", |it| falls(it, |before, now| owner(it, before.0) > owner(it, now.0))),
    ("26: a declared type behind a made one", |it| {
        let declared = it.listed.as_ref().map_or(0, |listed| listed.declared);
        falls(it, |before, now| owner(it, before.0) >= declared && owner(it, now.0) < declared)
    }),
    ("26: lower by one", |it| falls(it, |before, now| before.0 == now.0 + 1)),
    ("26: the first privilege behind others", |it| falls(it, |before, now| before.0 > 0 && now.0 == 0)),
    ("26: a privilege again, with others between", is_again),
    ("26, and the next line lies between", goes_on),
    ("26 in the second line", |it| it.is_refused(26) && it.at().0 == 1 && it.at().1 > 2),
    ("26 in the last of three lines or more", |it| {
        it.is_refused(26) && it.at().0 > 1 && it.at().0 + 1 == it.at().1
    }),
    ("26 between", |it| it.is_refused(26) && it.at().0 > 1 && it.at().0 + 1 < it.at().1),
];
