// Situations of sums that are done.

use super::super::sum::{is_most, Pair, Situation, Sum};
use crate::sheet::{done, Sheet, COUNTS};
use crate::sum_case::SumCase;

/// Whether there are privileges, and that is known.
fn some(it: &Sum, known: impl Fn() -> bool) -> bool {
    it.is_done() && it.v() > 0 && known()
}

/// Whether there are none, and that is known.
fn none(it: &Sum, known: impl Fn() -> bool) -> bool {
    it.is_done() && it.v() == 0 && known()
}

/// Whether that is known of the place, the number of leaders and the leaders of either sheet.
fn given(it: &Sum, known: fn(&Sum, &Sheet) -> bool) -> [bool; 2] {
    [it.case.sheet, it.case.more].map(|sheet| known(it, &sheet))
}

/// How many roles each sheet counts, if its counts say the same of each privilege.
fn roles(it: &Sum) -> [Option<u64>; 2] {
    [&it.case.counts, &it.case.more_counts].map(|counts| {
        let sum = |three: &[u32]| three.iter().map(|&count| count as u64).sum::<u64>();
        let sums: Vec<u64> = counts[..it.all_counts()].chunks(COUNTS).map(sum).collect();
        sums.first().copied().filter(|first| sums.iter().all(|sum| sum == first))
    })
}

/// Whether both can be sheets of roles, some of them counted in each.
fn are_of_roles(it: &Sum) -> bool {
    let is_of_roles = |roles: Option<u64>, sheet: Sheet| {
        roles.map_or(false, |all| all > 0 && sheet.figures[..4].iter().all(|&figure| figure as u64 <= all))
    };
    let [one, more] = roles(it);
    is_of_roles(one, it.case.sheet) && is_of_roles(more, it.case.more)
}

/// Whether each sheet is given as a call would have answered it.
fn have_leaders(it: &Sum) -> bool {
    let SumCase { sheet, counts, more, more_counts, .. } = it.case;
    let is_own = |sheet: &Sheet, counts: &[u32]| *sheet == done(sheet.figures, &counts[..it.all_counts()]);
    is_own(sheet, counts) && is_own(more, more_counts)
}

/// Whether there are numbers behind all counts of each run, and their sum would run over.
fn runs_over_behind(it: &Sum) -> bool {
    let behind = [&it.case.counts, &it.case.more_counts].map(|run| run.get(it.all_counts()).copied().unwrap_or(0));
    behind[0].checked_add(behind[1]).is_none()
}

/// Whether a pair of counts at this place among the three comes to just as much as 32 bits hold.
fn comes_to_most(it: &Sum, place: usize) -> bool {
    it.pairs().iter().skip(place).step_by(COUNTS).any(|&pair| is_most(pair))
}

/// Whether that is known of how often two leaders, one behind the other, are allowed in each sheet.
fn leaders_are(it: &Sum, known: fn(Pair, Pair) -> bool) -> bool {
    let times: Vec<Pair> = it.pairs().into_iter().step_by(COUNTS).collect();
    some(it, || it.leaders().windows(2).any(|two| known(times[two[0]], times[two[1]])))
}

pub const SITUATIONS: &[Situation] = &[
    ("V 0", |it| none(it, || it.case.sheet.figures[0] > 0 && it.case.more.figures[0] > 0)),
    ("V 0: no counts", |it| none(it, || it.over() == [0, 0])),
    ("V 0: counts, all of them kept", |it| none(it, || it.case.counts.iter().any(|&number| number != 0))),
    ("V 1", |it| it.is_done() && it.v() == 1),
    ("V 2", |it| it.is_done() && it.v() == 2),
    ("V 3", |it| it.is_done() && it.v() == 3),
    ("V over 3", |it| it.is_done() && it.v() > 3),
    ("two sheets of roles", |it| some(it, || are_of_roles(it))),
    ("two sheets of roles, five figures in each", |it| {
        some(it, || are_of_roles(it) && it.figures().iter().flatten().all(|&figure| figure > 0))
    }),
    ("two sheets of roles, each with its own leaders", |it| {
        some(it, || are_of_roles(it) && have_leaders(it))
    }),
    ("a sheet of roles and one of no role", |it| {
        some(it, || matches!(roles(it), [Some(one), Some(0)] if one > 0) && it.case.more.figures == [0; 5])
    }),
    ("a sheet of no role and one of roles", |it| {
        some(it, || matches!(roles(it), [Some(0), Some(more)] if more > 0) && it.case.sheet.figures == [0; 5])
    }),
    ("two sheets of no role", |it| some(it, || roles(it) == [Some(0); 2])),
    ("numbers that are of no roles", |it| some(it, || it.v() > 1 && roles(it) == [None; 2])),
    ("both runs just as long as they must be", |it| some(it, || it.over() == [0, 0])),
    ("the first run longer, numbers other than 0 kept behind", |it| {
        some(it, || it.over()[1] == 0 && it.case.counts[it.all_counts()..].iter().any(|&number| number != 0))
    }),
    ("the second run longer", |it| some(it, || it.over()[0] == 0 && it.over()[1] > 0)),
    ("both runs longer", |it| some(it, || it.over()[0] > 0 && it.over()[1] > 0)),
    ("both longer, and a sum that would run over behind", |it| some(it, || runs_over_behind(it))),
    ("an allowed count of 4,294,967,295", |it| some(it, || comes_to_most(it, 0))),
    ("a forbidden count of 4,294,967,295", |it| some(it, || comes_to_most(it, 1))),
    ("an unset count of 4,294,967,295", |it| some(it, || comes_to_most(it, 2))),
    ("clean: 4,294,967,295", |it| it.is_done() && is_most(it.figures()[0])),
    ("condition 1: 4,294,967,295", |it| it.is_done() && is_most(it.figures()[1])),
    ("condition 2: 4,294,967,295", |it| it.is_done() && is_most(it.figures()[2])),
    ("condition 3: 4,294,967,295", |it| it.is_done() && is_most(it.figures()[3])),
    ("refused: 4,294,967,295", |it| it.is_done() && is_most(it.figures()[4])),
    ("4,294,967,295 in one sheet, 0 in the other", |it| {
        some(it, || it.pairs().contains(&[u32::MAX, 0]) && it.pairs().contains(&[0, u32::MAX]))
    }),
    ("ten different figures", |it| {
        let mut figures: Vec<u32> = it.figures().into_iter().flatten().collect();
        figures.sort();
        figures.dedup();
        it.is_done() && figures.len() == 10
    }),
    ("a place other than 0 in the first sheet", |it| {
        it.is_done() && given(it, |_, sheet| sheet.place > 0)[0]
    }),
    ("a place other than 0 in the second sheet", |it| {
        it.is_done() && given(it, |_, sheet| sheet.place > 0)[1]
    }),
    ("other numbers of leaders than there are", |it| {
        some(it, || given(it, |it, sheet| sheet.leader_count != it.sheet.leader_count) == [true; 2])
    }),
    ("leaders that are no privileges in the first sheet", |it| {
        some(it, || given(it, |it, sheet| sheet.leaders.iter().any(|&leader| leader >= it.v()))[0])
    }),
    ("leaders that are no privileges in the second sheet", |it| {
        some(it, || given(it, |it, sheet| sheet.leaders.iter().any(|&leader| leader >= it.v()))[1])
    }),
    ("other leaders than either sheet has", |it| {
        some(it, || it.leaders_before().iter().all(|leaders| leaders != it.leaders()))
    }),
    ("a leader that neither sheet has", |it| {
        some(it, || it.leaders().iter().any(|leader| !it.leaders_before().concat().contains(leader)))
    }),
    ("the leaders of the first sheet, not of the second", |it| {
        let [one, more] = it.leaders_before();
        some(it, || one == it.leaders() && more != it.leaders())
    }),
    ("the leaders of the second sheet, not of the first", |it| {
        let [one, more] = it.leaders_before();
        some(it, || one != it.leaders() && more == it.leaders())
    }),
    ("two leaders equal by the sum alone", |it| {
        leaders_are(it, |one, other| one[0] + one[1] == other[0] + other[1] && one != other)
    }),
    ("two leaders equal in the first sheet alone", |it| {
        leaders_are(it, |one, other| one[0] == other[0] && one[1] > other[1])
    }),
    ("two leaders equal in the second sheet alone", |it| {
        leaders_are(it, |one, other| one[0] > other[0] && one[1] == other[1])
    }),
];
