// Situations of the privileges that are allowed in most roles (request 12), of a sheet that is counted and of one that is added.

use crate::sheet::{ranked, COUNTS, MOST_LEADERS};

/// All privileges, ranked, and how often each of them is allowed, in that order.
pub struct Leading {
    ranked: Vec<usize>,
    times: Vec<u32>,
}

/// A situation of such privileges: its name, and whether they are in it.
type Situation = (&'static str, fn(&Leading) -> bool);

impl Leading {
    /// Of the counts of all privileges.
    pub fn of(counts: &[u32]) -> Leading {
        let ranked = ranked(counts);
        let times = ranked.iter().map(|&privilege| counts[COUNTS * privilege]).collect();
        Leading { ranked, times }
    }

    pub fn leaders(&self) -> &[usize] {
        &self.ranked[..self.ranked.len().min(MOST_LEADERS)]
    }

    /// How often the first four are allowed, where there are so many.
    fn four(&self, known: impl Fn([u32; 4]) -> bool) -> bool {
        self.times.len() > 3 && known([0, 1, 2, 3].map(|k| self.times[k]))
    }

    /// Whether the last of at least four privileges has this rank, and is allowed somewhere.
    fn has_last_at(&self, rank: usize) -> bool {
        self.four(|times| times[rank] > 0) && self.ranked[rank] + 1 == self.ranked.len()
    }
}

const SITUATIONS: &[Situation] = &[
    ("V 1, the leader allowed", |it| it.times.len() == 1 && it.times[0] > 0),
    ("V 2, the second privilege first", |it| it.ranked == [1, 0]),
    ("V 3, the third privilege first", |it| it.times.len() == 3 && it.ranked[0] == 2),
    ("four different leaders, the last one left out", |it| it.four(|[a, b, c, d]| a > b && b > c && c > d)),
    ("the first two leaders equal", |it| it.four(|[a, b, c, _]| a == b && b > c)),
    ("the last two leaders equal", |it| it.four(|[a, b, c, d]| a > b && b == c && c > d)),
    ("all three leaders equal", |it| it.four(|[a, b, c, d]| a == b && b == c && c > d)),
    ("the third leader and a fourth privilege equal", |it| it.four(|[_, b, c, d]| b > c && c == d && d > 0)),
    ("four privileges equal, another behind them", |it| {
        it.four(|[a, b, c, d]| a == b && b == c && c == d) && it.times.last() < it.times.first()
    }),
    ("all privileges equal", |it| it.four(|[a, _, _, _]| a > 0 && it.times.last() == Some(&a))),
    ("no privilege allowed", |it| it.four(|[a, _, _, _]| a == 0)),
    ("one privilege allowed alone", |it| it.four(|[a, b, _, _]| a > 0 && b == 0)),
    ("leaders in ascending order, not from 0", |it| {
        it.four(|_| it.ranked[0] > 0 && it.leaders().is_sorted())
    }),
    ("leaders not in ascending order", |it| it.four(|_| !it.leaders().is_sorted())),
    ("leaders in descending order", |it| {
        it.four(|_| it.leaders().is_sorted_by_key(|&leader| -(leader as isize)))
    }),
    ("the last privilege first", |it| it.has_last_at(0)),
    ("the last privilege second", |it| it.has_last_at(1)),
    ("the last privilege third", |it| it.has_last_at(2)),
    ("the last privilege fourth", |it| it.has_last_at(3)),
];

pub fn names() -> Vec<&'static str> {
    SITUATIONS.iter().map(|situation| situation.0).collect()
}

/// Those that they are in, where there are any.
pub fn found(leading: &Option<Leading>) -> Vec<&'static str> {
    let holds = |known: fn(&Leading) -> bool| leading.as_ref().map_or(false, known);
    SITUATIONS.iter().filter(|situation| holds(situation.1)).map(|situation| situation.0).collect()
}
