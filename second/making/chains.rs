// Cases made for a chain (request 6): a choice whose positions lie in layers, so that the way from i to j cannot be shorter.

use super::chance::Random;
use super::policies::{lent, mixed, proposal};
use super::schemas::{numbered, Schema};
use super::shapes::wide_of;
use crate::format::Format;
use crate::policy_case::PolicyCase;
use crate::situations::is_in;
use crate::table::{check_table, Table, ALLOWED, CHOICE, FORBIDDEN, MOST_CHILDREN, UNSET};

/// The situations that chance seldom gives, of both formats; and the one that only format 2 has.
const AIMS: [&str; 8] = [
    "condition 2: a chain of 16",
    "condition 3: a chain of 4",
    "condition 3: a chain of 5 or more",
    "condition 3: a chain of 17",
    "an equally short chain, higher at a later step",
    "an equally short chain, lower at the last difference",
    "proposing: 16 with a chain of 9 or more",
    "proposing: 16 with a chain of 17",
];
const AIM_OF_TWO: &str = "condition 2: a chain of 17, from i to i";

fn aims(format: Format) -> Vec<&'static str> {
    let own = [AIM_OF_TWO].into_iter().filter(|_| format == Format::Two);
    AIMS.into_iter().chain(own).collect()
}

/// A way through some positions of a choice, and the layer of each position.
struct Layers {
    way: Vec<usize>,
    layer: Vec<usize>,
}

impl Layers {
    /// The way has so many positions, and if it is closed it ends where it began. The others lie beside it, none beside its ends.
    fn of(r: &mut Random, n: usize, length: usize, closed: bool) -> Layers {
        let mut way: Vec<usize> = (0..n).collect();
        r.shuffle(&mut way);
        let others = way.split_off(length - closed as usize);
        if closed {
            way.push(way[0]);
        }
        let mut layer = vec![0; n];
        way.iter().enumerate().for_each(|(k, &position)| layer[position] = k);
        others.iter().for_each(|&position| layer[position] = 1 + r.below(length - 2));
        Layers { way, layer }
    }

    fn ends(&self) -> (usize, usize) {
        (self.way[0], self.way[self.way.len() - 1])
    }

    fn is_on_way(&self, a: usize, b: usize) -> bool {
        self.way.windows(2).any(|two| two == [a, b])
    }

    /// The mark of a replacement of a by b: allowed on the way, sometimes to the next layer and seldom to the same or an earlier one; never
    /// past the next.
    fn mark(&self, r: &mut Random, a: usize, b: usize) -> u8 {
        let from = if a == self.way[0] { 0 } else { self.layer[a] };
        let to = self.layer[b];
        match to {
            _ if self.is_on_way(a, b) => ALLOWED,
            _ if to == from + 1 => r.pick(&[UNSET, ALLOWED]),
            _ if to <= from => r.pick(&[UNSET, UNSET, UNSET, UNSET, ALLOWED]),
            _ if (a, b) > self.ends() => r.pick(&[UNSET, UNSET, UNSET, FORBIDDEN]),
            _ => UNSET,
        }
    }
}

/// Forbids replacing i by j, or, where they are the same, something below i; what of both is there.
fn forbid(r: &mut Random, table: &Table, choice: usize, (i, j): (usize, usize), marks: &mut [u8]) {
    let below = &table.below[table.types[choice].children[i]];
    let own = Some(table.replacement(choice, i, j)).filter(|_| table.format.is_replaceable(i, j));
    let other = below.first().copied().filter(|_| i == j);
    let both: Vec<usize> = own.into_iter().chain(other).collect();
    if !both.is_empty() {
        marks[r.pick(&both)] = FORBIDDEN;
    }
}

/// A choice of n kinds, by how it is made: the one with the most children.
fn widest(table: &Table) -> usize {
    let choices = (0..table.types.len()).filter(|&t| table.types[t].kind == CHOICE);
    choices.max_by_key(|&t| table.types[t].children.len()).expect("a choice")
}

fn marks(r: &mut Random, table: &Table) -> Vec<u8> {
    let choice = widest(table);
    let n = table.types[choice].children.len();
    let closed = r.one_in(2);
    let most = n + closed as usize;
    let any = 3 + r.below(most - 2);
    let length = r.pick(&[most, any]);
    let layers = Layers::of(r, n, length, closed);
    let mix = r.pick(&[[1, 0, 0], [4, 1, 0], [12, 1, 1]]);
    let mut marks = mixed(r, table.v(), mix);
    for a in 0..n {
        for b in (0..n).filter(|&b| table.format.is_replaceable(a, b)) {
            marks[table.replacement(choice, a, b)] = layers.mark(r, a, b);
        }
    }
    forbid(r, table, choice, layers.ends(), &mut marks);
    marks
}

fn schema_of(r: &mut Random, format: Format) -> Schema {
    let n = r.pick(&[3, 5, 7, 10, MOST_CHILDREN, MOST_CHILDREN]);
    let types = wide_of(r, n);
    numbered(r, format, types)
}

/// Made for the situation whose turn it is.
pub fn case(r: &mut Random, format: Format, turn: usize) -> PolicyCase {
    let aims = aims(format);
    loop {
        let words = schema_of(r, format).words();
        let table = check_table(&words).expect("a shape is accepted in every numbering");
        let marks = marks(r, &table);
        let proposed = proposal(r, &table, &marks);
        let out = lent(r, table.v());
        let case = PolicyCase { words, marks, out, proposed };
        if is_in(&case, aims[turn % aims.len()]) {
            return case;
        }
    }
}
