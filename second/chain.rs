// The chain of a breach (request 6 of document 02): the steps of conditions 2 and 3 themselves.

use crate::table::{Table, MOST_CHILDREN};

/// As many positions as a way through all of them has that ends where it began.
pub const MOST_POSITIONS: usize = MOST_CHILDREN + 1;

/// How many positions the chain has, both ends among them; these, and 0 in the places behind them.
#[derive(Clone, Copy, Debug, Default, PartialEq)]
pub struct Chain {
    pub length: usize,
    pub places: [u8; MOST_POSITIONS],
}

impl Chain {
    pub fn of(positions: &[usize]) -> Chain {
        let mut places = [0; MOST_POSITIONS];
        places.iter_mut().zip(positions).for_each(|(place, &position)| *place = position as u8);
        Chain { length: positions.len(), places }
    }

    pub fn positions(&self) -> &[u8] {
        &self.places[..self.length]
    }
}

/// Ways in ascending order, each with one step more. Of those with the same end only the first is kept: what can follow is the
/// same, so that it stays the lowest.
fn longer(table: &Table, marks: &[u8], choice: usize, ways: &[Vec<usize>]) -> Vec<Vec<usize>> {
    let mut found: Vec<Vec<usize>> = Vec::new();
    for way in ways {
        for k in 0..table.types[choice].children.len() {
            let is_new = found.iter().all(|other| !ends_at(other, k));
            if is_new && way.last().map_or(false, |&end| table.allows(marks, choice, end, k)) {
                found.push([&way[..], &[k]].concat());
            }
        }
    }
    found
}

fn ends_at(way: &[usize], j: usize) -> bool {
    way.last() == Some(&j)
}

/// The fewest allowed replacements from i to j, which is reached from i; of equally few the lowest at the first difference.
pub fn chain(table: &Table, marks: &[u8], choice: usize, i: usize, j: usize) -> Chain {
    let mut ways = vec![vec![i]];
    loop {
        ways = longer(table, marks, choice, &ways);
        if let Some(way) = ways.iter().find(|way| ends_at(way, j)) {
            return Chain::of(way);
        }
    }
}
