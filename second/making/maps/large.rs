// Cases whose maps have 512 bytes: V is 4,089 to 4,096.

use crate::conditions::first_breach;
use crate::format::Format;
use crate::making::chance::Random;
use crate::making::policies::mixed;
use crate::making::schemas::Schema;
use crate::making::shapes::{dress_as, full_ladder, ladder};
use crate::maps::put_bit;
use crate::maps_case::{Maps, MapsCase};
use crate::mending::mended;
use crate::table::{
    check_table, Table, Type, ALLOWED, CHOICE, EMPTY, FORBIDDEN, MOST_CHILDREN, STAR, TEXT, UNSET,
};

/// Choices of 16, one below the other, over 16 leaves, of which the last so many are texts: V is 4,080 and as many.
fn large_one(r: &mut Random, texts: usize) -> Vec<Type> {
    let mut types = dress_as(r, ladder(17, MOST_CHILDREN), 0..17, CHOICE);
    let first = types.len() - texts;
    types[17..first].iter_mut().for_each(|it| it.kind = EMPTY);
    types[first..].iter_mut().for_each(|it| it.kind = TEXT);
    types
}

/// Sixteen choices, of 16 but the last of 15, over eight stars of the last leaf and other leaves, of which the last so many are texts: V is
/// 4,089 and as many.
fn large_two(r: &mut Random, texts: usize) -> Vec<Type> {
    let mut types = dress_as(r, ladder(16, MOST_CHILDREN), 0..16, CHOICE);
    let last = types.len() - 1;
    types[15].children.retain(|&child| child != 16);
    types[16..24].iter_mut().for_each(|it| *it = Type { kind: STAR, children: vec![last] });
    types[24..].iter_mut().for_each(|it| it.kind = EMPTY);
    types[last + 1 - texts..].iter_mut().for_each(|it| it.kind = TEXT);
    types
}

/// V is 4,096, or 4,089 to 4,095.
fn large_schema(r: &mut Random, format: Format, is_full: bool) -> Schema {
    let some = r.below(7);
    let types = match format {
        Format::One => large_one(r, if is_full { 16 } else { 9 + some }),
        Format::Two if is_full => full_ladder(r, format),
        Format::Two => large_two(r, some),
    };
    Schema::of(format, types).by_chance(r)
}

/// Few marks, so that few have to be mended.
fn broken(r: &mut Random, table: &Table) -> Vec<u8> {
    loop {
        let marks = mixed(r, table.v(), [60, 1, 1]);
        if first_breach(table, &marks).is_some() {
            return marks;
        }
    }
}

/// A privilege over 255 that has this mark.
fn high(r: &mut Random, marks: &[u8], mark: u8) -> usize {
    let own: Vec<usize> = (256..marks.len()).filter(|&privilege| marks[privilege] == mark).collect();
    r.pick(&own)
}

/// A proposed mend with one more privilege set.
fn one_more(r: &mut Random, marks: &[u8]) -> Vec<u8> {
    let mut proposed = marks.to_vec();
    proposed[high(r, marks, UNSET)] = r.pick(&[ALLOWED, FORBIDDEN]);
    proposed
}

/// A result just as long as it must be, or one byte longer.
fn lent(r: &mut Random, length: usize) -> Vec<u8> {
    (0..length + r.below(2)).map(|_| r.next() as u8).collect()
}

/// A policy with a breach and its mend, or one with nothing forbidden and one more privilege set.
fn marks(r: &mut Random, table: &Table, is_broken: bool) -> [Vec<u8>; 2] {
    if is_broken {
        let marks = broken(r, table);
        let after = mended(table, &marks).1;
        return [marks, after];
    }
    let marks = mixed(r, table.v(), [20, 1, 0]);
    let proposed = one_more(r, &marks);
    [marks, proposed]
}

/// In turn for a completion and for a mend, each of 4,096 privileges and of fewer, for 23 and for 24.
pub fn large_case(r: &mut Random, format: Format, turn: usize) -> MapsCase {
    let way = turn % 6;
    let schema = large_schema(r, format, [0, 2, 4].contains(&way));
    let table = check_table(&schema.words()).expect("a shape is accepted in every numbering");
    let [marks, proposed] = marks(r, &table, [2, 3].contains(&way));
    let mut own = Maps::of(&marks);
    match way {
        4 => put_bit(&mut own.forbidden, high(r, &marks, ALLOWED), true),
        5 => put_bit(&mut own.forbidden, table.v(), true),
        _ => (),
    }
    let out = Maps { allowed: lent(r, own.allowed.len()), forbidden: lent(r, own.forbidden.len()) };
    MapsCase { words: schema.words(), own, out, proposed: Maps::of(&proposed) }
}
