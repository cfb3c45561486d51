// Cases of the monthly sheet (request 12).

mod faults;
pub mod large;

use super::bases::{refused_table_case, Base, OfTable};
use super::chance::Random;
use super::files::bare;
use super::policies::{mixed, policy};
use super::roles::{bend, clean, table_of, to_be_refused};
use super::schemas::{numbered, Schema};
use super::shapes::{dress, usual_shape};
use crate::format::Format;
use crate::sheet::{breaks, COUNTS};
use crate::sheet_case::SheetCase;
use crate::situations::sheets::OfSheets;
use crate::table::{total, Table, Type, CHOICE, SEQUENCE, STAR};
use faults::spoil;
use large::large_case;

/// How many roles: as a rule few.
fn role_count(r: &mut Random) -> usize {
    let many = 257 + r.below(40);
    r.pick(&[0, 1, 1, 2, 2, 2, 3, 3, 4, 5, 6, 8, 40, many])
}

/// How many roles without a privilege, which have no marks.
fn any_count(r: &mut Random) -> u32 {
    let (few, any) = (1 + r.below(40) as u32, r.next() as u32);
    r.pick(&[0, 1, few, 65_535, 65_536, 65_537, 1 << 31, u32::MAX, any])
}

/// The most privileges of a table for so many roles.
fn most_privileges(count: usize) -> usize {
    match count {
        0..=4 => 18,
        5..=8 => 12,
        9..=40 => 6,
        _ => 3,
    }
}

/// Small types whose roles can break each condition: a star of a text; a star over a text and a choice of three kinds; or a choice of three
/// kinds, one of them a star.
fn breakable(r: &mut Random) -> Vec<Type> {
    let lists = match r.below(3) {
        0 => vec![vec![1], vec![]],
        1 => vec![vec![1], vec![2, 3], vec![], vec![4, 5, 6], vec![], vec![], vec![]],
        _ => vec![vec![1, 2, 3], vec![4], vec![], vec![], vec![]],
    };
    let mut types = dress(r, lists);
    for it in types.iter_mut().filter(|it| !it.children.is_empty()) {
        it.kind = [STAR, SEQUENCE, CHOICE][it.children.len() - 1];
    }
    types
}

/// A schema with so many privileges at most.
pub fn small_schema(r: &mut Random, format: Format, most: usize) -> Schema {
    loop {
        let types = if r.one_in(3) { breakable(r) } else { usual_shape(r, format) };
        let types = if r.one_in(12) { bare(types) } else { types };
        if total(format, &types) <= most && types.len() <= 10 {
            return numbered(r, format, types);
        }
    }
}

/// A role that breaks so many of the three conditions, if chance soon gives one.
fn broken(r: &mut Random, table: &Table, wanted: usize) -> Vec<u8> {
    let count = |role: &[u8]| [1, 2, 3].iter().filter(|&&condition| breaks(table, role, condition)).count();
    let mut marks = policy(r, table);
    for _ in 0..8 {
        if count(&marks) != wanted {
            marks = policy(r, table);
        }
    }
    marks
}

/// How the roles of a case are made that are counted.
#[derive(Clone, Copy)]
enum Way {
    Clean,
    /// With so many conditions broken.
    Broken(usize),
    Any,
    /// With so many in turn unset, allowed, forbidden.
    Mixed([usize; 3]),
}

const WAYS: [Way; 10] = [
    Way::Clean,
    Way::Broken(1),
    Way::Broken(1),
    Way::Broken(2),
    Way::Broken(3),
    Way::Any,
    Way::Mixed([8, 1, 0]),
    Way::Mixed([1, 0, 1]),
    Way::Mixed([1, 1, 1]),
    Way::Mixed([0, 1, 0]),
];

fn role(r: &mut Random, table: &Table, way: Way) -> Vec<u8> {
    match way {
        Way::Clean => clean(r, table),
        Way::Broken(wanted) => broken(r, table, wanted),
        Way::Any => policy(r, table),
        Way::Mixed(mix) => mixed(r, table.v(), mix),
    }
}

/// So many roles: all the same, all made in one way, or each in another; of more than twelve the others are some of these again.
fn counted(r: &mut Random, table: &Table, count: usize) -> Vec<Vec<u8>> {
    let (way, alike) = (r.pick(&WAYS), r.below(8));
    let mut roles = Vec::new();
    while roles.len() < count.min(if alike == 0 { 1 } else { 12 }) {
        let way = if alike < 4 { way } else { r.pick(&WAYS) };
        roles.push(role(r, table, way));
    }
    let made = roles.len();
    while roles.len() < count {
        roles.push(roles[r.below(made)].clone());
    }
    roles
}

/// So many roles, some of them refused.
pub fn roles(r: &mut Random, table: &Table, count: usize) -> Vec<Vec<u8>> {
    let (mut roles, refused) = (counted(r, table, count), to_be_refused(r, count));
    for (marks, _) in roles.iter_mut().zip(refused).filter(|role| role.1) {
        (0..r.pick(&[1, 1, 2, 3])).for_each(|_| bend(r, marks));
    }
    roles
}

/// What stands in counts as lent.
fn numbers(r: &mut Random, length: usize) -> Vec<u32> {
    let number = |_| {
        let any = r.next() as u32;
        r.pick(&[0, 1, any, u32::MAX])
    };
    (0..length).map(number).collect()
}

/// By how many numbers counts are longer than they must be: as a rule by none.
pub fn longer(r: &mut Random) -> usize {
    r.below(8).saturating_sub(4)
}

/// What a case is made of: a table, and the marks of some roles.
pub struct Month {
    schema: Schema,
    v: usize,
    roles: u32,
    marks: Vec<u8>,
}

impl Base for Month {
    type Case = SheetCase;

    type Aimed = OfSheets;

    const TURN: usize = 23;

    fn of(r: &mut Random, format: Format) -> Month {
        let count = role_count(r);
        let schema = small_schema(r, format, most_privileges(count));
        let table = table_of(&schema);
        if table.v() == 0 {
            return Month { schema, v: 0, roles: any_count(r), marks: Vec::new() };
        }
        let marks = roles(r, &table, count).concat();
        Month { schema, v: table.v(), roles: count as u32, marks }
    }

    /// With counts as lent: as a rule just as long as they must be, and sometimes longer.
    fn sound_case(&self, r: &mut Random) -> SheetCase {
        let length = COUNTS * self.v + longer(r);
        let counts = numbers(r, length);
        SheetCase { words: self.schema.words(), roles: self.roles, marks: self.marks.clone(), counts }
    }

    fn spoil(&self, r: &mut Random, case: &mut SheetCase) {
        spoil(r, self, case);
    }

    fn refused_case(r: &mut Random, turn: usize) -> SheetCase {
        refused_table_case::<Month>(r, turn)
    }

    fn large_case(r: &mut Random, turn: usize) -> SheetCase {
        large_case(r, turn)
    }
}

impl OfTable for Month {
    fn schema(&self) -> &Schema {
        &self.schema
    }

    fn with_words(case: SheetCase, words: Vec<u16>) -> SheetCase {
        SheetCase { words, ..case }
    }
}
