// Cases of editing one mark (request 11): a table, marks and entries to begin with, and edits.

mod clicks;
mod entries;
mod faults;
mod large;

use super::bases::{refused_table_case, Base, OfTable};
use super::chance::Random;
use super::policies::policy;
use super::roles::table_of;
use super::schemas::{numbered, Schema};
use super::shapes::dress;
use super::sheets::small_schema;
use crate::edit_case::{Edit, EditCase};
use crate::editing::KEPT;
use crate::format::Format;
use crate::situations::edits::OfEdits;
use crate::table::{total, Table, Type, UNSET};
use clicks::edits;
use entries::{any_word, any_words, hide_first, right, spoil_entry};
use faults::spoil;
use large::large_case;

/// The most privileges and types of a table for more than forty edits, and for fewer.
const FOR_MANY: [usize; 2] = [6, 5];
const FOR_FEW: [usize; 2] = [18, 10];

/// How many edits: as a rule few.
fn edit_count(r: &mut Random) -> usize {
    match r.below(240) {
        0 => 200,
        1 => 100 + r.below(100),
        2..=9 => 10 + r.below(30),
        10..=13 => 0,
        14..=73 => 2 + r.below(5),
        _ => 1,
    }
}

/// Types of which one has two parents.
fn shared(r: &mut Random) -> Vec<Type> {
    let lists = match r.below(3) {
        0 => vec![vec![1, 2], vec![3], vec![3], vec![]],
        1 => vec![vec![1], vec![2, 3], vec![4], vec![4], vec![5], vec![]],
        _ => vec![vec![1, 2], vec![3, 4], vec![4, 5], vec![], vec![], vec![]],
    };
    dress(r, lists)
}

/// A schema with so many privileges and types at most.
fn schema_for(r: &mut Random, format: Format, [privileges, types]: [usize; 2]) -> Schema {
    loop {
        let schema = if r.one_in(4) {
            let types = shared(r);
            numbered(r, format, types)
        } else {
            small_schema(r, format, privileges)
        };
        if total(format, &schema.types) <= privileges && schema.types.len() <= types {
            return schema;
        }
    }
}

/// What a case is made of: a table, the marks and entries before the first edit, and the edits.
pub struct Editing {
    schema: Schema,
    table: Table,
    marks: Vec<u8>,
    entries: Vec<u16>,
    edits: Vec<Edit>,
}

/// The marks and the entries before the first edit: both fresh, any marks with right entries, with one wrong or two, with the first breach
/// hidden, with words by chance, with zeros, or with most of them wrong.
fn start(r: &mut Random, table: &Table) -> (Vec<u8>, Vec<u16>) {
    let all = KEPT * table.types.len();
    let way = r.below(10);
    let marks = if way < 4 { vec![UNSET; table.v()] } else { policy(r, table) };
    let mut entries = right(table, &marks);
    match way {
        0..=5 => (),
        6 => (0..r.pick(&[1, 1, 1, 2])).for_each(|_| spoil_entry(r, table, &mut entries)),
        7 => hide_first(r, table, &marks, &mut entries),
        8 => entries = any_words(r, table.v(), all),
        _ if r.one_in(3) => entries = vec![0; all],
        _ => (0..table.types.len()).for_each(|_| spoil_entry(r, table, &mut entries)),
    }
    (marks, entries)
}

impl Base for Editing {
    type Case = EditCase;

    type Aimed = OfEdits;

    const TURN: usize = 18;

    fn of(r: &mut Random, format: Format) -> Editing {
        let count = edit_count(r);
        let schema = schema_for(r, format, if count > 40 { FOR_MANY } else { FOR_FEW });
        let table = table_of(&schema);
        let (marks, entries) = start(r, &table);
        let edits = edits(r, &table, &marks, count);
        Editing { schema, table, marks, entries, edits }
    }

    /// With words behind the entries, or without.
    fn sound_case(&self, r: &mut Random) -> EditCase {
        let behind = r.pick(&[0, 0, 0, 1, 2, 5]);
        let mut kept = self.entries.clone();
        kept.extend((0..behind).map(|_| any_word(r, self.table.v())));
        EditCase { words: self.schema.words(), marks: self.marks.clone(), kept, edits: self.edits.clone() }
    }

    fn spoil(&self, r: &mut Random, case: &mut EditCase) {
        spoil(r, self, case);
    }

    /// With one edit, or two.
    fn refused_case(r: &mut Random, turn: usize) -> EditCase {
        let mut case = refused_table_case::<Editing>(r, turn);
        case.edits.resize(r.pick(&[1, 1, 1, 2]), Edit { privilege: 0, mark: UNSET });
        case
    }

    fn large_case(r: &mut Random, turn: usize) -> EditCase {
        large_case(r, turn)
    }
}

impl OfTable for Editing {
    fn schema(&self) -> &Schema {
        &self.schema
    }

    fn with_words(case: EditCase, words: Vec<u16>) -> EditCase {
        EditCase { words, ..case }
    }
}
