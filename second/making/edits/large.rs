// Cases with as many privileges, types or children as there may be.

use super::super::bases::FORMATS;
use super::super::chance::Random;
use super::super::policies::mixed;
use super::super::roles::table_of;
use super::super::schemas::Schema;
use super::super::shapes::{large, long_chain};
use super::super::sheets::large::full;
use super::entries::{any_words, right, spoil_entry};
use crate::edit_case::{Edit, EditCase};
use crate::editing::{above, KEPT};
use crate::format::Format;
use crate::table::{
    Table, ALLOWED, CHOICE, FORBIDDEN, MOST_ENTRIES, MOST_PRIVILEGES, MOST_TYPES, STAR, TEXT, UNSET,
};

/// How many words there is room for.
const ROOM: usize = 2048;

/// A chain of 256 types whose root is a star and whose last is a text, with numbers by chance.
fn chain(r: &mut Random, format: Format) -> Schema {
    let mut types = long_chain(r);
    types[0].kind = STAR;
    types[MOST_TYPES - 1].kind = TEXT;
    Schema::of(format, types).by_chance(r)
}

/// 256 types with 1,024 children and as many privileges as there may be, or nearly; the root is a choice.
fn widest(r: &mut Random, format: Format) -> Schema {
    loop {
        let types = large(r, format, MOST_PRIVILEGES);
        let entries: usize = types.iter().map(|it| it.children.len()).sum();
        if types.len() == MOST_TYPES && entries == MOST_ENTRIES && types[0].kind == CHOICE {
            return Schema::of(format, types).by_chance(r);
        }
    }
}

fn edit(privilege: usize, mark: u8) -> Edit {
    Edit { privilege: privilege as u32, mark }
}

fn any_edit(r: &mut Random, table: &Table) -> Edit {
    edit(r.below(table.v()), r.pick(&[UNSET, ALLOWED, FORBIDDEN]))
}

fn case_of(schema: &Schema, marks: Vec<u8>, kept: Vec<u16>, edits: Vec<Edit>) -> EditCase {
    EditCase { words: schema.words(), marks, kept, edits }
}

/// From fresh: the last privilege is forbidden, and then another, or the last one again otherwise.
fn fresh_case(r: &mut Random, schema: &Schema) -> EditCase {
    let table = table_of(schema);
    let last = table.v() - 1;
    let lower = last - 1 - r.below(last / 2);
    let other = r.pick(&[edit(lower, FORBIDDEN), edit(last, UNSET)]);
    let kept = vec![0; KEPT * table.types.len()];
    case_of(schema, vec![UNSET; table.v()], kept, vec![edit(last, FORBIDDEN), other])
}

/// Of some privileges the one that the most types are above.
fn deep(r: &mut Random, table: &Table) -> usize {
    let some: Vec<usize> = (0..16).map(|_| r.below(table.v())).collect();
    some.into_iter().max_by_key(|&privilege| above(table, privilege).len()).expect("a privilege")
}

/// Marks in these shares with right entries, and so many edits.
fn right_case(r: &mut Random, schema: &Schema, mix: [usize; 3], count: usize) -> EditCase {
    let table = table_of(schema);
    let marks = mixed(r, table.v(), mix);
    let edits = (0..count).map(|_| any_edit(r, &table)).collect();
    let kept = right(&table, &marks);
    case_of(schema, marks, kept, edits)
}

/// Few marks are set; an edit deep down, and any other.
fn deep_case(r: &mut Random, schema: &Schema) -> EditCase {
    let mut case = right_case(r, schema, [40, 1, 1], 2);
    case.edits[0] = edit(deep(r, &table_of(schema)), FORBIDDEN);
    case
}

/// Nothing allowed but what is the root's own, so that a breach is there by what is below its children.
fn root_allowed(r: &mut Random, schema: &Schema, table: &Table, mix: [usize; 3]) -> Vec<u8> {
    let mut marks = mixed(r, table.v(), mix);
    for privilege in (0..table.v()).filter(|&privilege| table.owner[privilege] == schema.root) {
        marks[privilege] = ALLOWED;
    }
    marks
}

/// The first of the root's own is allowed too, while some entries are wrong, or all words by chance.
fn wrong_case(r: &mut Random, schema: &Schema, mix: [usize; 3], by_chance: bool) -> EditCase {
    let table = table_of(schema);
    let mut marks = root_allowed(r, schema, &table, mix);
    let own = table.first[schema.root];
    marks[own] = UNSET;
    let mut kept = right(&table, &marks);
    if by_chance {
        kept = any_words(r, table.v(), kept.len());
    } else {
        (0..24).for_each(|_| spoil_entry(r, &table, &mut kept));
    }
    for &child in &table.types[schema.root].children {
        kept[KEPT * child + 1] = 65_535;
    }
    case_of(schema, marks, kept, vec![edit(own, ALLOWED)])
}

/// Nearly everything forbidden below the root, whose children are reached from themselves.
fn broken_case(r: &mut Random, schema: &Schema) -> EditCase {
    let table = table_of(schema);
    let marks = root_allowed(r, schema, &table, [1, 0, 30]);
    let kept = right(&table, &marks);
    let edits = vec![edit(r.below(table.v()), FORBIDDEN)];
    case_of(schema, marks, kept, edits)
}

/// All privileges forbidden but one, which is edited.
fn counted_case(r: &mut Random, schema: &Schema) -> EditCase {
    let table = table_of(schema);
    let mut marks = vec![FORBIDDEN; table.v()];
    let one = r.below(table.v());
    marks[one] = UNSET;
    let kept = right(&table, &marks);
    case_of(schema, marks, kept, vec![edit(one, FORBIDDEN)])
}

/// 256 forbidden privileges, the highest ones, of which one is unset and another allowed.
fn high_case(r: &mut Random, schema: &Schema) -> EditCase {
    let table = table_of(schema);
    let (v, high) = (table.v(), table.v() - 256);
    let mut marks = mixed(r, v, [1, 8, 0]);
    marks[high..].fill(FORBIDDEN);
    let kept = right(&table, &marks);
    case_of(schema, marks, kept, vec![edit(high, UNSET), edit(high + 1 + r.below(255), ALLOWED)])
}

/// Nothing is forbidden at first; edits at the last of the chain, at the root, and at the last again.
fn chain_case(r: &mut Random, schema: &Schema) -> EditCase {
    let table = table_of(schema);
    let leaf = table.types.iter().position(|it| it.children.is_empty()).expect("a last type");
    let (last, root) = (table.first[leaf], table.first[schema.root]);
    let mut marks = mixed(r, table.v(), [1, 1, 0]);
    marks[root] = ALLOWED;
    let kept = right(&table, &marks);
    let mark = r.pick(&[UNSET, ALLOWED, FORBIDDEN]);
    case_of(schema, marks, kept, vec![edit(last, FORBIDDEN), edit(root + 1, ALLOWED), edit(last, mark)])
}

/// Refused: a privilege over the last, a mark above 2 in the edit or in the marks.
fn refused_case(r: &mut Random, schema: &Schema, way: usize) -> EditCase {
    let mut case = right_case(r, schema, [1, 1, 1], 1);
    let last = case.marks.len() - 1;
    match way {
        0 => case.edits = vec![edit(MOST_PRIVILEGES, FORBIDDEN)],
        1 => case.edits = vec![edit(last, 3)],
        _ => case.marks[last] = 3,
    }
    case
}

/// A run one word short, or one as long as there is room for.
fn long_case(r: &mut Random, schema: &Schema, is_short: bool) -> EditCase {
    let mut case = right_case(r, schema, [40, 1, 1], 1);
    if is_short {
        case.kept.pop();
    } else {
        let behind = any_words(r, 9, ROOM - case.kept.len());
        case.kept.extend(behind);
    }
    case
}

/// In turn for 4,096 privileges: from fresh, with right entries, with wrong ones, with counts of 4,096 and of 256; for a chain of 256 types, with
/// right entries and with wrong ones; for 256 types with 1,024 children, the same; for kept runs of 256 types that are short or long; and for
/// 4,096 privileges with many forbidden below a breach and with each of three refusals.
pub fn large_case(r: &mut Random, turn: usize) -> EditCase {
    let (way, round) = (turn % 15, turn / 15);
    let format = FORMATS[round % 2];
    let schema = match way {
        0..=4 | 11..=14 => full(r, format),
        5 | 6 | 10 => chain(r, format),
        _ => widest(r, format),
    };
    match way {
        0 => fresh_case(r, &schema),
        1 => right_case(r, &schema, [1, 1, 1], 2),
        2 => wrong_case(r, &schema, [1, 0, 2], round % 2 == 1),
        3 => counted_case(r, &schema),
        4 => high_case(r, &schema),
        5 => chain_case(r, &schema),
        6 => wrong_case(r, &schema, [1, 0, 2], round % 2 == 0),
        7 => deep_case(r, &schema),
        8 => wrong_case(r, &schema, [40, 0, 1], round % 2 == 1),
        9 | 10 => long_case(r, &schema, way == 9),
        11 => broken_case(r, &schema),
        _ => refused_case(r, &schema, way - 12),
    }
}
