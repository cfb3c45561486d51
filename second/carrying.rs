// Keeping the marks when the schema moves (request 1 of document 02): which edit of the new table an edit of the old one is, and the call
// `carry_marks`.

use crate::answers::{refuse_at, refuse_if, Answer, Outcome};
use crate::conditions::check_policy;
use crate::format::Format;
use crate::table::{check_table, Table, CHOICE, STAR, TEXT, UNSET};

/// Stands in the list of new numbers for a type that is gone.
pub const GONE: u16 = 65_535;

/// What is added to the numbers of the new table's refusals.
pub const RAISED: usize = 100;

#[derive(Clone, Copy, Debug, PartialEq)]
pub enum Kind {
    Text,
    Insert,
    Delete,
    Replace,
}

/// An edit: its kind, its type, and the children that it names in their order.
#[derive(Clone, Debug, PartialEq)]
pub struct Edit {
    pub kind: Kind,
    pub of: usize,
    pub children: Vec<usize>,
}

impl Edit {
    /// The same edit where each type that it names has its new number; none if one of them is gone.
    fn moved(&self, new_numbers: &[u16]) -> Option<Edit> {
        let moved = |&t: &usize| Some(new_numbers[t]).filter(|&number| number != GONE).map(usize::from);
        let children: Option<Vec<usize>> = self.children.iter().map(moved).collect();
        Some(Edit { kind: self.kind, of: moved(&self.of)?, children: children? })
    }
}

/// Insert and delete name the child, and so does, twice, the replacement by another of its kind.
fn edits_of_star(format: Format, child: usize) -> Vec<(Kind, Vec<usize>)> {
    let mut edits = vec![(Kind::Insert, vec![child]), (Kind::Delete, vec![child])];
    if format == Format::Two {
        edits.push((Kind::Replace, vec![child, child]));
    }
    edits
}

/// A replacement names the kind that is replaced and the kind that it is replaced by.
fn edits_of_choice(format: Format, children: &[usize]) -> Vec<(Kind, Vec<usize>)> {
    let pairs = children.iter().flat_map(|&from| children.iter().map(move |&to| (from, to)));
    let replaced = pairs.filter(|(from, to)| from != to || format == Format::Two);
    replaced.map(|(from, to)| (Kind::Replace, vec![from, to])).collect()
}

/// The edits of a table's privileges, in their order.
pub fn edits(table: &Table) -> Vec<Edit> {
    let mut all = Vec::new();
    for (of, it) in table.types.iter().enumerate() {
        let own = match it.kind {
            TEXT => vec![(Kind::Text, Vec::new())],
            STAR => edits_of_star(table.format, it.children[0]),
            CHOICE => edits_of_choice(table.format, &it.children),
            _ => Vec::new(),
        };
        all.extend(own.into_iter().map(|(kind, children)| Edit { kind, of, children }));
    }
    all
}

/// For each old privilege the new one that corresponds to it, if there is one.
pub fn homes(old: &Table, new: &Table, new_numbers: &[u16]) -> Vec<Option<usize>> {
    let all = edits(new);
    let home = |edit: Edit| all.iter().position(|other| *other == edit);
    edits(old).iter().map(|edit| edit.moved(new_numbers).and_then(home)).collect()
}

/// Whether the number of an old type is neither 65,535 nor below the new E, or is another number that an earlier type has.
fn is_misfit(new_numbers: &[u16], old_type: usize, new_e: usize) -> bool {
    let number = new_numbers[old_type];
    let is_used = new_numbers[..old_type].contains(&number);
    number != GONE && (number as usize >= new_e || is_used)
}

/// The new table's numbers, raised.
fn check_new_table(words: &[u16]) -> Result<Table, Answer> {
    let raised = |refusal: Answer| Answer { number: refusal.number + RAISED, ..refusal };
    check_table(words).map_err(raised)
}

pub fn carry_marks(
    old_words: &[u16],
    old_marks: &[u8],
    new_words: &[u16],
    new_numbers: &[u16],
    out: &mut [u8],
    lost: &mut [u8],
) -> Outcome {
    let old = check_policy(old_words, old_marks)?;
    let new = check_new_table(new_words)?;
    let old_types = old.types.len();
    refuse_if(17, new_numbers.len() != old_types)?;
    refuse_at(18, (0..old_types).find(|&t| is_misfit(new_numbers, t, new.types.len())))?;
    refuse_if(12, out.len() < new.v() || lost.len() < old.v())?;
    let homes = homes(&old, &new, new_numbers);
    for (privilege, mark) in out[..new.v()].iter_mut().enumerate() {
        let old_privilege = homes.iter().position(|&home| home == Some(privilege));
        *mark = old_privilege.map_or(UNSET, |old_privilege| old_marks[old_privilege]);
    }
    for (privilege, byte) in lost[..old.v()].iter_mut().enumerate() {
        *byte = (old_marks[privilege] != UNSET && homes[privilege].is_none()) as u8;
    }
    Ok(Answer::default())
}
