//! Safe calls of Finnedscarf, the proved policy checker: checks a schema table, reads one from DTD text, judges a policy of edits on it,
//! completes the policy, or those of all roles of a show at once, mends it, judges a mend that somebody proposes, carries its marks over when
//! the schema is revised, counts the roles of a month on a [`Sheet`], adds two of these, writes and reads a policy as a listing that people can
//! mail, and edits one mark of a policy without going over it all again ([`Editor`]). Judging, completing and mending one policy and judging a mend
//! are there as well for one that is kept as two bit maps ([`Maps`]).
//!
//! `words` is the schema table and `marks` the policy, one byte for each of its V privileges: [`UNSET`], [`ALLOWED`] or [`FORBIDDEN`].
//! `include/finnedscarf.h` has the layout of the table, the table of a DTD text, the numbers of the privileges and the lines of a listing. Word 0
//! of a table is its format, 1 or 2; in format 2 there are privileges to replace an element by another of its own kind too. Every call takes every
//! input: what is no table, no DTD text, no policy or no listing is a [`Refusal`], and a refused call leaves everything that it was lent as it was.
//! No call allocates, and none keeps anything; what an [`Editor`] keeps from click to click is its own.
//!
//! ```
//! use finnedscarf::{judge_policy, ALLOWED, FORBIDDEN, UNSET};
//!
//! // a star whose child is a text; its privileges are insert, delete, and change the text
//! let words = [1, 15, 2, 0, 8, 1, 14, 3, 4, 1, 0, 1, 0, 1, 1];
//! let breach = judge_policy(&words, &[ALLOWED, ALLOWED, FORBIDDEN])?.expect("delete and insert change the text");
//! assert_eq!((breach.element, breach.privilege, breach.forbidden), (0, 2, 1));
//!
//! // the same in format 2; the privileges are insert, delete, replace a child by another of its kind, and change the text
//! let words = [2, 15, 2, 0, 8, 1, 14, 4, 4, 1, 0, 1, 0, 1, 1];
//! let breach = judge_policy(&words, &[FORBIDDEN, FORBIDDEN, ALLOWED, FORBIDDEN])?.expect("replace changes the text");
//! assert_eq!((breach.element, breach.privilege, breach.forbidden), (0, 3, 1));
//!
//! // a choice of three empty kinds; its privileges are to replace 0 by 1, 0 by 2, 1 by 0, 1 by 2, 2 by 0, 2 by 1
//! let words = [1, 23, 4, 0, 8, 3, 20, 6, 3, 3, 0, 0, 0, 3, 0, 0, 3, 0, 0, 3, 1, 2, 3];
//! let marks = [ALLOWED, FORBIDDEN, UNSET, ALLOWED, UNSET, UNSET];
//! let breach = judge_policy(&words, &marks)?.expect("0 by 1 and 1 by 2 replace 0 by 2");
//! assert_eq!((breach.i, breach.j, breach.privilege), (0, 2, 1));
//! assert_eq!(*breach.chain, [0, 1, 2]);
//! # Ok::<(), finnedscarf::Refusal>(())
//! ```
//!
//! To link it, `./build store` makes `target/staticlib/libstore.a` (x86-64 Linux). Cargo finds it there, or in the folder that the
//! variable `FINNEDSCARF_LIB` names; for rustc it is `-L native=target/staticlib` where this crate is compiled.

mod border;
mod editor;
mod listing;
mod maps;
mod roles;
mod sheet;

use border::Outcome;
pub use editor::{edit_mark, Editor};
pub use listing::{read_listing, write_listing, MOST_LISTING};
pub use maps::{Maps, MapsMut};
pub use roles::{RoleRefusal, Roles};
pub use sheet::{add_sheets, month_sheet, Sheet};
use std::error::Error;
use std::fmt;
use std::ops::Deref;

/// As many words as the table of a DTD text can have.
pub const MOST_WORDS: usize = 8 + 3 * 256 + 1024;

/// The mark of a privilege that the policy leaves open.
pub const UNSET: u8 = 0;
/// The mark of an allowed privilege.
pub const ALLOWED: u8 = 1;
/// The mark of a forbidden privilege.
pub const FORBIDDEN: u8 = 2;

/// What stands in the list of new numbers for a type that is gone, for [`carry_marks`].
pub const GONE: u16 = 65_535;

/// What is added to a number that a table is refused with, where it is the new one of [`carry_marks`].
pub const NEW_TABLE: usize = 100;

/// Which of the three conditions a breach breaks.
#[derive(Clone, Copy, Debug, PartialEq, Eq)]
pub enum Condition {
    /// 1: at a star whose insert and delete are both allowed, a privilege below its child is forbidden. In format 2 also: at such a star
    /// replace is forbidden, or at a star whose replace is allowed, a privilege below its child is.
    InsertDelete,
    /// 2: at a choice, allowed replacements lead from `i` to `j`, and replacing `i` by `j` is forbidden. In format 2 `j` may be `i`.
    Chain,
    /// 3: at a choice, allowed replacements lead from `i` back to `i`, and a privilege below the child at `i` is forbidden.
    Cycle,
}

/// The steps of a breach of condition 2 or 3: the fewest allowed replacements from `i` to `j`, and among equally few those with the lowest
/// position at the first difference. It is a slice of at most 17 positions, each to be replaced by the next: the first is `i` and the last is
/// `j`. For condition 1 it is empty. Its text is the steps in words.
#[derive(Clone, Copy, PartialEq, Eq)]
pub struct Chain {
    length: usize,
    places: [u8; 17],
}

impl Deref for Chain {
    type Target = [u8];

    fn deref(&self) -> &[u8] {
        &self.places[..self.length]
    }
}

impl fmt::Debug for Chain {
    fn fmt(&self, f: &mut fmt::Formatter) -> fmt::Result {
        f.debug_list().entries(self.iter()).finish()
    }
}

impl fmt::Display for Chain {
    fn fmt(&self, f: &mut fmt::Formatter) -> fmt::Result {
        for (k, position) in self.iter().enumerate() {
            write!(f, "{}{position}", if k == 0 { "" } else { " to " })?;
        }
        Ok(())
    }
}

/// A breach of a condition. A call tells the first: of the lowest type, then of the lowest condition, `i` and `j`.
#[derive(Clone, Copy, Debug, PartialEq, Eq)]
pub struct Breach {
    /// The condition that is broken.
    pub condition: Condition,
    /// The type at which it is broken.
    pub element: usize,
    /// A position among that type's children; 0 for condition 1.
    pub i: usize,
    /// A position among that type's children; 0 for condition 1, and `i` for condition 3.
    pub j: usize,
    /// The forbidden replacement for condition 2, the star's replace for condition 1 if that is forbidden, else the lowest-numbered forbidden
    /// privilege below the child.
    pub privilege: usize,
    /// How many are forbidden there: 1 for condition 2, and for condition 1 if the star's replace is forbidden, else all forbidden privileges
    /// below the child, each counted once even if two paths lead to it.
    pub forbidden: usize,
    /// The steps from `i` to `j` for conditions 2 and 3; empty for condition 1.
    pub chain: Chain,
}

impl fmt::Display for Breach {
    fn fmt(&self, f: &mut fmt::Formatter) -> fmt::Result {
        let Breach { condition, element, i, j, privilege, forbidden, chain } = self;
        match condition {
            Condition::InsertDelete => write!(
                f,
                "condition 1 at type {element}: insert and delete, or in format 2 replace, are allowed, and privilege {privilege}, which they \
                 can imitate, is forbidden"
            ),
            Condition::Chain => write!(
                f,
                "condition 2 at type {element}: allowed replacements lead from position {i} to {j} ({chain}), and privilege {privilege}, \
                 that replacement, is forbidden"
            ),
            Condition::Cycle => write!(
                f,
                "condition 3 at type {element}: allowed replacements lead from position {i} back to it ({chain}), and privilege \
                 {privilege} below the child there is forbidden"
            ),
        }?;
        match forbidden {
            1 => Ok(()),
            all => write!(f, ", the lowest of {all}"),
        }
    }
}

/// Why a call was refused. Its text says in words what the number means and what the place is.
///
/// ```
/// let refusal = finnedscarf::check_table(&[]).unwrap_err();
/// assert_eq!(refusal.to_string(), "refused with number 1: under 8 words lent, or word 0, or the format of a listing, is neither 1 nor 2");
/// ```
#[derive(Clone, Copy, Debug, PartialEq, Eq)]
pub struct Refusal {
    /// 1 to 26 or 30, or, of a new table, 101 to 109 or 119, as in `include/finnedscarf.h`. With 29, a refused sheet that is to be added, a call
    /// from C alone can be refused.
    pub number: usize,
    /// The lowest type, privilege or byte at which the check of this number fails; 0 where the check has no places.
    pub place: usize,
    /// The first breach, with number 16 and no other.
    pub breach: Option<Breach>,
}

impl fmt::Display for Refusal {
    fn fmt(&self, f: &mut fmt::Formatter) -> fmt::Result {
        let Refusal { number, place, breach } = self;
        write!(f, "refused with number {number}: ")?;
        let number = match number.checked_sub(NEW_TABLE) {
            Some(of_table) => {
                write!(f, "of the new table, ")?;
                of_table
            }
            None => *number,
        };
        match number {
            1 => write!(f, "under 8 words lent, or word 0, or the format of a listing, is neither 1 nor 2"),
            2 => write!(f, "words 1 to 6 are not a table's, or the run lent isn't word 1 long"),
            3 => write!(f, "kind above 4 at type {place}"),
            4 => write!(f, "child count wrong for the kind at type {place}"),
            5 => write!(f, "first child is not the running index at type {place} (one past the last: the total is wrong)"),
            6 => write!(f, "child not below the number of types at parent {place}"),
            7 => write!(f, "the same child twice at parent {place}"),
            8 => write!(f, "type {place} is not reached from the root"),
            9 => write!(f, "over 4,096 privileges, or word 7 is not their number"),
            10 => write!(
                f,
                "not one mark for each privilege (with many roles at once: of each role; over maps: not one bit for each, rounded up to bytes), \
                 or an edit of a privilege that is not there"
            ),
            11 => write!(f, "a mark above 2 at privilege {place}"),
            12 => write!(
                f,
                "result shorter than the number of privileges (with all roles at once: for each role; over maps: in bits; of marks carried \
                 over: either result; of sheets: than three counts for each privilege; of an edit: kept entries than two words for each type), \
                 than the table that is read, or than the listing that is written"
            ),
            13 => write!(f, "not one proposed mark for each privilege (over maps: not one bit for each, rounded up to bytes)"),
            14 => write!(
                f,
                "a proposed mark above 2 at privilege {place} (over maps: it is set in both, or, with 0, a spare bit is set in either)"
            ),
            15 => write!(f, "a change other than from allowed to forbidden at privilege {place}"),
            17 => write!(f, "not one new number for each old type"),
            18 => write!(
                f,
                "the new number of old type {place} is neither 65,535 nor below the number of new types, or an earlier type has it too"
            ),
            19 => write!(f, "type {place} is on a cycle: it is below one of its own children"),
            20 => write!(f, "not DTD text: byte {place} cannot stand there (one past the last: it ends too early)"),
            21 => write!(
                f,
                "ANY, mixed content with names, or a limit passed at byte {place} (one past the last: too many types or child entries)"
            ),
            22 => write!(f, "the name at byte {place} was declared before, or is used and never declared"),
            23 => write!(f, "privilege {place} is set in both maps"),
            24 => write!(f, "a spare bit is set in a map, behind those of the privileges"),
            25 => write!(f, "the listing's line at byte {place} is not the line of a privilege, with its newline"),
            26 => write!(f, "the listing's line at byte {place} has a privilege that is not above that of the line before"),
            29 => write!(f, "the {} sheet was itself refused", if *place == 0 { "first" } else { "other" }),
            30 => write!(f, "32 bits do not hold the sum of a count of privilege {place} (one past the last: of a number of roles)"),
            _ => write!(f, "a breach"),
        }?;
        match breach {
            Some(breach) => write!(f, ": {breach}"),
            None => Ok(()),
        }
    }
}

impl Error for Refusal {}

/// Checks a table, and gives its number of privileges V. Refused with 1 to 9 and 19.
pub fn check_table(words: &[u16]) -> Result<usize, Refusal> {
    border::check_table(words).done().map(|done| done.place)
}

/// Reads DTD text: writes its table into `out`, as many words as word 1 then says, and gives the table's number of privileges V. The rest of
/// `out` is kept; [`MOST_WORDS`] are enough. Refused with 20 (not the grammar), 21 (ANY, mixed content with names, or a limit passed) and 22
/// (a name declared before, or used and never declared), with the table's own numbers, of which there can be 4, 7, 19, 8 and 9, and with 12.
/// The table is in format 1; the header says how to make it one of format 2.
///
/// ```
/// use finnedscarf::{read_dtd, MOST_WORDS};
///
/// let mut out = [0; MOST_WORDS];
/// assert_eq!(read_dtd(b"<!ELEMENT names (name)*> <!ELEMENT name (#PCDATA)>", &mut out)?, 3);
/// assert_eq!(out[..out[1] as usize], [1, 15, 2, 0, 8, 1, 14, 3, 4, 1, 0, 1, 0, 1, 1]);
///
/// let refusal = read_dtd(b"<!ELEMENT names (name)*>", &mut out).unwrap_err();
/// assert_eq!((refusal.number, refusal.place), (22, 17));
/// # Ok::<(), finnedscarf::Refusal>(())
/// ```
pub fn read_dtd(text: &[u8], out: &mut [u16]) -> Result<usize, Refusal> {
    border::read_dtd(text, out).done().map(|done| done.place)
}

/// Judges a policy, and gives its first breach, or `None` if it is clean. Refused with 1 to 11 and 19.
pub fn judge_policy(words: &[u16], marks: &[u8]) -> Result<Option<Breach>, Refusal> {
    border::judge_policy(words, marks).done().map(|done| done.breach())
}

/// Completes a policy: writes the least fully decided policy that keeps every set mark and is clean into the first V bytes of `out`, whose
/// rest is kept. Refused with 1 to 12 and 19, and with 16 if there is none.
pub fn complete(words: &[u16], marks: &[u8], out: &mut [u8]) -> Result<(), Refusal> {
    border::complete(words, marks, out).done().map(|_| ())
}

/// Completes the policies of all roles of a show at once, as many as `numbers` has words; their marks stand one after another in `marks`, V
/// for each. Writes the number of each role into `numbers`, and its completed marks into its own V bytes of `out`, whose rest is kept, and
/// gives the roles in their order: the completed marks, or a [`RoleRefusal`] with 11 or 16, and then the role's bytes of `out` are kept. Each
/// role is what [`complete`] gives on its own marks. The whole call is refused with 1 to 9 and 19 for the table, with 10 if `marks` is not V
/// bytes for each role, and with 12 if `out` is shorter than that.
///
/// ```
/// use finnedscarf::{complete_roles, RoleRefusal, ALLOWED, FORBIDDEN, UNSET};
///
/// // a star whose child is a text; its privileges are insert, delete, and change the text
/// let words = [1, 15, 2, 0, 8, 1, 14, 3, 4, 1, 0, 1, 0, 1, 1];
/// let marks = [[ALLOWED, ALLOWED, UNSET], [ALLOWED, ALLOWED, FORBIDDEN], [UNSET, UNSET, ALLOWED]].concat();
/// let (mut numbers, mut out) = ([0; 3], [0; 9]);
/// let mut roles = complete_roles(&words, &marks, &mut numbers, &mut out)?;
/// assert_eq!(roles.next(), Some(Ok(&[ALLOWED, ALLOWED, ALLOWED][..])));
/// assert_eq!(roles.next(), Some(Err(RoleRefusal { number: 16 })));
/// assert_eq!(roles.next(), Some(Ok(&[FORBIDDEN, FORBIDDEN, ALLOWED][..])));
/// assert_eq!(roles.next(), None);
/// assert_eq!(numbers, [0, 16, 0]);
/// # Ok::<(), finnedscarf::Refusal>(())
/// ```
pub fn complete_roles<'a>(words: &[u16], marks: &[u8], numbers: &'a mut [u16], out: &'a mut [u8]) -> Result<Roles<'a>, Refusal> {
    border::complete_roles(words, marks, numbers, out).done()?;
    Ok(Roles::new(words[7].into(), numbers, &out[..marks.len()]))
}

/// Mends a policy by the rule that the header states: writes a clean one into the first V bytes of `out`, whose rest is kept, and gives the
/// number of marks that went from allowed to forbidden; all others are equal. Refused with 1 to 12 and 19.
pub fn mend(words: &[u16], marks: &[u8], out: &mut [u8]) -> Result<usize, Refusal> {
    border::mend(words, marks, out).done().map(|done| done.count)
}

/// Judges a proposed mend, and gives the number of changed marks: accepted if each mark is equal or went from allowed to forbidden and the
/// proposed policy is clean. Refused with 1 to 11, 13 to 16 and 19.
pub fn judge_mend(words: &[u16], marks: &[u8], proposed: &[u8]) -> Result<usize, Refusal> {
    border::judge_mend(words, marks, proposed).done().map(|done| done.count)
}

/// Judges a policy that is kept as two bit maps, as [`judge_policy`] does one of marks, and gives its first breach, or `None` if it is clean.
/// Refused with 1 to 10 and 19, with 23 if a privilege is set in both maps, and with 24 if a spare bit is set in either.
pub fn judge_maps(words: &[u16], maps: Maps) -> Result<Option<Breach>, Refusal> {
    let Maps { allowed, forbidden } = maps;
    border::judge_maps(words, allowed, forbidden).done().map(|done| done.breach())
}

/// Completes a policy that is kept as two bit maps, as [`complete`] does one of marks: writes the two maps of the completed policy into `out`.
/// Refused with 1 to 10, 19, 23 and 24, with 12 if either map of `out` is short, and with 16 if there is no such policy.
///
/// ```
/// use finnedscarf::{complete_maps, Maps, MapsMut};
///
/// // a star whose child is a text; its privileges are insert, delete, and change the text, of which the last is allowed
/// let words = [1, 15, 2, 0, 8, 1, 14, 3, 4, 1, 0, 1, 0, 1, 1];
/// let (mut allowed, mut forbidden) = ([0], [0]);
/// let out = MapsMut { allowed: &mut allowed, forbidden: &mut forbidden };
/// complete_maps(&words, Maps { allowed: &[0b100], forbidden: &[0b000] }, out)?;
/// assert_eq!((allowed, forbidden), ([0b100], [0b011]));
/// # Ok::<(), finnedscarf::Refusal>(())
/// ```
pub fn complete_maps(words: &[u16], maps: Maps, out: MapsMut) -> Result<(), Refusal> {
    let Maps { allowed, forbidden } = maps;
    border::complete_maps(words, allowed, forbidden, out.allowed, out.forbidden).done().map(|_| ())
}

/// Mends a policy that is kept as two bit maps, as [`mend`] does one of marks: writes the two maps of the mended policy into `out`, and gives
/// the number of privileges that went from allowed to forbidden. Refused with 1 to 10, 12, 19, 23 and 24.
pub fn mend_maps(words: &[u16], maps: Maps, out: MapsMut) -> Result<usize, Refusal> {
    let Maps { allowed, forbidden } = maps;
    border::mend_maps(words, allowed, forbidden, out.allowed, out.forbidden).done().map(|done| done.count)
}

/// Judges a mend that is proposed as two bit maps, as [`judge_mend`] does one of marks, and gives the number of changed privileges. Refused with
/// 1 to 10, 13 to 16, 19, 23 and 24; of the proposed maps a wrong length of either is 13, and what is 23 or 24 of the policy's own is 14.
pub fn judge_mend_maps(words: &[u16], maps: Maps, proposed: Maps) -> Result<usize, Refusal> {
    let Maps { allowed, forbidden } = maps;
    border::judge_mend_maps(words, allowed, forbidden, proposed.allowed, proposed.forbidden).done().map(|done| done.count)
}

/// Carries the marks of a policy over to a revised schema. `new_numbers` has for each type of the old table its number in the new one, or [`GONE`];
/// no other number stands there twice. An old privilege and a new one correspond if they are the same edit, that is, of one kind (text, insert,
/// delete or replace) and on types of which each has as its new number the one that stands there: the edited type itself, and the children that
/// are inserted, deleted, replaced or take another's place. The tables may be in different formats, and at a star of format 2 replace names its
/// child twice.
///
/// Writes for each new privilege the mark of the old one that corresponds to it, or [`UNSET`] if there is none, into the first bytes of `out`, and
/// for each old privilege into the first bytes of `lost` 1 if it was set and no new one corresponds to it, else 0. The rest of both is kept.
/// Refused with 1 to 9 and 19 for the old table, 10 and 11 for the old marks, the new table's numbers raised by [`NEW_TABLE`], 17 if the list is not
/// as long as there are old types, 18 for a new number that is neither [`GONE`] nor below the number of new types, or that an earlier type has too,
/// and 12 if either result is short, in this order.
///
/// ```
/// use finnedscarf::{carry_marks, ALLOWED, FORBIDDEN, GONE, UNSET};
///
/// // a star whose child is a text; its privileges are insert, delete, and change the text
/// let old_words = [1, 15, 2, 0, 8, 1, 14, 3, 4, 1, 0, 1, 0, 1, 1];
/// // the text is type 0 now; the star is type 2, and its child is a sequence of the text, type 1
/// let new_words = [1, 19, 3, 2, 8, 2, 17, 3, 1, 0, 0, 2, 1, 0, 4, 1, 1, 0, 1];
/// let (mut out, mut lost) = ([UNSET; 3], [0; 3]);
/// carry_marks(&old_words, &[ALLOWED, UNSET, FORBIDDEN], &new_words, &[2, 0], &mut out, &mut lost)?;
/// // to insert a text into the star, which was allowed, is no edit any more; to change it is forbidden as before
/// assert_eq!((out, lost), ([FORBIDDEN, UNSET, UNSET], [1, 0, 0]));
///
/// carry_marks(&old_words, &[ALLOWED, UNSET, FORBIDDEN], &new_words, &[2, GONE], &mut out, &mut lost)?;
/// assert_eq!((out, lost), ([UNSET, UNSET, UNSET], [1, 0, 1]));
///
/// let refusal = carry_marks(&old_words, &[UNSET; 3], &new_words[..18], &[2, 0], &mut out, &mut lost).unwrap_err();
/// assert_eq!(refusal.to_string(), "refused with number 102: of the new table, words 1 to 6 are not a table's, or the run lent isn't word 1 long");
/// # Ok::<(), finnedscarf::Refusal>(())
/// ```
pub fn carry_marks(
    old_words: &[u16],
    old_marks: &[u8],
    new_words: &[u16],
    new_numbers: &[u16],
    out: &mut [u8],
    lost: &mut [u8],
) -> Result<(), Refusal> {
    border::carry_marks(old_words, old_marks, new_words, new_numbers, out, lost).done().map(|_| ())
}

impl Outcome {
    fn breach(&self) -> Option<Breach> {
        let condition = match self.condition {
            0 => return None,
            1 => Condition::InsertDelete,
            2 => Condition::Chain,
            3 => Condition::Cycle,
            other => unreachable!("condition {other}"),
        };
        let Outcome { element, i, j, privilege, forbidden, chain_length, chain, .. } = *self;
        let chain = Chain { length: chain_length, places: chain };
        Some(Breach { condition, element, i, j, privilege, forbidden, chain })
    }

    fn done(self) -> Result<Outcome, Refusal> {
        match self.number {
            0 => Ok(self),
            number => Err(Refusal { number, place: self.place, breach: self.breach() }),
        }
    }
}
