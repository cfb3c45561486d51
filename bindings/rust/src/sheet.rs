//! The sheet of a month's roles: how they are counted on one, and how two are added.

use crate::{border, Refusal};
use std::fmt;

/// The sheet of a month's roles, as [`month_sheet`] and [`add_sheets`] give it: five numbers of roles, and the privileges that are allowed in most
/// of them. How often each privilege is allowed, forbidden and unset is in the run that was lent for that. Its text is the sheet in words.
///
/// The default sheet is that of no role, without leaders: a sum of many sheets begins with it, and with counts of 0. A sheet that was counted on
/// another machine is the default one with the five figures as they came, since [`add_sheets`] looks at no more of it.
#[derive(Clone, Copy, Debug, Default, PartialEq, Eq)]
pub struct Sheet {
    /// How many roles break no condition.
    pub clean: u32,
    /// How many break condition 1 somewhere: at any type, be it the first breach or not. So a role can be in all three of these.
    pub insert_delete: u32,
    /// How many break condition 2 somewhere.
    pub chain: u32,
    /// How many break condition 3 somewhere.
    pub cycle: u32,
    /// How many have a mark above 2. Such a role is counted nowhere else.
    pub refused: u32,
    leader_count: usize,
    leaders: [usize; 3],
}

impl Sheet {
    /// The privileges that are allowed in most roles: three, or all if there are fewer. Most comes first, and among equals the lower number.
    pub fn leaders(&self) -> &[usize] {
        &self.leaders[..self.leader_count]
    }

    /// What a sum takes of the sheet.
    fn lent(&self) -> border::Sheet {
        let Sheet { clean, insert_delete, chain, cycle, refused, .. } = *self;
        border::Sheet { clean, insert_delete, chain, cycle, refused, ..border::Sheet::default() }
    }
}

impl fmt::Display for Sheet {
    fn fmt(&self, f: &mut fmt::Formatter) -> fmt::Result {
        let Sheet { clean, insert_delete, chain, cycle, refused, .. } = self;
        write!(
            f,
            "{clean} clean, {refused} refused; condition 1 broken in {insert_delete}, condition 2 in {chain}, condition 3 in {cycle}"
        )?;
        for (k, privilege) in self.leaders().iter().enumerate() {
            write!(f, "{} privilege {privilege}", if k == 0 { "; allowed in most roles:" } else { "," })?;
        }
        Ok(())
    }
}

impl border::Sheet {
    fn done(self) -> Result<Sheet, Refusal> {
        let border::Sheet { number, place, clean, insert_delete, chain, cycle, refused, leader_count, leaders } = self;
        match number {
            0 => Ok(Sheet { clean, insert_delete, chain, cycle, refused, leader_count: leader_count as usize, leaders }),
            number => Err(Refusal { number, place, breach: None }),
        }
    }
}

/// Counts a month's roles on a sheet. Their marks stand one after another in `marks`, V for each. Writes for each privilege `p` how many roles
/// allow it, forbid it and leave it unset into `counts[3 * p]`, `counts[3 * p + 1]` and `counts[3 * p + 2]`, whatever these held, and keeps the
/// rest. A role with a mark above 2 is counted as refused and nowhere else, so that the three are in sum the number of roles that are not refused.
/// There may be any number of roles; with V 0 each is clean, and any number of them is counted at once. Refused with 1 to 9 and 19 for the table,
/// with 10 if `marks` is not V bytes for each role, and with 12 if `counts` is shorter than three numbers for each privilege.
///
/// ```
/// use finnedscarf::{month_sheet, ALLOWED, FORBIDDEN, UNSET};
///
/// // a star whose child is a text; its privileges are insert, delete, and change the text
/// let words = [1, 15, 2, 0, 8, 1, 14, 3, 4, 1, 0, 1, 0, 1, 1];
/// let marks = [[UNSET, ALLOWED, ALLOWED], [ALLOWED, ALLOWED, FORBIDDEN], [ALLOWED, UNSET, 3]].concat();
/// let mut counts = [0; 9];
/// let sheet = month_sheet(&words, 3, &marks, &mut counts)?;
/// assert_eq!((sheet.clean, sheet.insert_delete, sheet.chain, sheet.cycle, sheet.refused), (1, 1, 0, 0, 1));
/// // insert is allowed in one role, and unset in another; delete is allowed in both; the text is allowed in one, and forbidden in the other
/// assert_eq!(counts, [1, 0, 1, 2, 0, 0, 1, 1, 0]);
/// assert_eq!(sheet.leaders(), [1, 0, 2]);
/// assert_eq!(
///     sheet.to_string(),
///     "1 clean, 1 refused; condition 1 broken in 1, condition 2 in 0, condition 3 in 0; \
///      allowed in most roles: privilege 1, privilege 0, privilege 2"
/// );
/// # Ok::<(), finnedscarf::Refusal>(())
/// ```
pub fn month_sheet(words: &[u16], roles: u32, marks: &[u8], counts: &mut [u32]) -> Result<Sheet, Refusal> {
    border::month_sheet(words, roles, marks, counts).done()
}

/// Adds two sheets over one table, as they come from counting a month's roles in two parts, each with the counts of its privileges: gives the
/// sheet of all these roles, and raises the counts of the first, three for each privilege, by those of the other; the rest of `counts` is kept.
/// Refused with 1 to 9 and 19 for the table, with 12 if a run of counts is shorter than three numbers for each privilege, and with 30 if 32 bits
/// do not hold a sum. (29, a sheet that was itself refused, cannot come: that is no [`Sheet`].)
///
/// ```
/// use finnedscarf::{add_sheets, month_sheet, Sheet, ALLOWED, FORBIDDEN, UNSET};
///
/// // a star whose child is a text; its privileges are insert, delete, and change the text
/// let words = [1, 15, 2, 0, 8, 1, 14, 3, 4, 1, 0, 1, 0, 1, 1];
/// let months = [[UNSET, ALLOWED, ALLOWED, ALLOWED, ALLOWED, FORBIDDEN], [ALLOWED, UNSET, UNSET, ALLOWED, UNSET, 3]];
/// let (mut sheet, mut counts) = (Sheet::default(), [0; 9]);
/// for marks in &months {
///     let mut more_counts = [0; 9];
///     let more = month_sheet(&words, 2, marks, &mut more_counts)?;
///     sheet = add_sheets(&words, &sheet, &mut counts, &more, &more_counts)?;
/// }
/// let mut all_counts = [0; 9];
/// assert_eq!(sheet, month_sheet(&words, 4, &months.concat(), &mut all_counts)?);
/// assert_eq!(counts, all_counts);
///
/// let refusal = add_sheets(&words, &sheet, &mut counts, &sheet, &[0, 0, 0, u32::MAX, 0, 0, 0, 0, 0]).unwrap_err();
/// assert_eq!(
///     refusal.to_string(),
///     "refused with number 30: 32 bits do not hold the sum of a count of privilege 1 (one past the last: of a number of roles)"
/// );
/// assert_eq!(counts, all_counts);
/// # Ok::<(), finnedscarf::Refusal>(())
/// ```
pub fn add_sheets(words: &[u16], sheet: &Sheet, counts: &mut [u32], more: &Sheet, more_counts: &[u32]) -> Result<Sheet, Refusal> {
    border::add_sheets(words, sheet.lent(), counts, more.lent(), more_counts).done()
}
