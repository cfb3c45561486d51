//! A policy under the hand of an editor: one mark is edited after another, and the verdict comes with each.

use crate::{border, check_table, judge_policy, Breach, Refusal, UNSET};
use std::borrow::Cow;

/// Edits one mark of a policy: sets `marks[privilege]` to `mark`, and gives the first breach of the new policy, or `None` if it is clean. What is
/// forbidden below each type is not looked for anew but kept, for each type `t` in its entry: `kept[2 * t]` is the lowest forbidden privilege below
/// it, and `kept[2 * t + 1]` how many there are, both 0 if there is none. Of these the call writes the entries of all types that the privilege is
/// below, whatever they held, and no other; the rest of `kept` stays too. 512 words are enough.
///
/// A fresh policy has marks and entries of 0. After any calls from there, done or refused, the entries are those of the marks, and the verdict is
/// that of [`judge_policy`]. An existing policy gets its entries by being edited in from there, mark by mark; [`Editor`] sees to all that. From other
/// entries the verdict goes by what is kept: nothing is forbidden below a child if its count there is 0, and else the breach has the two words of its
/// entry as they stand, be the first the number of a privilege or not.
///
/// Refused with 1 to 9 and 19 for the table, 10 and 11 for the marks, 10 if the privilege is not below V, 11 with it as the place if the mark is
/// above 2, and 12 if `kept` is shorter than two words for each type, in this order.
///
/// ```
/// use finnedscarf::{edit_mark, ALLOWED, FORBIDDEN, UNSET};
///
/// // a star whose child is a text; its privileges are insert, delete, and change the text
/// let words = [1, 15, 2, 0, 8, 1, 14, 3, 4, 1, 0, 1, 0, 1, 1];
/// let (mut marks, mut kept) = ([UNSET; 3], [0; 4]);
/// assert_eq!(edit_mark(&words, &mut marks, &mut kept, 2, FORBIDDEN)?, None);
/// // below the star and below the text privilege 2 is the lowest that is forbidden, and the only one
/// assert_eq!(kept, [2, 1, 2, 1]);
/// assert_eq!(edit_mark(&words, &mut marks, &mut kept, 0, ALLOWED)?, None);
/// let breach = edit_mark(&words, &mut marks, &mut kept, 1, ALLOWED)?.expect("delete and insert change the text");
/// assert_eq!((breach.element, breach.privilege, breach.forbidden), (0, 2, 1));
///
/// let refusal = edit_mark(&words, &mut marks, &mut kept, 1, 3).unwrap_err();
/// assert_eq!(refusal.to_string(), "refused with number 11: a mark above 2 at privilege 1");
/// assert_eq!((marks, kept), ([ALLOWED, ALLOWED, FORBIDDEN], [2, 1, 2, 1]));
/// # Ok::<(), finnedscarf::Refusal>(())
/// ```
pub fn edit_mark(words: &[u16], marks: &mut [u8], kept: &mut [u16], privilege: usize, mark: u8) -> Result<Option<Breach>, Refusal> {
    border::edit_mark(words, marks, kept, privilege, mark).done().map(|done| done.breach())
}

/// A policy that is edited mark by mark, with what [`edit_mark`] keeps of it. It begins fresh or with the marks of an existing policy, so that its
/// entries are always those of its marks, and each verdict is that of [`judge_policy`] on them. A refused edit leaves it as it was.
///
/// The table is lent, as a slice, or handed over, as a `Vec`; what is handed over makes an editor that can stay for as long as people click.
///
/// ```
/// use finnedscarf::{Editor, ALLOWED, FORBIDDEN, UNSET};
///
/// // a star whose child is a text; its privileges are insert, delete, and change the text
/// let words = vec![1, 15, 2, 0, 8, 1, 14, 3, 4, 1, 0, 1, 0, 1, 1];
/// let mut editor = Editor::fresh(words)?;
/// assert_eq!(editor.edit(2, FORBIDDEN)?, None);
/// assert_eq!(editor.edit(0, ALLOWED)?, None);
/// let breach = editor.edit(1, ALLOWED)?.expect("delete and insert change the text");
/// assert_eq!((breach.element, breach.privilege, breach.forbidden), (0, 2, 1));
/// assert_eq!(editor.verdict(), Some(breach));
///
/// // there is no privilege 3: nothing is edited
/// let refusal = editor.edit(3, UNSET).unwrap_err();
/// assert_eq!((refusal.number, refusal.place), (10, 0));
/// assert_eq!(editor.marks(), [ALLOWED, ALLOWED, FORBIDDEN]);
/// assert_eq!(editor.entries(), [2, 1, 2, 1]);
///
/// assert_eq!(editor.edit(1, UNSET)?, None);
/// # Ok::<(), finnedscarf::Refusal>(())
/// ```
#[derive(Clone, Debug, PartialEq, Eq)]
pub struct Editor<'a> {
    words: Cow<'a, [u16]>,
    marks: Vec<u8>,
    entries: Vec<u16>,
    verdict: Option<Breach>,
}

impl<'a> Editor<'a> {
    /// Begins with the policy in which all is unset. Refused with 1 to 9 and 19 for the table.
    pub fn fresh(words: impl Into<Cow<'a, [u16]>>) -> Result<Editor<'a>, Refusal> {
        let words = words.into();
        let privileges = check_table(&words)?;
        let types = usize::from(words[2]);
        Ok(Editor { words, marks: vec![UNSET; privileges], entries: vec![0; 2 * types], verdict: None })
    }

    /// Begins with an existing policy: its set marks are edited in one after another, which takes an edit for each. Refused with 1 to 9 and 19 for
    /// the table, and with 10 and 11 for the marks.
    ///
    /// ```
    /// use finnedscarf::{Editor, ALLOWED, FORBIDDEN};
    ///
    /// // a star whose child is a text; its privileges are insert, delete, and change the text
    /// let words = [1, 15, 2, 0, 8, 1, 14, 3, 4, 1, 0, 1, 0, 1, 1];
    /// let mut editor = Editor::open(&words[..], &[ALLOWED, ALLOWED, FORBIDDEN])?;
    /// assert_eq!(editor.verdict().map(|breach| breach.privilege), Some(2));
    /// assert_eq!(editor.entries(), [2, 1, 2, 1]);
    /// assert_eq!(editor.edit(1, FORBIDDEN)?, None);
    /// assert_eq!(editor.entries(), [1, 2, 2, 1]);
    ///
    /// let refusal = Editor::open(&words[..], &[ALLOWED, 3, 4]).unwrap_err();
    /// assert_eq!(refusal.to_string(), "refused with number 11: a mark above 2 at privilege 1");
    /// # Ok::<(), finnedscarf::Refusal>(())
    /// ```
    pub fn open(words: impl Into<Cow<'a, [u16]>>, marks: &[u8]) -> Result<Editor<'a>, Refusal> {
        let words = words.into();
        judge_policy(&words, marks)?;
        let mut editor = Editor::fresh(words)?;
        for (privilege, &mark) in marks.iter().enumerate().filter(|(_, &mark)| mark != UNSET) {
            editor.edit(privilege, mark)?;
        }
        Ok(editor)
    }

    /// Edits one mark, and gives the first breach of the policy as it then is, or `None` if it is clean. Refused with 10 if the privilege is not
    /// below V, and with 11, the place being the privilege, if the mark is above 2; then nothing has changed.
    pub fn edit(&mut self, privilege: usize, mark: u8) -> Result<Option<Breach>, Refusal> {
        self.verdict = edit_mark(&self.words, &mut self.marks, &mut self.entries, privilege, mark)?;
        Ok(self.verdict)
    }

    /// The first breach of the policy as it is, or `None` if it is clean.
    pub fn verdict(&self) -> Option<Breach> {
        self.verdict
    }

    /// The table.
    pub fn words(&self) -> &[u16] {
        &self.words
    }

    /// The policy: a mark for each privilege.
    pub fn marks(&self) -> &[u8] {
        &self.marks
    }

    /// Two words for each type `t`: `entries[2 * t]` is the lowest forbidden privilege below it, and `entries[2 * t + 1]` how many there are; both
    /// are 0 if there is none.
    pub fn entries(&self) -> &[u16] {
        &self.entries
    }
}
