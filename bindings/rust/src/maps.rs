//! A policy as two bit maps, to be read and to be written.

/// A policy that is kept as two bit maps, each of V / 8 bytes, rounded up. In both, privilege `p` has bit `p % 8` of byte `p / 8`, and bit 0 is
/// the lowest. It is allowed if its bit is set in the one, forbidden if it is set in the other, and unset if it is set in neither; a call refuses
/// a bit that is set in both, and a spare one that is set in either, behind those of the privileges.
///
/// ```
/// use finnedscarf::{judge_maps, Maps};
///
/// // a star whose child is a text; its privileges are insert, delete, and change the text
/// let words = [1, 15, 2, 0, 8, 1, 14, 3, 4, 1, 0, 1, 0, 1, 1];
/// let breach = judge_maps(&words, Maps { allowed: &[0b011], forbidden: &[0b100] })?.expect("delete and insert change the text");
/// assert_eq!((breach.element, breach.privilege, breach.forbidden), (0, 2, 1));
///
/// let refusal = judge_maps(&words, Maps { allowed: &[0b011], forbidden: &[0b110] }).unwrap_err();
/// assert_eq!(refusal.to_string(), "refused with number 23: privilege 1 is set in both maps");
/// # Ok::<(), finnedscarf::Refusal>(())
/// ```
#[derive(Clone, Copy, Debug, PartialEq, Eq)]
pub struct Maps<'a> {
    /// The allowed privileges.
    pub allowed: &'a [u8],
    /// The forbidden privileges.
    pub forbidden: &'a [u8],
}

/// Where a call writes the two maps of its result: into the first bytes of each, spare bits as 0. What is behind them is kept.
#[derive(Debug, PartialEq, Eq)]
pub struct MapsMut<'a> {
    /// The allowed privileges.
    pub allowed: &'a mut [u8],
    /// The forbidden privileges.
    pub forbidden: &'a mut [u8],
}
