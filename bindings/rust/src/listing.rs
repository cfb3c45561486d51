//! A policy as a listing that people can mail: how one is written, and how it is read.

use crate::{border, Refusal};

/// As many bytes as a listing can have: 4,096 lines, each of a sign, three names of 32 bytes and `replace`, with what is between them and behind.
pub const MOST_LISTING: usize = 4096 * (1 + 3 * (1 + 32) + 1 + 7 + 1);

/// Writes a policy over the table of a DTD text, in format 1 or 2, as a listing into the first bytes of `out`, and gives its length. The rest of
/// `out` is kept; [`MOST_LISTING`] bytes are enough. There is a line for each set privilege, ascending: `+` if it is allowed or `-` if it is
/// forbidden, the type's name, and `text`, `insert` or `delete` and a child's name, or `replace` and the names of two. A made type's name is `#` and
/// its number. [`read_listing`] gives the marks back.
///
/// Refused with 1 if the format is neither, with what [`read_dtd`](crate::read_dtd) answers for the text, which are 20 to 22 and, V being that of the
/// format, 4, 7, 19, 8 and 9, with 10 and 11 for the marks, and with 12 if `out` is shorter than the listing, in this order.
///
/// ```
/// use finnedscarf::{write_listing, ALLOWED, FORBIDDEN, UNSET};
///
/// // the privileges are to insert a name, to delete one, and to change its text
/// let text = b"<!ELEMENT names (name)*> <!ELEMENT name (#PCDATA)>";
/// let mut out = [0; 64];
/// let length = write_listing(text, 1, &[ALLOWED, UNSET, FORBIDDEN], &mut out)?;
/// assert_eq!(&out[..length], b"+ names insert name\n- name text\n");
///
/// // in format 2 the third is to replace a name by another
/// let length = write_listing(text, 2, &[UNSET, UNSET, FORBIDDEN, UNSET], &mut out)?;
/// assert_eq!(&out[..length], b"- names replace name name\n");
///
/// // the child of the star is made: it is a choice of two declared types
/// let text = b"<!ELEMENT names (name | note)*> <!ELEMENT name (#PCDATA)> <!ELEMENT note EMPTY>";
/// let length = write_listing(text, 1, &[ALLOWED, UNSET, UNSET, FORBIDDEN, UNSET], &mut out)?;
/// assert_eq!(&out[..length], b"+ names insert #3\n- #3 replace name note\n");
///
/// let refusal = write_listing(text, 1, &[ALLOWED; 5], &mut out).unwrap_err();
/// assert_eq!((refusal.number, refusal.place), (12, 0));
/// # Ok::<(), finnedscarf::Refusal>(())
/// ```
pub fn write_listing(text: &[u8], format: u16, marks: &[u8], out: &mut [u8]) -> Result<usize, Refusal> {
    border::write_listing(text, format, marks, out).done().map(|done| done.place)
}

/// Reads a listing as [`write_listing`] writes it: writes the policy's marks over the table of the DTD text, in format 1 or 2, into the first V bytes
/// of `out`, [`UNSET`](crate::UNSET) where the listing has no line. The rest of `out` is kept; 4,096 bytes are enough.
///
/// Refused with 1 and with the numbers of the text as writing is, with 25 for a line that is not that of a privilege, with 26 for one whose privilege
/// is not above that of the line before, where the place is the line's first byte and the earliest line decides, and with 12 if `out` is shorter than
/// V, in this order.
///
/// ```
/// use finnedscarf::{read_listing, ALLOWED, FORBIDDEN, UNSET};
///
/// // the privileges are to insert a name, to delete one, and to change its text
/// let text = b"<!ELEMENT names (name)*> <!ELEMENT name (#PCDATA)>";
/// let mut out = [UNSET; 3];
/// read_listing(text, 1, b"+ names insert name\n- name text\n", &mut out)?;
/// assert_eq!(out, [ALLOWED, UNSET, FORBIDDEN]);
///
/// let refusal = read_listing(text, 1, b"+ names insert name\n- names text\n", &mut out).unwrap_err();
/// assert_eq!(
///     refusal.to_string(),
///     "refused with number 25: the listing's line at byte 20 is not the line of a privilege, with its newline"
/// );
///
/// let refusal = read_listing(text, 1, b"- name text\n+ names insert name\n", &mut out).unwrap_err();
/// assert_eq!(
///     refusal.to_string(),
///     "refused with number 26: the listing's line at byte 12 has a privilege that is not above that of the line before"
/// );
///
/// // without a line all is unset
/// read_listing(text, 1, b"", &mut out)?;
/// assert_eq!(out, [UNSET; 3]);
/// # Ok::<(), finnedscarf::Refusal>(())
/// ```
pub fn read_listing(text: &[u8], format: u16, listing: &[u8], out: &mut [u8]) -> Result<(), Refusal> {
    border::read_listing(text, format, listing, out).done().map(|_| ())
}
