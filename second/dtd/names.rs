// Number 22: names that are declared before, or used and never declared.

use super::faults::{Fault, Reason};
use super::trees::{Declaration, Name};

/// The earliest such name, by the byte at which it starts.
pub fn first_wrong(declarations: &[Declaration], used: &[&Name]) -> Option<Fault> {
    let declared = |among: &[Declaration], name: &Name| among.iter().any(|of| of.name.bytes == name.bytes);
    let again = (0..declarations.len()).filter(|&k| declared(&declarations[..k], &declarations[k].name));
    let again = again.map(|k| Fault { place: declarations[k].name.start, reason: Reason::DeclaredBefore });
    let never = used.iter().filter(|name| !declared(declarations, name));
    let never = never.map(|name| Fault { place: name.start, reason: Reason::NeverDeclared });
    again.chain(never).min()
}
