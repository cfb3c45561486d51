// The order of made types read literally: by where their particle starts, outer before inner, a mark's empty or star before its operand.

use crate::making::dtds::written::{Base, Content, Dtd, Particle};
use crate::table::{CHOICE, EMPTY, SEQUENCE, STAR};

/// Where a type's particle starts; how far within others it is, twice the number of operators around
/// it and one more for a mark's empty or star; its kind.
type Made = (usize, usize, u16);

/// Adds the types of a particle that starts there, with so many operators around it; gives its end.
fn walk(particle: &Particle, start: usize, around: usize, found: &mut Vec<Made>) -> usize {
    let marks: &[Made] = match particle.mark {
        "?" => &[(start, 2 * around, CHOICE), (start, 2 * around + 1, EMPTY)],
        "+" => &[(start, 2 * around, SEQUENCE), (start, 2 * around + 1, STAR)],
        "*" => &[(start, 2 * around, STAR)],
        _ => &[],
    };
    found.extend(marks);
    let around = around + particle.mark.len();
    let end = match &particle.base {
        Base::Name(_) => start + 1,
        Base::Group(_, parts) if parts.len() == 1 => walk(&parts[0], start + 1, around, found) + 1,
        Base::Group(sign, parts) => {
            found.push((start, 2 * around, if *sign == b'|' { CHOICE } else { SEQUENCE }));
            parts.iter().fold(start + 1, |at, part| walk(part, at, around + 1, found) + 1)
        }
    };
    end + particle.mark.len()
}

/// The kinds of all made types in their order. What has no operator around it is the declared type.
pub fn made_kinds(dtd: &Dtd) -> Vec<u16> {
    let mut kinds = Vec::new();
    for (_, content) in &dtd.declarations {
        if let Content::Children(particle) = content {
            let mut found = Vec::new();
            walk(particle, 0, 0, &mut found);
            found.sort();
            kinds.extend(found.iter().filter(|made| made.1 > 0).map(|made| made.2));
        }
    }
    kinds
}
