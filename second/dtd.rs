// Reading DTD text: the call `read_dtd`, and which refusal decides.

pub mod faults;
pub mod language;
pub mod limits;
mod names;
pub mod notation;
pub mod productions;
pub mod standing;
pub mod steps;
mod trees;
mod types;

use crate::answers::{refuse_if, Answer, Outcome};
use crate::format::Format;
use crate::making::schemas::encode;
use crate::table::{check_table, Type, MOST_ENTRIES, MOST_TYPES};
use faults::{Fault, Reason};
use limits::first_over;
use names::first_wrong;
use standing::Standing;
use trees::declarations;
use types::Rules;

/// What a text declares: its types, of which the first ones are the declared ones and have these names.
pub struct Declared {
    pub names: Vec<Vec<u8>>,
    pub types: Vec<Type>,
}

impl Declared {
    /// How many types are declared; the others are made.
    pub fn count(&self) -> usize {
        self.names.len()
    }

    /// The table.
    pub fn words(&self, format: Format) -> Vec<u16> {
        encode(format, &self.types)
    }
}

/// 20 and 21, the earliest byte first and then the lower number; then 22.
pub fn declared(text: &[u8]) -> Result<Declared, Fault> {
    let standing = Standing::of(text);
    refuse([standing.fault(), first_over(text, &standing)].into_iter().flatten().min())?;
    let declarations = declarations(text);
    let rules = Rules::of(&declarations);
    let at_length = |reason: Reason| Some(Fault { place: text.len(), reason });
    refuse(at_length(Reason::ManyTypes).filter(|_| rules.count() > MOST_TYPES))?;
    refuse(at_length(Reason::ManyEntries).filter(|_| rules.entries() > MOST_ENTRIES))?;
    refuse(first_wrong(&declarations, &rules.used()))?;
    let names = declarations.iter().map(|declaration| declaration.name.bytes.clone()).collect();
    Ok(Declared { names, types: rules.types(&declarations) })
}

fn refuse(fault: Option<Fault>) -> Result<(), Fault> {
    fault.map_or(Ok(()), Err)
}

/// The same with the refusal as an answer.
pub fn check_text(text: &[u8]) -> Result<Declared, Answer> {
    declared(text).map_err(|fault| Answer {
        number: fault.reason.number(),
        place: fault.place,
        ..Answer::default()
    })
}

/// 20 to 22, then the table's own numbers, then 12; done, the table of format 1 stands in `out`, and V is the place.
pub fn read_dtd(text: &[u8], out: &mut [u16]) -> Outcome {
    let words = check_text(text)?.words(Format::One);
    let table = check_table(&words)?;
    refuse_if(12, out.len() < words.len())?;
    out[..words.len()].copy_from_slice(&words);
    Ok(Answer { place: table.v(), ..Answer::default() })
}
