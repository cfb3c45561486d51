// What a text is refused for before its table is looked at.

/// In the order of the numbers: three ways of 20, seven of 21, two of 22.
#[derive(Clone, Copy, Debug, PartialEq, Eq, PartialOrd, Ord)]
pub enum Reason {
    Byte,
    EarlyEnd,
    NoDeclaration,
    Any,
    Mixed,
    LongName,
    LongText,
    Deep,
    ManyTypes,
    ManyEntries,
    DeclaredBefore,
    NeverDeclared,
}

impl Reason {
    pub fn number(self) -> usize {
        match self {
            Reason::Byte | Reason::EarlyEnd | Reason::NoDeclaration => 20,
            Reason::DeclaredBefore | Reason::NeverDeclared => 22,
            _ => 21,
        }
    }
}

/// The earliest place decides, then the lower number.
#[derive(Clone, Copy, Debug, PartialEq, Eq, PartialOrd, Ord)]
pub struct Fault {
    pub place: usize,
    pub reason: Reason,
}
