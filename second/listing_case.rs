// Cases of kinds 7 and 8: a DTD text, a format, the marks that are written as a listing or a listing that is read, and the result as lent; and
// the call that is made on each.

use crate::answers::Outcome;
use crate::calls::{Call, Told};
use crate::fail;
use crate::listing::{read_listing, write_listing};
use crate::stream::{put_bytes, put_number, take_bytes, take_number};

/// Cases of writing.
pub const WRITE: u8 = 7;

/// Cases of reading.
pub const READ: u8 = 8;

#[derive(Clone, PartialEq)]
pub struct ListingCase {
    pub text: Vec<u8>,
    pub format: u16,
    /// The marks, or the listing.
    pub given: Vec<u8>,
    pub out: Vec<u8>,
}

impl ListingCase {
    pub fn read(stream: &mut &[u8]) -> ListingCase {
        ListingCase {
            text: take_bytes(stream).to_vec(),
            format: u16::try_from(take_number(stream)).unwrap_or_else(|_| fail("a format over 65,535")),
            given: take_bytes(stream).to_vec(),
            out: take_bytes(stream).to_vec(),
        }
    }

    pub fn write(&self, stream: &mut Vec<u8>) {
        put_bytes(stream, &self.text);
        put_number(stream, self.format as u32);
        put_bytes(stream, &self.given);
        put_bytes(stream, &self.out);
    }

    /// A call that may write the result gets its own copy of it.
    pub fn writing(&self, call: impl Fn(&[u8], u16, &[u8], &mut [u8]) -> Outcome) -> Told {
        let mut out = self.out.clone();
        let outcome = call(&self.text, self.format, &self.given, &mut out);
        Told::writing(outcome, vec![out])
    }
}

/// The numbers of the format's, the text's and the table's checks in their order.
pub const OF_TEXT: &[usize] = &[1, 20, 21, 22, 4, 7, 19, 8, 9];

pub const WRITING: [Call<ListingCase>; 1] = [Call {
    name: "write_listing",
    numbers: &[OF_TEXT, &[10, 11, 12, 0]],
    breaches: false,
    make: |case| case.writing(write_listing),
}];

pub const READING: [Call<ListingCase>; 1] = [Call {
    name: "read_listing",
    numbers: &[OF_TEXT, &[25, 26, 12, 0]],
    breaches: false,
    make: |case| case.writing(read_listing),
}];
