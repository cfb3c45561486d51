// A call that answers a sheet and writes counts (request 12).

use crate::calls::Told;
use crate::sheet::{Sheet, COUNTS};
use crate::stream::to_numbers;
use crate::table::{check_table, Table};

pub struct Counted<'a, C> {
    pub case: &'a C,
    /// Where it is accepted.
    pub table: Option<Table>,
    pub sheet: Sheet,
    /// The counts afterwards.
    pub counts: Vec<u32>,
}

impl<C> Counted<'_, C> {
    pub fn of<'a>(case: &'a C, words: &[u16], told: Told) -> Counted<'a, C> {
        Counted {
            case,
            table: check_table(words).ok(),
            sheet: told.sheet.expect("the call answers a sheet"),
            counts: to_numbers(&told.written[0]),
        }
    }

    pub fn number(&self) -> usize {
        self.sheet.number
    }

    pub fn is_done(&self) -> bool {
        self.number() == 0
    }

    /// 0 where the table is refused.
    pub fn v(&self) -> usize {
        self.table.as_ref().map_or(0, Table::v)
    }

    /// How many counts all privileges have.
    pub fn all_counts(&self) -> usize {
        COUNTS * self.v()
    }
}
