// The monthly sheet. The table is checked once, and what depends on it alone is made once: the order of its types, and for each with privileges
// where these begin and end. Of a condition is asked whether it is broken somewhere, at no type any more once it is known to be, and at none below
// which nothing is forbidden; nor is a cycle asked where no child is spoilt and a chain is known. Marks are counted many at a time, in a byte for
// what is allowed and one for what is forbidden, which are put into the counts before they run over. Where privileges are few, room is taken, and
// filled with zeros, for few.

use super::{
    check_marks, reach, read_choice, read_table, spoilt_in, star_breach, Refusal, Rows, Table,
    CHOICE, FORBIDDEN, MOST_PRIVILEGES, ONE, STAR, TWO,
};
use crate::calls::Sheet;

/// How many privileges are few, and how many a table can have.
const FEW: usize = 256;
const ALL: usize = MOST_PRIVILEGES;

/// How many roles are counted in bytes.
const AT_ONCE: u32 = 255;

/// How many counts a privilege has: of the roles in which it is allowed, forbidden and unset.
const COUNTS: usize = 3;

// ---------------------------------------------------------------- what is broken

/// A type with privileges: its number, and where they begin and end.
#[derive(Clone, Copy, Default)]
struct Own {
    element: u8,
    first: u16,
    until: u16,
}

/// The types with privileges.
struct Owns {
    all: [Own; 256],
    count: usize,
}

impl Owns {
    fn of(table: &Table) -> Owns {
        let mut owns = Owns { all: [Own::default(); 256], count: 0 };
        let mut first = 0;
        for (x, record) in table.records.iter().enumerate() {
            let until = first + table.privileges_of(record) as u16;
            owns.all[owns.count & 255] = Own { element: x as u8, first, until };
            owns.count += (until > first) as usize;
            first = until;
        }
        owns
    }

    fn iter(&self) -> impl Iterator<Item = Own> + '_ {
        self.all[..self.count].iter().copied()
    }
}

/// A type is spoilt if something is forbidden below it: first by its own privileges, then, from children to parents, by its children.
fn fill_spoilt(table: &Table, owns: &Owns, marks: &[u8], spoilt: &mut [bool; 256]) {
    for Own { element, first, until } in owns.iter() {
        let own = &marks[first as usize..until as usize];
        spoilt[element as usize] = own.iter().fold(0, |all, mark| all | mark) & FORBIDDEN != 0;
    }
    for &x in table.order.iter().rev() {
        let kids = table.children(&table.records[x as usize]);
        let join = |any: bool, &child: &u16| any | spoilt[child as usize & 255];
        spoilt[x as usize] = kids.iter().fold(spoilt[x as usize], join);
    }
}

/// Whether a forbidden replacement is reached.
fn any_chain(reached: &Rows, forbidden: &Rows) -> bool {
    reached.iter().zip(forbidden).fold(0, |any, (row, bans)| any | row & bans) != 0
}

/// The positions from which a way leads back to them.
fn cycles(reached: &Rows) -> u16 {
    reached.iter().enumerate().fold(0, |all, (i, row)| all | row & 1 << i)
}

/// Which of the three conditions are broken somewhere.
fn broken<const IS_TWO: bool>(table: &Table, owns: &Owns, marks: &[u8]) -> [bool; 3] {
    let mut spoilt = [false; 256];
    fill_spoilt(table, owns, marks, &mut spoilt);
    let [mut insert_delete, mut chain, mut cycle] = [false; 3];
    for Own { element, first, .. } in owns.iter() {
        let (x, first) = (element as usize, first as usize);
        if !spoilt[x] {
            continue;
        }
        let record = &table.records[x];
        let kids = table.children(record);
        match record[0] {
            CHOICE if !(chain & cycle) => {
                let spoilt = spoilt_in(kids, &spoilt);
                if chain & (spoilt == 0) {
                    continue;
                }
                let (allowed, forbidden) = read_choice::<IS_TWO>(marks, first, kids.len());
                let reached = reach(&allowed, kids.len());
                chain |= any_chain(&reached, &forbidden);
                cycle |= cycles(&reached) & spoilt != 0;
            }
            STAR if !insert_delete => {
                insert_delete = star_breach::<IS_TWO>(marks, &spoilt, x, kids, first).is_some()
            }
            _ => (),
        }
    }
    [insert_delete, chain, cycle]
}

// ---------------------------------------------------------------- counts

/// How many of some roles allow and forbid each privilege.
struct Tallies<const ROOM: usize> {
    allowed: [u8; ROOM],
    forbidden: [u8; ROOM],
    roles: u32,
}

impl<const ROOM: usize> Tallies<ROOM> {
    const NONE: Self = Tallies { allowed: [0; ROOM], forbidden: [0; ROOM], roles: 0 };

    fn add(&mut self, marks: &[u8]) {
        let both = self.allowed.iter_mut().zip(&mut self.forbidden);
        for ((allowed, forbidden), mark) in both.zip(marks) {
            *allowed += mark & 1;
            *forbidden += mark >> 1;
        }
        self.roles += 1;
    }

    /// Puts what was tallied into the counts: of the first roles in place of what they hold, of others besides.
    fn put_into(&self, counts: &mut [u32], is_first: bool) {
        let kept = if is_first { 0 } else { u32::MAX };
        let both = self.allowed.iter().zip(&self.forbidden);
        let (threes, _) = counts.as_chunks_mut::<COUNTS>();
        for (three, (&allowed, &forbidden)) in threes.iter_mut().zip(both) {
            let (allowed, forbidden) = (allowed as u32, forbidden as u32);
            three[0] = (three[0] & kept) + allowed;
            three[1] = (three[1] & kept) + forbidden;
            three[2] = (three[2] & kept) + self.roles - allowed - forbidden;
        }
    }
}

/// The privileges that are allowed most often, and how often they are; before any is counted, as seldom as none is.
struct Leaders {
    privileges: [usize; 3],
    often: [i64; 3],
}

impl Leaders {
    /// A privilege goes before those that are allowed less often.
    fn put(&mut self, privilege: usize, allowed: u32) {
        let (mut k, often) = (2, allowed as i64);
        while k > 0 && often > self.often[k - 1] {
            self.privileges[k] = self.privileges[k - 1];
            self.often[k] = self.often[k - 1];
            k -= 1;
        }
        (self.privileges[k], self.often[k]) = (privilege, often);
    }
}

/// The sheet with the leaders that the counts tell.
fn with_leaders(sheet: Sheet, counts: &[u32]) -> Sheet {
    let (threes, _) = counts.as_chunks::<COUNTS>();
    let mut leaders = Leaders { privileges: [0; 3], often: [-1; 3] };
    for (p, &[allowed, ..]) in threes.iter().enumerate() {
        if allowed as i64 > leaders.often[2] {
            leaders.put(p, allowed);
        }
    }
    Sheet { leader_count: threes.len().min(3) as u32, leaders: leaders.privileges, ..sheet }
}

// ---------------------------------------------------------------- the two calls

fn refused((number, place): Refusal) -> Sheet {
    Sheet { number, place, ..Sheet::default() }
}

fn count_each<const IS_TWO: bool, const ROOM: usize>(
    table: &Table,
    marks: &[u8],
    counts: &mut [u32],
) -> Sheet {
    let owns = Owns::of(table);
    let (mut tallies, mut is_first) = (Tallies::<ROOM>::NONE, true);
    let mut sheet = Sheet::default();
    for role in marks.chunks_exact(table.v) {
        if check_marks(role, table.v, 10).is_err() {
            sheet.refused += 1;
            continue;
        }
        let [insert_delete, chain, cycle] = broken::<IS_TWO>(table, &owns, role);
        sheet.insert_delete += insert_delete as u32;
        sheet.chain += chain as u32;
        sheet.cycle += cycle as u32;
        sheet.clean += !(insert_delete | chain | cycle) as u32;
        tallies.add(role);
        if tallies.roles == AT_ONCE {
            tallies.put_into(counts, is_first);
            (tallies, is_first) = (Tallies::NONE, false);
        }
    }
    tallies.put_into(counts, is_first);
    sheet
}

fn count_in<const ROOM: usize>(table: &Table, marks: &[u8], counts: &mut [u32]) -> Sheet {
    if table.is_two {
        count_each::<TWO, ROOM>(table, marks, counts)
    } else {
        count_each::<ONE, ROOM>(table, marks, counts)
    }
}

fn count_roles(
    words: &[u16],
    roles: u32,
    marks: &[u8],
    counts: &mut [u32],
) -> Result<Sheet, Refusal> {
    let mut order = [0; 256];
    let table = read_table(words, &mut order)?;
    if marks.len() as u64 != roles as u64 * table.v as u64 {
        return Err((10, 0));
    }
    let counts = counts.get_mut(..COUNTS * table.v).ok_or((12, 0))?;
    if table.v == 0 {
        return Ok(Sheet { clean: roles, ..Sheet::default() });
    }
    let count = if table.v <= FEW { count_in::<FEW> } else { count_in::<ALL> };
    let sheet = count(&table, marks, counts);
    Ok(with_leaders(sheet, counts))
}

pub fn month_sheet(words: &[u16], roles: u32, marks: &[u8], counts: &mut [u32]) -> Sheet {
    count_roles(words, roles, marks, counts).unwrap_or_else(refused)
}

fn figures(sheet: &Sheet) -> [u32; 5] {
    let Sheet { clean, insert_delete, chain, cycle, refused, .. } = *sheet;
    [clean, insert_delete, chain, cycle, refused]
}

/// The first sum that 32 bits do not hold.
fn first_over(counts: &[u32], more: &[u32]) -> Option<usize> {
    let is_over = |(&one, &other): (&u32, &u32)| one.checked_add(other).is_none();
    let both = || counts.iter().zip(more);
    if !both().fold(false, |any, two| any | is_over(two)) {
        return None;
    }
    both().position(is_over)
}

fn sum_up(
    words: &[u16],
    sheet: Sheet,
    counts: &mut [u32],
    more: Sheet,
    more_counts: &[u32],
) -> Result<Sheet, Refusal> {
    let mut order = [0; 256];
    let v = read_table(words, &mut order)?.v;
    let counts = counts.get_mut(..COUNTS * v).ok_or((12, 0))?;
    let more_counts = more_counts.get(..COUNTS * v).ok_or((12, 0))?;
    if sheet.number != 0 || more.number != 0 {
        return Err((29, (sheet.number == 0) as usize));
    }
    if let Some(at) = first_over(counts, more_counts) {
        return Err((30, at / COUNTS));
    }
    let (one, other) = (figures(&sheet), figures(&more));
    if first_over(&one, &other).is_some() {
        return Err((30, v));
    }
    counts.iter_mut().zip(more_counts).for_each(|(count, more)| *count += more);
    let [clean, insert_delete, chain, cycle, refused] = [0, 1, 2, 3, 4].map(|k| one[k] + other[k]);
    let sum = Sheet { clean, insert_delete, chain, cycle, refused, ..Sheet::default() };
    Ok(with_leaders(sum, counts))
}

pub fn add_sheets(
    words: &[u16],
    sheet: Sheet,
    counts: &mut [u32],
    more: Sheet,
    more_counts: &[u32],
) -> Sheet {
    sum_up(words, sheet, counts, more, more_counts).unwrap_or_else(refused)
}
