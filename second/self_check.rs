// The second program's check of itself.

mod carrying;
mod chains;
mod counts;
pub mod dtds;
mod edits;
mod every;
mod forbidden_below;
mod listings;
mod literal;
mod maps;
mod orders;
mod policies;
mod roles;
mod samples;
mod second_format;
mod sheets;
mod tables;
mod tickets;

use crate::answers::Breach;
use crate::chain::Chain;
use crate::fail;
use crate::format::Format;
use crate::making::chance::Random;
use carrying::self_carrying;
use chains::self_chains;
use counts::self_counts;
use dtds::self_dtds;
use edits::self_edits;
use every::self_every;
use forbidden_below::self_forbidden_below;
use listings::self_listings;
use maps::self_maps;
use policies::{self_policy, self_renumbered, small_policy, unset};
use roles::self_roles;
use samples::self_samples;
use second_format::self_second_format;
use sheets::self_sheets;
use tables::{self_descent, self_hierarchies, self_named_tables, self_numbering, small_schema};

/// How often at least each answer is to come, by each rule and in each way.
const OFTEN: usize = 20;

fn expect(holds: bool, what: &str) {
    if !holds {
        fail(&format!("differs: {}", what));
    }
}

/// A breach worked out by hand: condition, type, i, j, privilege and count; and the positions of its chain.
type ByHand = ([usize; 6], &'static [usize]);

const CLEAN: ByHand = ([0; 6], &[]);

fn by_hand((numbers, positions): ByHand) -> Breach {
    let [condition, of, i, j, privilege, forbidden] = numbers;
    Breach { condition, of, i, j, privilege, forbidden, chain: Chain::of(positions) }
}

/// Small tables by chance.
fn self_tables(r: &mut Random, format: Format, count: usize) -> String {
    let numbers: Vec<usize> = (0..count).map(|_| self_descent(&small_schema(r, format))).collect();
    let of = |wanted: usize| numbers.iter().filter(|&&number| number == wanted).count();
    let (accepted, unreached, cyclic) = (of(0), of(8), of(19));
    format!("{} tables ({} accepted, {} with number 8, {} with 19)", count, accepted, unreached, cyclic)
}

/// Small policies by chance.
fn self_policies(r: &mut Random, format: Format, count: usize) -> String {
    let (mut clean, mut blanks, mut tried, mut tickets) = (0, 0, 0, 0);
    for _ in 0..count {
        let (schema, table, marks) = small_policy(r, format);
        self_numbering(&table);
        self_renumbered(r, &schema, &table, &marks);
        let (is_clean, small) = self_policy(&schema, &table, &marks);
        clean += is_clean as usize;
        blanks += unset(&marks);
        tried += (small > 0) as usize;
        tickets += small;
    }
    let trial = format!("{} of them by trial on {} tickets", tried, tickets);
    format!("{} policies ({} clean, {} unset marks; {})", count, clean, blanks, trial)
}

fn self_format(seed: u64, format: Format, count: usize) -> String {
    self_hierarchies(format);
    let every = self_every(format);
    let mut r = Random(seed);
    let tables = self_tables(&mut r, format, count);
    let policies = self_policies(&mut r, format, count);
    format!(
        "self: format {}: all {} policies of small tables, {} and {} hold\n",
        format.word(),
        every,
        tables,
        policies
    )
}

pub fn self_check(seed: u64, count: usize) -> String {
    self_samples();
    self_named_tables();
    self_forbidden_below();
    self_chains();
    [
        "self: S1 to S10 in both numberings, samples of format 2, known counts, known chains and the named tables hold\n"
            .to_string(),
        self_format(seed, Format::One, count),
        self_format(seed, Format::Two, count),
        self_second_format(seed),
        self_counts(seed),
        self_roles(seed, count),
        self_maps(seed, count),
        self_carrying(seed, count),
        self_sheets(seed, count),
        self_listings(seed, count),
        self_edits(seed, count),
        self_dtds(seed, count),
    ]
    .concat()
}
