// Making cases: the same ones for the same seed.

mod aims;
pub mod bases;
pub mod carrying;
mod chains;
pub mod chance;
pub mod cycles;
mod damage;
pub mod dtds;
pub mod edits;
pub mod files;
pub mod listings;
pub mod maps;
pub mod policies;
pub mod roles;
pub mod schemas;
pub mod second_format;
mod shapes;
pub mod sheets;
pub mod sums;

use crate::cases::Case;
use crate::format::Format;
use crate::policy_case::PolicyCase;
use crate::table::{check_table, MOST_PRIVILEGES};
use chance::Random;
use cycles::long_cycle;
use damage::spoil;
use edits::Editing;
use listings::reading::Reading;
use listings::writing::Writing;
use policies::{lent, policy, proposal};
use schemas::{schema, Schema};
use shapes::{full_ladder, large, long_chain};
use sheets::Month;
use sums::Sheets;

fn sound_case(r: &mut Random, schema: &Schema) -> PolicyCase {
    let words = schema.words();
    let table = check_table(&words).expect("a shape is accepted in every numbering");
    let marks = policy(r, &table);
    let proposed = proposal(r, &table, &marks);
    let out = lent(r, table.v());
    PolicyCase { words, marks, out, proposed }
}

fn case_of(r: &mut Random, schema: &Schema) -> PolicyCase {
    let mut case = sound_case(r, schema);
    spoil(r, schema, &mut case);
    case
}

/// 256 types in a chain, each with a greater number than its child or with numbers by chance.
fn chain_case(r: &mut Random, format: Format, descending: bool) -> PolicyCase {
    let chain = Schema::of(format, long_chain(r));
    let chain = if descending { chain.backwards() } else { chain.by_chance(r) };
    sound_case(r, &chain)
}

fn cycle_case(r: &mut Random, format: Format) -> PolicyCase {
    let schema = schema(r, format);
    PolicyCase { words: long_cycle(r, format, 0).words(), ..sound_case(r, &schema) }
}

/// As many privileges as there may be or nearly, with numbers by chance.
fn full_case(r: &mut Random, format: Format) -> PolicyCase {
    let types = if r.one_in(2) { full_ladder(r, format) } else { large(r, format, MOST_PRIVILEGES) };
    let full = Schema::of(format, types).by_chance(r);
    sound_case(r, &full)
}

fn any_case(r: &mut Random, format: Format) -> PolicyCase {
    let schema = schema(r, format);
    case_of(r, &schema)
}

/// Policy k of format 1: in its turn a chain or a cycle of 256 types, a full table, or one made for a breach's chain, else what chance gives.
fn make_policy(r: &mut Random, k: usize) -> PolicyCase {
    match k % 480 {
        40 | 280 => chain_case(r, Format::One, true),
        160 | 400 => chain_case(r, Format::One, false),
        80 | 200 | 320 | 440 => cycle_case(r, Format::One),
        240 => full_case(r, Format::One),
        n if n % 24 == 12 => chains::case(r, Format::One, k / 24),
        _ => any_case(r, Format::One),
    }
}

fn policies(seed: u64, count: usize) -> impl Iterator<Item = PolicyCase> {
    let mut r = Random(seed);
    (0..count).map(move |k| make_policy(&mut r, k))
}

/// So many policies of format 1, then so many DTD texts, then so many policies of format 2 or of another word 0, then so many calls on roles,
/// then so many on bit maps, then so many that carry marks to a new table, then so many sheets of roles, then so many sums of sheets, then so
/// many listings that are written, then so many that are read, and then so many of edits.
pub fn cases(
    seed: u64,
    [count, dtds, second_format, roles, maps, carry, sheets, sums, writes, reads, edits]: [usize; 11],
) -> impl Iterator<Item = Case> {
    let of_one = policies(seed, count).map(Case::Policy).chain(dtds::cases(seed, dtds).map(Case::Dtd));
    let of_two = second_format::cases(seed, second_format).map(Case::Policy);
    let (roles, maps) = (roles::cases(seed, roles), maps::cases(seed, maps));
    let carry = carrying::cases(seed, carry).map(Case::Carry);
    let (sheets, sums) = (bases::cases::<Month>(seed, sheets), bases::cases::<Sheets>(seed, sums));
    let of_policies = of_one.chain(of_two).chain(roles.map(Case::Roles)).chain(maps.map(Case::Maps));
    let of_tables = of_policies.chain(carry).chain(sheets.map(Case::Sheet)).chain(sums.map(Case::Sum));
    let (writes, reads) = (bases::cases::<Writing>(seed, writes), bases::cases::<Reading>(seed, reads));
    let edits = bases::cases::<Editing>(seed, edits).map(Case::Edit);
    of_tables.chain(writes.map(Case::Write)).chain(reads.map(Case::Read)).chain(edits)
}
