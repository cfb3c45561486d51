// Every policy of some small tables, in both formats.

use super::policies::self_policy;
use crate::format::Format;
use crate::making::schemas::Schema;
use crate::table::{check_table, Type, CHOICE, EMPTY, SEQUENCE, STAR, TEXT};

/// Types as kind and children, type 0 being the root.
pub type Shape = &'static [(u16, &'static [usize])];

const SHAPES: [Shape; 12] = [
    &[(STAR, &[1]), (TEXT, &[])],
    &[(STAR, &[1]), (EMPTY, &[])],
    &[(STAR, &[1]), (STAR, &[2]), (TEXT, &[])],
    &[(STAR, &[1]), (STAR, &[2]), (EMPTY, &[])],
    &[(SEQUENCE, &[1, 2]), (STAR, &[3]), (STAR, &[3]), (TEXT, &[])],
    &[(CHOICE, &[1]), (TEXT, &[])],
    &[(CHOICE, &[1]), (STAR, &[2]), (TEXT, &[])],
    &[(CHOICE, &[1, 2]), (TEXT, &[]), (EMPTY, &[])],
    &[(CHOICE, &[1, 2]), (TEXT, &[]), (TEXT, &[])],
    &[(CHOICE, &[1, 2, 3]), (EMPTY, &[]), (EMPTY, &[]), (EMPTY, &[])],
    &[(CHOICE, &[1, 2]), (STAR, &[2]), (TEXT, &[])],
    &[(STAR, &[1]), (CHOICE, &[2, 3]), (TEXT, &[]), (EMPTY, &[])],
];

pub fn schema(format: Format, shape: Shape) -> Schema {
    let types = shape.iter().map(|&(kind, children)| Type { kind, children: children.to_vec() });
    Schema::of(format, types.collect())
}

/// Policy number n of 3 to the power of v: its marks are the digits of n in base 3.
fn policy(v: usize, n: usize) -> Vec<u8> {
    (0..v as u32).map(|p| (n / 3usize.pow(p) % 3) as u8).collect()
}

/// Gives the number of policies.
fn self_schema(schema: &Schema) -> usize {
    let table = check_table(&schema.words()).expect("a small table is accepted");
    let count = 3usize.pow(table.v() as u32);
    for n in 0..count {
        self_policy(schema, &table, &policy(table.v(), n));
    }
    count
}

/// Each table with its numbers and with those backwards; gives the number of policies.
pub fn self_every(format: Format) -> usize {
    let both = |&shape: &Shape| [schema(format, shape), schema(format, shape).backwards()];
    SHAPES.iter().flat_map(both).map(|schema| self_schema(&schema)).sum()
}
