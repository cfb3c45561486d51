// Schemas: types in any numbering with any root, and their words.

use super::chance::Random;
use super::shapes::shape;
use crate::format::Format;
use crate::table::{total, Type, HEADER, RECORD};

pub fn encode(format: Format, types: &[Type]) -> Vec<u16> {
    let entries: usize = types.iter().map(|it| it.children.len()).sum();
    let list = HEADER + RECORD * types.len();
    let v = total(format, types);
    let header = [format.word() as usize, list + entries, types.len(), 0, HEADER, entries, list, v];
    let mut words: Vec<u16> = header.iter().map(|&word| word as u16).collect();
    for (t, it) in types.iter().enumerate() {
        words.extend([it.kind, it.children.len() as u16, entries_before(types, t) as u16]);
    }
    words.extend(types.iter().flat_map(|it| it.children.iter().map(|&x| x as u16)));
    words
}

pub fn entries_before(types: &[Type], t: usize) -> usize {
    types[..t].iter().map(|it| it.children.len()).sum()
}

/// A format, types in any numbering, and which of them is the root. (A shape is types alone: its
/// root is type 0, and each child has a greater number than its parent.)
pub struct Schema {
    pub format: Format,
    pub root: usize,
    pub types: Vec<Type>,
}

impl Schema {
    /// Type 0 is the root.
    pub fn of(format: Format, types: Vec<Type>) -> Schema {
        Schema { format, root: 0, types }
    }

    pub fn words(&self) -> Vec<u16> {
        let mut words = encode(self.format, &self.types);
        words[3] = self.root as u16;
        words
    }

    /// The same schema where type t has the number numbers[t]; children keep their order.
    pub fn renumbered(&self, numbers: &[usize]) -> Schema {
        let mut types = self.types.clone();
        for (t, it) in self.types.iter().enumerate() {
            let children = it.children.iter().map(|&x| numbers[x]).collect();
            types[numbers[t]] = Type { kind: it.kind, children };
        }
        Schema { format: self.format, root: numbers[self.root], types }
    }

    pub fn backwards(&self) -> Schema {
        let numbers: Vec<usize> = (0..self.types.len()).rev().collect();
        self.renumbered(&numbers)
    }

    pub fn by_chance(&self, r: &mut Random) -> Schema {
        self.renumbered(&chance_numbers(r, self.types.len()))
    }
}

pub fn chance_numbers(r: &mut Random, e: usize) -> Vec<usize> {
    let mut numbers: Vec<usize> = (0..e).collect();
    r.shuffle(&mut numbers);
    numbers
}

/// A shape with its own numbers, with those backwards, or with numbers by chance.
pub fn numbered(r: &mut Random, format: Format, types: Vec<Type>) -> Schema {
    let schema = Schema::of(format, types);
    match r.below(16) {
        0..=6 => schema,
        7 | 8 => schema.backwards(),
        _ => schema.by_chance(r),
    }
}

pub fn schema(r: &mut Random, format: Format) -> Schema {
    let types = shape(r, format);
    numbered(r, format, types)
}
