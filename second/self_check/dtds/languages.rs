// The language of a content model as it is written against that of its table.

use super::numbering::made_kinds;
use crate::dtd::declared;
use crate::dtd::language::{taken_by, Runs};
use crate::making::chance::Random;
use crate::making::dtds::pieces::{pieces, text_of};
use crate::making::dtds::sound::{children, distinct, sound_of, MARKS};
use crate::making::dtds::written::{Base, Content, Dtd, Particle};
use crate::self_check::expect;
use crate::table::TEXT;
use std::collections::BTreeSet;

/// The places in a run up to which a particle can take it, from any of some places on.
fn taken_to(particle: &Particle, run: &[usize], from: &BTreeSet<usize>) -> BTreeSet<usize> {
    let once = |from: &BTreeSet<usize>| match &particle.base {
        Base::Name(name) => from.iter().filter(|&&k| run.get(k) == Some(name)).map(|k| k + 1).collect(),
        Base::Group(b'|', parts) => parts.iter().flat_map(|part| taken_to(part, run, from)).collect(),
        Base::Group(_, parts) => parts.iter().fold(from.clone(), |from, part| taken_to(part, run, &from)),
    };
    let often = |from: BTreeSet<usize>| {
        let mut found = from;
        loop {
            let more = &found | &once(&found);
            if more == found {
                return found;
            }
            found = more;
        }
    };
    match particle.mark {
        "?" => from | &once(from),
        "*" => often(from.clone()),
        "+" => often(once(from)),
        _ => once(from),
    }
}

fn takes(content: &Content, run: &[usize]) -> bool {
    match content {
        Content::Children(particle) => taken_to(particle, run, &BTreeSet::from([0])).contains(&run.len()),
        _ => run.is_empty(),
    }
}

/// All runs of some names up to a length.
fn all_runs(names: &[usize], longest: usize) -> Vec<Vec<usize>> {
    let mut found = vec![Vec::new()];
    let mut next = 0;
    while next < found.len() && found[next].len() < longest {
        let run: Vec<usize> = found[next].clone();
        found.extend(names.iter().map(|&name| [&run[..], &[name]].concat()));
        next += 1;
    }
    found
}

/// The names in a particle.
fn names_in(particle: &Particle) -> BTreeSet<usize> {
    match &particle.base {
        Base::Name(name) => BTreeSet::from([*name]),
        Base::Group(_, parts) => parts.iter().flat_map(names_in).collect(),
    }
}

/// Each declared type takes the runs that its content takes, up to a length, and is text exactly if
/// its content is; made types stand in their order.
fn self_language(r: &mut Random, dtd: &Dtd, longest: usize) {
    let text = text_of(&pieces(r, dtd));
    let declared = declared(&text).expect("a text within the grammar and the limits");
    let made: Vec<u16> = declared.types[declared.count()..].iter().map(|it| it.kind).collect();
    expect(made == made_kinds(dtd), "the order of made types");
    let number = |name: usize| dtd.declarations.iter().position(|of| of.0 == name).expect("a declared name");
    for (of, (_, content)) in dtd.declarations.iter().enumerate() {
        let used =
            if let Content::Children(particle) = content { names_in(particle) } else { BTreeSet::new() };
        let names: Vec<usize> = used.into_iter().collect();
        let taken = all_runs(&names, longest).into_iter().filter(|run| takes(content, run));
        let expected: Runs = taken.map(|run| run.into_iter().map(number).collect()).collect();
        expect(taken_by(&declared, of, longest) == expected, "the language of a text and of its table");
        let is_text = matches!(content, Content::Text(_));
        expect((declared.types[of].kind == TEXT) == is_text, "a text type");
    }
}

/// All that two names, the marks and the signs give in so many bytes: particles, and rows of them.
struct Small {
    particles: Vec<Vec<Particle>>,
    rows: [Vec<Vec<Vec<Particle>>>; 2],
}

const SIGNS: [u8; 2] = *b"|,";

impl Small {
    fn up_to(length: usize) -> Small {
        let mut small = Small { particles: Vec::new(), rows: [Vec::new(), Vec::new()] };
        for length in 0..=length {
            small.add_particles(length);
            small.add_rows(length);
        }
        small
    }

    fn unmarked(&self, length: usize) -> Vec<Particle> {
        if length < 3 {
            return if length == 1 { vec![Particle::name(1), Particle::name(2)] } else { Vec::new() };
        }
        let of =
            |k: usize| self.rows[k][length - 2].iter().map(move |row| Particle::group(SIGNS[k], row.clone()));
        // A group of one has no sign.
        let has_sign =
            |group: &Particle| !matches!(&group.base, Base::Group(b'|', parts) if parts.len() == 1);
        of(0).chain(of(1)).filter(has_sign).collect()
    }

    fn add_particles(&mut self, length: usize) {
        let mut found = self.unmarked(length);
        let shorter = if length > 1 { self.unmarked(length - 1) } else { Vec::new() };
        for mark in &MARKS[1..] {
            found.extend(shorter.iter().map(|particle| particle.clone().marked(mark)));
        }
        self.particles.push(found);
    }

    fn add_rows(&mut self, length: usize) {
        for k in 0..2 {
            let mut found: Vec<Vec<Particle>> =
                self.particles[length].iter().map(|particle| vec![particle.clone()]).collect();
            for first in 1..length.saturating_sub(1) {
                for particle in &self.particles[first] {
                    let behind = self.rows[k][length - first - 1].iter();
                    found.extend(behind.map(|row| [&[particle.clone()], &row[..]].concat()));
                }
            }
            self.rows[k].push(found);
        }
    }
}

/// A text with this model, over two empty types.
fn over_two(model: Particle) -> Dtd {
    let names = ["r", "a", "b"].map(|name| name.as_bytes().to_vec()).to_vec();
    Dtd { names, declarations: vec![(0, Content::Children(model)), (1, Content::Empty), (2, Content::Empty)] }
}

/// Gives the number of models.
pub fn self_all_models(r: &mut Random, length: usize) -> usize {
    let small = Small::up_to(length);
    let is_group = |model: &&Particle| matches!(model.base, Base::Group(..));
    let models: Vec<&Particle> = small.particles.iter().flatten().filter(is_group).collect();
    for &model in &models {
        self_language(r, &over_two(model.clone()), 4);
    }
    models.len()
}

/// A sound text, or one with a model where names come more than once.
pub fn self_any_model(r: &mut Random) {
    let e = 2 + r.below(4);
    let mut dtd = sound_of(r, e);
    if r.one_in(2) {
        let names: Vec<usize> = (0..1 + r.below(6)).map(|_| r.below(3.min(e))).collect();
        let k = r.below(e);
        dtd.declarations[k].1 = children(r, &names);
        dtd.names = distinct(r, e);
    }
    self_language(r, &dtd, 4);
}
