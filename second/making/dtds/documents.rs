// What another reader of DTDs is asked: documents for a text, and texts.

use super::known_cases;
use super::pieces::{pieces, text_of};
use super::sound::{children, sound_of};
use super::written::Dtd;
use crate::answers::answer;
use crate::dtd::faults::Reason;
use crate::dtd::language::{taken_by, Runs};
use crate::dtd::standing::Standing;
use crate::dtd::{declared, read_dtd, Declared};
use crate::making::chance::Random;
use crate::table::{EMPTY, TEXT};

/// The longest run of children that is asked about.
const LONGEST: usize = 5;

/// A text, documents that it takes, and documents that it does not.
pub struct Documents {
    pub text: Vec<u8>,
    pub right: Vec<String>,
    pub wrong: Vec<String>,
}

/// The names of a text, its types, and the runs that each of them takes.
struct Schema {
    names: Vec<String>,
    declared: Declared,
    runs: Vec<Runs>,
}

impl Schema {
    fn of(text: &[u8], dtd: &Dtd) -> Schema {
        let name = |of: usize| String::from_utf8(dtd.names[of].clone()).expect("names are ASCII");
        let names = dtd.declarations.iter().map(|(of, _)| name(*of)).collect();
        let declared = declared(text).expect("an accepted text");
        let runs = (0..declared.count()).map(|of| taken_by(&declared, of, LONGEST)).collect();
        Schema { names, declared, runs }
    }

    fn kind(&self, of: usize) -> u16 {
        self.declared.types[of].kind
    }

    fn with(&self, of: usize, content: &str) -> String {
        format!("<{0}>{1}</{0}>", self.names[of], content)
    }

    /// An element with this run of children, each of which is right.
    fn element(&self, r: &mut Random, of: usize, run: &[usize]) -> String {
        let between = if self.kind(of) == EMPTY { "" } else { r.pick(&["", "", "\n", " "]) };
        let mut content = if self.kind(of) == TEXT { r.pick(&["", "text"]) } else { "" }.to_string();
        for &child in run {
            content += between;
            content += &self.right(r, child);
        }
        self.with(of, &content)
    }

    /// A right element, as a rule a short one.
    fn right(&self, r: &mut Random, of: usize) -> String {
        let runs: Vec<&Vec<usize>> = self.runs[of].iter().collect();
        let shortest = runs.iter().min_by_key(|run| run.len()).expect("a run that the type takes");
        let run = if r.one_in(4) { r.pick(&runs) } else { shortest };
        self.element(r, of, run)
    }

    /// A run with a child more, fewer or another, or with two that changed places.
    fn near(&self, r: &mut Random, run: &[usize]) -> Vec<usize> {
        let mut near = run.to_vec();
        let other = r.below(self.declared.count());
        let k = r.below(near.len() + 1);
        match r.below(4) {
            1 if k < near.len() => drop(near.remove(k)),
            2 if k < near.len() => near[k] = other,
            3 if k + 1 < near.len() => near.swap(k, k + 1),
            _ => near.insert(k, other),
        }
        near
    }

    /// Elements with a child that is not declared, with text where there is none, or with a blank where nothing is.
    fn misplaced(&self, of: usize) -> Vec<String> {
        let unknown = self.with(of, "<unknown-name/>");
        match self.kind(of) {
            TEXT => vec![unknown],
            EMPTY => vec![unknown, self.with(of, "text"), self.with(of, " ")],
            _ => vec![unknown, self.with(of, "text")],
        }
    }

    /// Adds documents with an element of this type at the top.
    fn add(&self, r: &mut Random, of: usize, right: &mut Vec<String>, wrong: &mut Vec<String>) {
        let runs: Vec<&Vec<usize>> = self.runs[of].iter().collect();
        for _ in 0..4 {
            let run = r.pick(&runs);
            right.push(self.element(r, of, run));
            let near = self.near(r, run);
            if near.len() <= LONGEST && !self.runs[of].contains(&near) {
                wrong.push(self.element(r, of, &near));
            }
        }
        wrong.extend(self.misplaced(of));
    }
}

/// Whether every reader reads these bytes alike.
fn is_plain(text: &[u8]) -> bool {
    text.iter().all(|&byte| byte.is_ascii_graphic() || b" \t\r\n".contains(&byte))
}

/// An accepted text without colons, which mean something in documents. Every third has a model where
/// names come more than once.
fn plain(r: &mut Random) -> (Dtd, Vec<u8>) {
    loop {
        let e = 2 + r.below(4);
        let mut dtd = sound_of(r, e);
        if r.one_in(3) {
            let names: Vec<usize> = (0..2 + r.below(4)).map(|_| 1 + r.below(e - 1)).collect();
            dtd.declarations[0].1 = children(r, &names);
        }
        let text = text_of(&pieces(r, &dtd));
        let is_accepted = answer(read_dtd(&text, &mut [0; 1000])).number == 0;
        if is_accepted && is_plain(&text) && !dtd.names.concat().contains(&b':') {
            return (dtd, text);
        }
    }
}

pub fn documents(r: &mut Random) -> Documents {
    let (dtd, text) = plain(r);
    let schema = Schema::of(&text, &dtd);
    let (mut right, mut wrong) = (Vec::new(), Vec::new());
    for of in 0..schema.declared.count() {
        schema.add(r, of, &mut right, &mut wrong);
    }
    Documents { text, right, wrong }
}

/// What others read in a DTD and this grammar does not have.
const OTHERS: [&str; 6] = ["%", "<?", "<![", "<!A", "<!N", "<!EN"];

/// Whether every reader says the same of a text. Others take one without a declaration.
fn is_asked(text: &[u8]) -> bool {
    let has = |part: &str| text.windows(part.len()).any(|bytes| bytes == part.as_bytes());
    let reason = Standing::of(text).fault().map(|fault| fault.reason);
    is_plain(text) && !OTHERS.into_iter().any(has) && reason != Some(Reason::NoDeclaration)
}

/// Such texts, and whether they are of the grammar.
pub fn texts(seed: u64, count: usize) -> impl Iterator<Item = (Vec<u8>, bool)> {
    let short = known_cases(seed, usize::MAX).map(|(case, _)| case.text).filter(|text| text.len() < 1000);
    let judged = |text: Vec<u8>| {
        let is_whole = Standing::of(&text).is_whole();
        (text, is_whole)
    };
    short.filter(|text| is_asked(text)).take(count).map(judged)
}
