// Cases of kind 9: a table, its marks and the kept entries as lent, and edits, each made on the marks and entries that the one before left; and
// the call that is made of each edit.

use crate::answers::Outcome;
use crate::calls::{Call, Told, POLICY, TABLE};
use crate::editing::edit_mark;
use crate::fail;
use crate::format::Format;
use crate::stream::{
    put_bytes, put_numbers, put_words, take_bytes, take_numbers, take_words, to_bytes, to_words,
};

pub const KIND: u8 = 9;

#[derive(Clone, Copy, PartialEq)]
pub struct Edit {
    pub privilege: u32,
    pub mark: u8,
}

#[derive(Clone, PartialEq)]
pub struct EditCase {
    pub words: Vec<u16>,
    pub marks: Vec<u8>,
    pub kept: Vec<u16>,
    pub edits: Vec<Edit>,
}

/// One edit of a case, and what is lent to it.
#[derive(Clone, PartialEq)]
pub struct Step {
    pub words: Vec<u16>,
    pub marks: Vec<u8>,
    pub kept: Vec<u16>,
    pub edit: Edit,
}

impl Step {
    /// A call that may write the marks and the entries gets its own copies of them.
    pub fn writing(&self, call: impl Fn(&[u16], &mut [u8], &mut [u16], usize, u8) -> Outcome) -> Told {
        let (mut marks, mut kept) = (self.marks.clone(), self.kept.clone());
        let Edit { privilege, mark } = self.edit;
        let outcome = call(&self.words, &mut marks, &mut kept, privilege as usize, mark);
        Told::writing(outcome, vec![marks, to_bytes(&kept)])
    }
}

/// The marks and the entries afterwards.
pub fn written(told: &Told) -> (Vec<u8>, Vec<u16>) {
    (told.written[0].clone(), to_words(&told.written[1]))
}

pub const CALLS: [Call<Step>; 1] = [Call {
    name: "edit",
    numbers: &[TABLE, POLICY, &[12]],
    breaches: true,
    make: |step| step.writing(edit_mark),
}];

/// Two numbers for each edit: its privilege and its mark.
fn take_edits(stream: &mut &[u8]) -> Vec<Edit> {
    let numbers = take_numbers(stream);
    let edit = |two: &[u32]| match *two {
        [privilege, mark] if mark <= u8::MAX as u32 => Edit { privilege, mark: mark as u8 },
        [_, _] => fail("a mark over 255"),
        _ => fail("an edit without a mark"),
    };
    numbers.chunks(2).map(edit).collect()
}

fn put_edits(stream: &mut Vec<u8>, edits: &[Edit]) {
    let numbers: Vec<u32> = edits.iter().flat_map(|edit| [edit.privilege, edit.mark as u32]).collect();
    put_numbers(stream, &numbers);
}

impl EditCase {
    pub fn read(stream: &mut &[u8]) -> EditCase {
        EditCase {
            words: take_words(stream),
            marks: take_bytes(stream).to_vec(),
            kept: take_words(stream),
            edits: take_edits(stream),
        }
    }

    pub fn write(&self, stream: &mut Vec<u8>) {
        put_words(stream, &self.words);
        put_bytes(stream, &self.marks);
        put_words(stream, &self.kept);
        put_edits(stream, &self.edits);
    }

    /// Whether word 0 is that of this format.
    pub fn has(&self, format: Format) -> bool {
        self.words.first() == Some(&format.word())
    }

    /// Each edit in its turn, and what is told of it.
    pub fn steps(&self) -> Vec<(Step, Told)> {
        let (mut marks, mut kept) = (self.marks.clone(), self.kept.clone());
        let mut steps = Vec::new();
        for &edit in &self.edits {
            let step = Step { words: self.words.clone(), marks, kept, edit };
            let told = (CALLS[0].make)(&step);
            (marks, kept) = written(&told);
            steps.push((step, told));
        }
        steps
    }
}
