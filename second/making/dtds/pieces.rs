// Declarations as text, in pieces: with blanks and comments by chance.

use super::written::{Base, Content, Dtd, Particle};
use crate::making::chance::Random;

/// What a piece is.
#[derive(Clone, Copy, Debug, PartialEq)]
pub enum Token {
    /// Blanks between declarations.
    Space,
    Comment,
    /// `<!ELEMENT`
    Open,
    /// Blanks within a declaration.
    Blank,
    /// A name that is declared.
    Declared,
    Empty,
    Any,
    /// `#PCDATA`
    Text,
    Left,
    Right,
    /// A name that is used.
    Used,
    Sign,
    Mark,
    /// `>`
    End,
}

#[derive(Clone)]
pub struct Piece {
    pub token: Token,
    pub bytes: Vec<u8>,
}

pub fn text_of(pieces: &[Piece]) -> Vec<u8> {
    pieces.iter().flat_map(|piece| piece.bytes.iter().copied()).collect()
}

/// Where a piece starts.
pub fn start_of(pieces: &[Piece], k: usize) -> usize {
    pieces[..k].iter().map(|piece| piece.bytes.len()).sum()
}

pub fn blanks(r: &mut Random) -> Vec<u8> {
    let count = r.pick(&[1, 1, 1, 1, 1, 2, 3]);
    (0..count).map(|_| r.pick(b"     \n\n\t\r")).collect()
}

/// What stands in a comment: parts that look like others, odd bytes, and dashes that stand alone.
fn comment_part(r: &mut Random) -> Vec<u8> {
    let any = r.next() as u8;
    let any = r.pick(&[0, 1, 127, 128, 195, 255, any]);
    let beside = r.pick(&[b' ', b'>', b'a', b'<', any]);
    match r.below(8) {
        0 => b"<!ELEMENT a ANY>".to_vec(),
        1 => b"(#PCDATA|a)".to_vec(),
        2 | 3 if beside != b'-' => vec![b'-', beside],
        4 if any != b'-' => vec![any],
        _ => b"a comment "[..r.below(11)].to_vec(),
    }
}

pub fn comment(r: &mut Random) -> Vec<u8> {
    let mut comment = b"<!--".to_vec();
    for _ in 0..r.below(4) {
        comment.extend(comment_part(r));
    }
    comment.extend(b"-->");
    comment
}

/// Writes pieces; a blank that need not stand is written once in so many times.
pub struct Writer<'a> {
    r: &'a mut Random,
    rare: usize,
    pub pieces: Vec<Piece>,
}

impl<'a> Writer<'a> {
    pub fn new(r: &'a mut Random) -> Writer<'a> {
        let rare = r.pick(&[1, 2, 4, 1000]);
        Writer { r, rare, pieces: Vec::new() }
    }

    fn put(&mut self, token: Token, bytes: &[u8]) {
        self.pieces.push(Piece { token, bytes: bytes.to_vec() });
    }

    fn blank(&mut self) {
        let blanks = blanks(self.r);
        self.put(Token::Blank, &blanks);
    }

    fn optional_blank(&mut self) {
        if self.r.one_in(self.rare) {
            self.blank();
        }
    }

    /// Blanks and comments between declarations.
    pub fn between(&mut self) {
        for _ in 0..self.r.pick(&[0, 1, 1, 1, 2]) {
            if self.r.one_in(6) {
                let comment = comment(self.r);
                self.put(Token::Comment, &comment);
            } else {
                let blanks = blanks(self.r);
                self.put(Token::Space, &blanks);
            }
        }
    }

    fn particle(&mut self, dtd: &Dtd, particle: &Particle) {
        match &particle.base {
            Base::Name(name) => self.put(Token::Used, &dtd.names[*name]),
            Base::Group(sign, parts) => {
                self.put(Token::Left, b"(");
                for (k, part) in parts.iter().enumerate() {
                    if k > 0 {
                        self.optional_blank();
                        self.put(Token::Sign, &[*sign]);
                    }
                    self.optional_blank();
                    self.particle(dtd, part);
                }
                self.optional_blank();
                self.put(Token::Right, b")");
            }
        }
        self.mark(particle.mark);
    }

    fn mark(&mut self, mark: &str) {
        if !mark.is_empty() {
            self.put(Token::Mark, mark.as_bytes());
        }
    }

    fn content(&mut self, dtd: &Dtd, content: &Content) {
        match content {
            Content::Empty => self.put(Token::Empty, b"EMPTY"),
            Content::Any => self.put(Token::Any, b"ANY"),
            Content::Children(particle) => self.particle(dtd, particle),
            Content::Text(mark) => {
                self.put(Token::Left, b"(");
                self.optional_blank();
                self.put(Token::Text, b"#PCDATA");
                self.optional_blank();
                self.put(Token::Right, b")");
                self.mark(mark);
            }
        }
    }

    fn declaration(&mut self, dtd: &Dtd, name: usize, content: &Content) {
        self.put(Token::Open, b"<!ELEMENT");
        self.blank();
        self.put(Token::Declared, &dtd.names[name]);
        self.blank();
        self.content(dtd, content);
        self.optional_blank();
        self.put(Token::End, b">");
    }

    pub fn write(&mut self, dtd: &Dtd) {
        self.between();
        for (name, content) in &dtd.declarations {
            self.declaration(dtd, *name, content);
            self.between();
        }
    }
}

pub fn pieces(r: &mut Random, dtd: &Dtd) -> Vec<Piece> {
    let mut writer = Writer::new(r);
    writer.write(dtd);
    writer.pieces
}
