// Texts that are made for an answer, in many ways.

use super::cuts::{cut, foreign, no_declaration, wrong};
use super::likes::{like, LIKES};
use super::limits::{LARGE, LIMITS};
use super::pieces::Token;
use super::tables::TABLES;
use crate::making::chance::Random;

/// A text, the number that it is to be answered with, and the place where that is known.
pub struct Aimed {
    pub text: Vec<u8>,
    pub number: usize,
    pub place: Option<usize>,
}

pub type Maker = fn(&mut Random) -> Aimed;

pub enum Way {
    /// The text ends so many bytes behind the start of such a piece or, if that is not positive, its end.
    Cut(Token, isize),
    /// In such a piece another byte stands so many bytes behind its start.
    Wrong(Token, usize),
    /// Behind such a piece stands a byte that is in no declaration.
    Foreign(Token),
    /// In the text stands something like this, and its place is where `^` is.
    Like(usize, &'static str),
    Made(&'static str, Maker),
}

impl Way {
    pub fn make(&self, r: &mut Random) -> Aimed {
        match self {
            Way::Cut(token, at) => cut(r, *token, *at),
            Way::Wrong(token, at) => wrong(r, *token, *at),
            Way::Foreign(token) => foreign(r, *token),
            Way::Like(number, text) => like(r, *number, text),
            Way::Made(_, make) => make(r),
        }
    }

    pub fn name(&self) -> String {
        match self {
            Way::Cut(token, at) => format!("ends in {:?} at {}", token, at),
            Way::Wrong(token, at) => format!("another byte in {:?} at {}", token, at),
            Way::Foreign(token) => format!("a foreign byte behind {:?}", token),
            Way::Like(number, text) => format!("{} {}", number, text),
            Way::Made(name, _) => name.to_string(),
        }
    }
}

/// The keywords, each with the places within it.
const KEYWORDS: [(Token, usize); 4] =
    [(Token::Open, 9), (Token::Empty, 5), (Token::Any, 3), (Token::Text, 7)];

/// The places within a comment that are not within `<!ELEMENT` too.
const IN_COMMENT: [isize; 5] = [3, 4, -3, -2, -1];

/// What a declaration consists of, ANY apart.
const IN_DECLARATION: [Token; 10] = [
    Token::Open,
    Token::Blank,
    Token::Declared,
    Token::Empty,
    Token::Text,
    Token::Left,
    Token::Right,
    Token::Used,
    Token::Sign,
    Token::Mark,
];

const BETWEEN: [Token; 3] = [Token::Space, Token::Comment, Token::End];

/// The ways to an answer that a few bytes give.
pub fn ways_by_bytes() -> Vec<Way> {
    let within = || KEYWORDS.into_iter().flat_map(|(token, length)| (1..length).map(move |at| (token, at)));
    let mut ways: Vec<Way> = Vec::new();
    ways.extend(within().map(|(token, at)| Way::Cut(token, at as isize)));
    ways.extend(IN_COMMENT.map(|at| Way::Cut(Token::Comment, at)));
    ways.extend(IN_DECLARATION.map(|token| Way::Cut(token, 0)));
    ways.extend(within().map(|(token, at)| Way::Wrong(token, at)));
    ways.push(Way::Wrong(Token::Comment, 3));
    ways.extend(IN_DECLARATION.iter().chain(&BETWEEN).map(|&token| Way::Foreign(token)));
    ways.extend(LIKES.map(|(number, text)| Way::Like(number, text)));
    ways
}

fn made(makers: &[(&'static str, Maker)]) -> Vec<Way> {
    makers.iter().map(|&(name, make)| Way::Made(name, make)).collect()
}

/// The ways to the limits and to the table's answers, but for those of long texts.
pub fn ways_by_whole() -> Vec<Way> {
    made(&[&[("no declaration", no_declaration as Maker)], LIMITS, TABLES].concat())
}

pub fn large_ways() -> Vec<Way> {
    made(LARGE)
}

/// All ways, in turn.
pub fn ways() -> Vec<Way> {
    ways_by_bytes().into_iter().chain(ways_by_whole()).chain(large_ways()).collect()
}
