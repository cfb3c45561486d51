// Number 20 at a piece: texts that end in it, with another byte in it, or with a foreign one behind it; and texts without a declaration.

use super::aimed::Aimed;
use super::pieces::{pieces, start_of, text_of, Piece, Token, Writer};
use super::sound::sound;
use super::written::Content;
use crate::making::chance::Random;

/// Bytes that stand in no declaration.
const FOREIGN: &[u8] = b"%&;\"'=/[]{}@$~\\\x00\x0B\x0C\x1F\x7F\x80\x9F\xA0\xC3\xE9\xFE\xFF\x85\xB7\xD7\xF7";

fn not_grammar(text: Vec<u8>, place: usize) -> Aimed {
    Aimed { text, number: 20, place: Some(place) }
}

/// A sound text with such a piece, and which it is. It has ANY where that is asked for.
fn with(r: &mut Random, token: Token) -> (Vec<Piece>, usize) {
    loop {
        let mut dtd = sound(r);
        if token == Token::Any {
            let k = r.below(dtd.declarations.len());
            dtd.declarations[k].1 = Content::Any;
        }
        let pieces = pieces(r, &dtd);
        let such: Vec<usize> = (0..pieces.len()).filter(|&k| pieces[k].token == token).collect();
        if !such.is_empty() {
            let k = r.pick(&such);
            return (pieces, k);
        }
    }
}

pub fn cut(r: &mut Random, token: Token, at: isize) -> Aimed {
    let (pieces, k) = with(r, token);
    let from = if at > 0 { start_of(&pieces, k) } else { start_of(&pieces, k + 1) };
    let length = from.checked_add_signed(at).expect("a place in the text");
    let mut text = text_of(&pieces);
    text.truncate(length);
    not_grammar(text, length)
}

pub fn wrong(r: &mut Random, token: Token, at: usize) -> Aimed {
    let (pieces, k) = with(r, token);
    let place = start_of(&pieces, k) + at;
    let mut text = text_of(&pieces);
    // Behind `<!` a dash begins a comment.
    let stands = |byte: u8| byte == text[place] || (token == Token::Open && at == 2 && byte == b'-');
    let others: Vec<u8> = (0..=255).filter(|&byte| !stands(byte)).collect();
    text[place] = if r.one_in(2) { r.pick(&others) } else { near(r, &others) };
    not_grammar(text, place)
}

/// One of the bytes that stand somewhere in a declaration.
fn near(r: &mut Random, others: &[u8]) -> u8 {
    loop {
        let byte = r.pick(b"<!ELEMENT-> (#PCDATA)|,?*+a\nemptyany");
        if others.contains(&byte) {
            return byte;
        }
    }
}

pub fn foreign_byte(r: &mut Random) -> u8 {
    r.pick(FOREIGN)
}

pub fn foreign(r: &mut Random, token: Token) -> Aimed {
    let (pieces, k) = with(r, token);
    let place = start_of(&pieces, k + 1);
    let mut text = text_of(&pieces);
    text.insert(place, foreign_byte(r));
    not_grammar(text, place)
}

/// Nothing, or blanks and comments.
pub fn no_declaration(r: &mut Random) -> Aimed {
    let parts = r.below(4);
    let mut writer = Writer::new(r);
    (0..parts).for_each(|_| writer.between());
    let text = text_of(&writer.pieces);
    let place = text.len();
    not_grammar(text, place)
}
