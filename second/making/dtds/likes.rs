// Numbers 20 and 21 as people would come to them.

use super::aimed::Aimed;
use super::pieces::{blanks, pieces, text_of, Writer};
use super::sound::sound;
use crate::making::chance::Random;

/// The number, and a text with its place at `^`. A blank stands for one or more, and where `^` is not
/// the end anything may follow.
pub const LIKES: [(usize, &str); 98] = [
    (20, "<!ELEMENT^a EMPTY>"),
    (20, "<!ELEMENT^>"),
    (20, "<!ELEMENT ^>"),
    (20, "<!ELEMENT ^(b) EMPTY>"),
    (20, "<!ELEMENT ^1a EMPTY>"),
    (20, "<!ELEMENT ^-a EMPTY>"),
    (20, "<!ELEMENT ^.a EMPTY>"),
    (20, "<!ELEMENT ^<!---->a EMPTY>"),
    (20, "<!ELEMENT a^>"),
    (20, "<!ELEMENT a ^>"),
    (20, "<!ELEMENT a^(b)>"),
    (20, "<!ELEMENT a^,b EMPTY>"),
    (20, "<!ELEMENT a ^b>"),
    (20, "<!ELEMENT a ^empty>"),
    (20, "<!ELEMENT a ^#PCDATA>"),
    (20, "<!ELEMENT a ^%b;>"),
    (20, "<!ELEMENT a ^-- b -- EMPTY>"),
    (20, "<!ELEMENT a ^<!-- b --> EMPTY>"),
    (20, "<!ELEMENT a EMPTY^X>"),
    (20, "<!ELEMENT a EMPTY^(b)>"),
    (20, "<!ELEMENT a EMPTY^*>"),
    (20, "<!ELEMENT a EMPTY ^b>"),
    (20, "<!ELEMENT a EMPTY ^<!ELEMENT b EMPTY>"),
    (20, "<!ELEMENT a AN^X>"),
    (20, "<!ELEMENT a AN^>"),
    (20, "<!ELEMENT a A^ NY>"),
    (20, "<!ELEMENT a ((^#PCDATA))>"),
    (20, "<!ELEMENT a (b,^#PCDATA)>"),
    (20, "<!ELEMENT a (b|^#PCDATA)*>"),
    (20, "<!ELEMENT a (#^ PCDATA)>"),
    (20, "<!ELEMENT a (#PCDATA^S)>"),
    (20, "<!ELEMENT a (#PCDATA^,b)>"),
    (20, "<!ELEMENT a (#PCDATA^?)>"),
    (20, "<!ELEMENT a (#PCDATA ^b)>"),
    (20, "<!ELEMENT a (#PCDATA)^?>"),
    (20, "<!ELEMENT a (#PCDATA)^+>"),
    (20, "<!ELEMENT a (#PCDATA) ^*>"),
    (20, "<!ELEMENT a (#PCDATA)*^*>"),
    (20, "<!ELEMENT a (^)>"),
    (20, "<!ELEMENT a ( ^)>"),
    (20, "<!ELEMENT a (^,b)>"),
    (20, "<!ELEMENT a (^|b)>"),
    (20, "<!ELEMENT a (^?b)>"),
    (20, "<!ELEMENT a (^1b)>"),
    (20, "<!ELEMENT a (^%b;)>"),
    (20, "<!ELEMENT a (b ^c)>"),
    (20, "<!ELEMENT a (b^>"),
    (20, "<!ELEMENT a (b^(c))>"),
    (20, "<!ELEMENT a (b ^?)>"),
    (20, "<!ELEMENT a (b?^?)>"),
    (20, "<!ELEMENT a (b*^+)>"),
    (20, "<!ELEMENT a (b?^c)>"),
    (20, "<!ELEMENT a (b,^)>"),
    (20, "<!ELEMENT a (b,^,c)>"),
    (20, "<!ELEMENT a (b|^)>"),
    (20, "<!ELEMENT a (b|c^>"),
    (20, "<!ELEMENT a (b,c^|d)>"),
    (20, "<!ELEMENT a (b|c^,d)>"),
    (20, "<!ELEMENT a ((b|c),d ^| e)>"),
    (20, "<!ELEMENT a ((b,c)|d^,e)>"),
    (20, "<!ELEMENT a (b)^)>"),
    (20, "<!ELEMENT a (b)^(c)>"),
    (20, "<!ELEMENT a (b)^,(c)>"),
    (20, "<!ELEMENT a (b) ^*>"),
    (20, "<!ELEMENT a (b)*^*>"),
    (20, "<!ELEMENT a (b)^<!-- c -->>"),
    (20, "^>"),
    (20, "^a"),
    (20, "^%b;"),
    (20, "^]]>"),
    (20, "<^ !ELEMENT a EMPTY>"),
    (20, "<^?xml version='1.0'?>"),
    (20, "<!^ ELEMENT a EMPTY>"),
    (20, "<!^element a EMPTY>"),
    (20, "<!^ATTLIST a b CDATA #IMPLIED>"),
    (20, "<!E^NTITY a 'b'>"),
    (20, "<!^[INCLUDE[]]>"),
    (20, "<!-^ a -->"),
    (20, "<!-- a --^ b -->"),
    (20, "<!-- a --^->"),
    (20, "<!--->^"),
    (20, "<!-->^"),
    (20, "<!ELEMENT a ^"),
    (20, "<!ELEMENT a (^"),
    (20, "<!ELEMENT a (#PCDATA^"),
    (20, "<!ELEMENT a (#PCDATA)^"),
    (20, "<!ELEMENT a (b|c^"),
    (20, "<!ELEMENT a (b)^"),
    (21, "<!ELEMENT a ^ANY>"),
    (21, "<!ELEMENT a ^ANYX>"),
    (21, "<!ELEMENT a ^ANY"),
    (21, "<!ELEMENT a ^ANY><!ELEMENT b EMPTYX>"),
    (20, "<!ELEMENT a EMPTY^X><!ELEMENT b ANY>"),
    (21, "<!ELEMENT a (#PCDATA^|b)*>"),
    (21, "<!ELEMENT a ( #PCDATA ^| b | c )*>"),
    (21, "<!ELEMENT a (#PCDATA ^|"),
    (21, "<!ELEMENT a (#PCDATA^|)>"),
    (21, "<!ELEMENT a (#PCDATA^|b)>"),
];

/// What may stand before: nothing, blanks and comments, or declarations too.
pub fn before(r: &mut Random) -> Vec<u8> {
    if r.one_in(2) {
        let dtd = sound(r);
        return text_of(&pieces(r, &dtd));
    }
    let mut writer = Writer::new(r);
    writer.between();
    text_of(&writer.pieces)
}

/// What may follow where it does not matter.
pub fn behind(r: &mut Random) -> Vec<u8> {
    match r.below(4) {
        0 => Vec::new(),
        1 => (0..r.below(12)).map(|_| r.next() as u8).collect(),
        2 => b"<!ELEMENT b ANY>".to_vec(),
        _ => before(r),
    }
}

pub fn like(r: &mut Random, number: usize, shown: &str) -> Aimed {
    let mut text = before(r);
    let mut place = 0;
    for byte in shown.bytes() {
        match byte {
            b'^' => place = text.len(),
            b' ' => text.extend(blanks(r)),
            _ => text.push(byte),
        }
    }
    if place < text.len() {
        text.extend(behind(r));
    }
    Aimed { text, number, place: Some(place) }
}
