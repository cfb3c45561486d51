// The DTD texts that are measured, most of them as long as a text may be: runs of one thing, tables as texts, groups as deep as they may be, and the
// text that takes longest of those tried; and texts that double.

use crate::inputs::{
    cyclic, decode, largest_table, ordinary, sized, Type, CHOICE, EMPTY, ONE, SEQUENCE, TEXT,
};
use second::dtd_case::DtdCase;

/// The most bytes that a text may have.
const LONGEST: usize = 65_536;

/// A text with its name; the result that is lent for it holds every table.
pub struct Text {
    pub name: String,
    pub case: DtdCase,
}

fn text(name: &str, text: String) -> Text {
    let case = DtdCase { text: text.into_bytes(), out: vec![u16::MAX; 1800] };
    Text { name: name.to_string(), case }
}

// ---------------------------------------------------------------- names

const SYLLABLES: [&str; 16] = [
    "ba", "ce", "di", "fo", "gu", "ha", "je", "ki", "lo", "mu", "na", "pe", "ri", "so", "tu", "va",
];

/// The name of type t.
pub type Name = fn(usize) -> String;

/// Names of four bytes, most of which differ in the first.
pub fn short(t: usize) -> String {
    format!("{}{}", SYLLABLES[t % 16], SYLLABLES[t / 16])
}

/// Names of 32 bytes that differ in the last four.
pub fn alike(t: usize) -> String {
    format!("{}{:04}", "a".repeat(28), t)
}

/// Names of 32 bytes that differ in the last two, and stand in an order that cannot be foretold.
fn scattered(t: usize) -> String {
    format!("a{:031x}", t * 167 % 256)
}

// ---------------------------------------------------------------- tables as texts

/// The use of a name in so many groups of one.
fn in_groups(depth: usize, name: String) -> String {
    format!("{}{}{}", "(".repeat(depth), name, ")".repeat(depth))
}

/// What a type is declared to hold; the last kind is star.
fn content(kind: u16, uses: &[String]) -> String {
    match kind {
        EMPTY => "EMPTY".to_string(),
        TEXT => "(#PCDATA)".to_string(),
        SEQUENCE => format!("({})", uses.join(", ")),
        CHOICE => format!("({})", uses.join(" | ")),
        _ => format!("({})*", uses[0]),
    }
}

/// A declaration for each type, in which the names used stand in so many groups of one.
fn declarations(types: &[Type], name: Name, depth: usize) -> Vec<String> {
    let uses = |it: &Type| -> Vec<String> {
        it.children.iter().map(|&child| in_groups(depth, name(child as usize))).collect()
    };
    let declaration = |(t, it): (usize, &Type)| {
        format!("<!ELEMENT {} {}>\n", name(t), content(it.kind, &uses(it)))
    };
    types.iter().enumerate().map(declaration).collect()
}

/// So many bytes by a comment behind each declaration, all of about one length.
fn commented(declarations: &[String], length: usize) -> String {
    let room = length - declarations.concat().len();
    let before = |k: usize| room * k / declarations.len();
    let comment = |k: usize| format!("<!--{}-->", "x".repeat(before(k + 1) - before(k) - 7));
    let both = |(k, declaration): (usize, &String)| format!("{}{}", declaration, comment(k));
    declarations.iter().enumerate().map(both).collect()
}

/// The longest text by blanks behind it.
fn blanked(text: String) -> String {
    let room = LONGEST - text.len();
    text + &" ".repeat(room)
}

/// A table as text, with nothing besides.
pub fn declared(words: &[u16], name: Name) -> String {
    declarations(&decode(words), name, 0).concat()
}

/// The longest text of a table, by comments.
pub fn longest(words: &[u16], name: Name) -> String {
    commented(&declarations(&decode(words), name, 0), LONGEST)
}

/// The largest table: E 256, C 1,024, V 4,096. The types declared last are used most.
fn largest() -> Vec<Type> {
    decode(&largest_table(ONE))
}

/// The same, but the last name used is that of no type.
fn largest_undeclared() -> Vec<Type> {
    let mut types = largest();
    if let Some(child) = types.iter_mut().flat_map(|it| &mut it.children).last() {
        *child = 256;
    }
    types
}

/// The table in which the search for a cycle is longest, without its root, so that the root is the first: E 255, C 1,022.
fn cyclic_below() -> Vec<Type> {
    let mut types = decode(&cyclic());
    types.pop();
    types
}

// ---------------------------------------------------------------- other texts

/// The sample schema.
pub const SHOW: &str = include_str!("../samples/show.dtd");

const SHORTEST: &str = "<!ELEMENT a EMPTY>";

/// Rows in one another, sixteen deep, sequences and choices in turn: each has three names and then the next row, and the innermost a fourth name.
fn rows(name: String) -> String {
    let blanks = " ".repeat(87);
    let row = |inner: String, separator: &str| {
        format!("({})", ["x", "y", "z", &inner].join(&format!("{}{}", separator, blanks)))
    };
    (0..8).fold(name, |inner, _| row(row(inner, "|"), ","))
}

/// Fifteen types of such rows, each above the next, with 225 made types.
fn nested() -> String {
    let declaration = |t| format!("<!ELEMENT t{} {}>\n", t, rows(format!("t{}", t + 1)));
    let leaves = ["t15", "x", "y", "z"].map(|name| format!("<!ELEMENT {} EMPTY>\n", name));
    (0..15).map(declaration).chain(leaves).collect()
}

/// A sequence of so many choices, each of 16 stars, all of which are made.
pub fn of_made(choices: usize) -> String {
    let choice = format!("({})", ["leaf*"; 16].join(" | "));
    format!("<!ELEMENT root ({})>\n<!ELEMENT leaf (#PCDATA)>\n", vec![choice; choices].join(", "))
}

// ---------------------------------------------------------------- what is measured

/// The last one takes longest of all that were tried. Of the most names that can be used each is looked up twice, and compared nearly to its end
/// every time; the table is searched for a cycle up to its last type; and the room that is left is parentheses, which take longest to read.
pub fn texts() -> Vec<Text> {
    vec![
        text("show", SHOW.to_string()),
        text("ordinary", declared(&ordinary(ONE), short)),
        text("comment", commented(&[SHORTEST.to_string()], LONGEST)),
        text("blanks", blanked(SHORTEST.to_string())),
        text("choice", format!("<!ELEMENT a (a{})>", "|a".repeat(32_760))),
        text("declarations", blanked(SHORTEST.repeat(3_640))),
        text("largest", longest(&largest_table(ONE), short)),
        text("alike", longest(&largest_table(ONE), alike)),
        text("undeclared", commented(&declarations(&largest_undeclared(), alike, 0), LONGEST)),
        text("nested", blanked(nested())),
        text("parentheses", blanked(declarations(&largest(), short, 15).concat())),
        text("cyclic-alike", blanked(declarations(&cyclic_below(), scattered, 9).concat())),
    ]
}

/// A text of so many types and child entries, with comments up to so many KiB.
fn of_size(e: usize, c: usize, kib: usize, name: Name) -> Text {
    let declared = declarations(&decode(&sized(ONE, e, c, 1)), name, 0);
    text(&format!("E{}-C{}-{}K", e, c, kib), commented(&declared, 1024 * kib))
}

/// Texts that double, each with short names and with names alike: first the length, and C with it; then, in the longest text, E, and then C.
pub fn growing() -> Vec<[Text; 2]> {
    let sizes = [
        (64, 96, 8),
        (64, 192, 16),
        (64, 384, 32),
        (64, 768, 64),
        (32, 256, 64),
        (64, 256, 64),
        (128, 256, 64),
        (256, 256, 64),
        (256, 512, 64),
        (256, 1024, 64),
    ];
    let names: [Name; 2] = [short, alike];
    sizes.map(|(e, c, kib)| names.map(|name| of_size(e, c, kib, name))).into()
}
