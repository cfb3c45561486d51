// The grammar: productions of XML 1.0 (fifth edition), in the specification's own notation and words.

/// A text is declarations, at least one, with blanks and comments before, between and behind them.
/// Names are ASCII, and a comment takes any byte. From 15 on the productions are the specification's.
pub const PRODUCTIONS: &str = r##"
    [2]   Char           ::=  [#x0-#xFF]
    [3]   S              ::=  (#x20 | #x9 | #xD | #xA)+
    [4]   NameStartChar  ::=  ":" | [A-Z] | "_" | [a-z]
    [4a]  NameChar       ::=  NameStartChar | "-" | "." | [0-9]
    [5]   Name           ::=  NameStartChar (NameChar)*
    [15]  Comment        ::=  '<!--' ((Char - '-') | ('-' (Char - '-')))* '-->'
    [45]  elementdecl    ::=  '<!ELEMENT' S Name S contentspec S? '>'
    [46]  contentspec    ::=  'EMPTY' | 'ANY' | Mixed | children
    [47]  children       ::=  (choice | seq) ('?' | '*' | '+')?
    [48]  cp             ::=  (Name | choice | seq) ('?' | '*' | '+')?
    [49]  choice         ::=  '(' S? cp ( S? '|' S? cp )+ S? ')'
    [50]  seq            ::=  '(' S? cp ( S? ',' S? cp )* S? ')'
    [51]  Mixed          ::=  '(' S? '#PCDATA' (S? '|' S? Name)* S? ')*' | '(' S? '#PCDATA' S? ')'
          blank          ::=  #x20 | #x9 | #xD | #xA
          text           ::=  (blank | Comment)* (elementdecl (blank | Comment)*)+
"##;

/// The production of whole texts.
pub const TEXT: &str = "text";
