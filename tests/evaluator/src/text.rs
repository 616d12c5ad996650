//! Text numbers.

/// The number of an element whose text is empty or missing.
pub const NO_TEXT: u16 = 0;

/// Whether a number is a text's, so that the text test can hold for it
/// (docs/RULES.md, 2.10). `NO_TEXT` is none's: a text node of XPath has at
/// least one character.
pub fn is_text(number: u16) -> bool {
    number != NO_TEXT
}
