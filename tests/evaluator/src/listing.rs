//! The listing's text.

use crate::bits;
use crate::document::Document;
use std::fmt::Write;

/// How many nodes there are, and a line for each. The document node has kind 16
/// and text 0, so its line is `0 16 0`.
pub fn text(document: &Document, nodes: u128) -> String {
    let mut text = format!("selected {}\n", nodes.count_ones());
    for number in bits::ones(nodes) {
        let node = document.node(number);
        writeln!(text, "{number} {} {}", node.kind, node.text).expect("a string takes all");
    }
    text
}
