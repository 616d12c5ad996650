//! What a query selects: XPath 1.0's meaning, walked over the tree from one
//! context node at a time.

use crate::bits;
use crate::document::{Document, ROOT};
use crate::query::{Path, Qualifier};

/// The nodes that a query selects from the document node.
pub fn select(document: &Document, path: &Path) -> u128 {
    reached(document, path, ROOT)
}

/// The nodes that a path reaches from one node.
fn reached(document: &Document, path: &Path, from: usize) -> u128 {
    match path {
        Path::Own => bits::only(from),
        Path::Child(kind) => children(document, from, |child| document.node(child).kind == *kind),
        Path::AnyChild => children(document, from, |_| true),
        Path::Then(p, q) => from_each(document, reached(document, p, from), q),
        Path::Deep(p, q) => {
            let down = bits::ones(reached(document, p, from))
                .fold(0, |found, node| found | document.self_or_below(node));
            from_each(document, down, q)
        }
        Path::Union(p, q) => reached(document, p, from) | reached(document, q, from),
        Path::Where(p, q) => bits::ones(reached(document, p, from))
            .filter(|&node| holds(document, q, node))
            .fold(0, |found, node| found | bits::only(node)),
    }
}

fn children(document: &Document, from: usize, wanted: impl Fn(usize) -> bool) -> u128 {
    document
        .node(from)
        .children
        .iter()
        .filter(|&&child| wanted(child))
        .fold(0, |found, &child| found | bits::only(child))
}

fn from_each(document: &Document, nodes: u128, path: &Path) -> u128 {
    bits::ones(nodes).fold(0, |found, node| found | reached(document, path, node))
}

/// Whether a qualifier is true at one node.
fn holds(document: &Document, qualifier: &Qualifier, at: usize) -> bool {
    match qualifier {
        Qualifier::Some(path) => reached(document, path, at) != 0,
        Qualifier::Text(number) => document.has_text(at, *number),
        Qualifier::Not(q) => !holds(document, q, at),
        Qualifier::And(p, q) => holds(document, p, at) && holds(document, q, at),
        Qualifier::Or(p, q) => holds(document, p, at) || holds(document, q, at),
    }
}
