//! A document as a tree of nodes.

use crate::bits;
use crate::graph::Graph;
use crate::kinds::DOCUMENT;
use crate::text::{is_text, NO_TEXT};

/// The document node's number.
pub const ROOT: usize = 0;

pub struct Node {
    pub kind: u8,
    pub text: u16,
    pub children: Vec<usize>,
}

/// Nodes by number, in document order; node 0 is the document node.
pub struct Document {
    nodes: Vec<Node>,
}

impl Document {
    /// A document node with nothing below it, for a reader to fill.
    pub fn empty() -> Document {
        Document {
            nodes: vec![Node {
                kind: DOCUMENT,
                text: NO_TEXT,
                children: Vec::new(),
            }],
        }
    }

    /// Adds the next element and answers its number.
    pub fn add(&mut self, parent: usize, kind: u8, text: u16) -> usize {
        let number = self.nodes.len();
        self.nodes.push(Node {
            kind,
            text,
            children: Vec::new(),
        });
        self.nodes[parent].children.push(number);
        number
    }

    /// How many elements there are, n.
    pub fn elements(&self) -> usize {
        self.nodes.len() - 1
    }

    /// Every node's number, the document node's too.
    pub fn numbers(&self) -> std::ops::Range<usize> {
        0..self.nodes.len()
    }

    pub fn node(&self, number: usize) -> &Node {
        &self.nodes[number]
    }

    /// Whether an element of type `kind` may stand under `parent`.
    pub fn allows(&self, graph: &Graph, parent: usize, kind: u8) -> bool {
        graph.children(self.node(parent).kind).has(kind)
    }

    /// The text test. The document node has no text, so it never holds there.
    pub fn has_text(&self, number: usize, text: u16) -> bool {
        is_text(text) && self.node(number).text == text
    }

    /// The node and every node below it.
    pub fn self_or_below(&self, number: usize) -> u128 {
        self.node(number)
            .children
            .iter()
            .fold(bits::only(number), |found, &child| {
                found | self.self_or_below(child)
            })
    }
}
