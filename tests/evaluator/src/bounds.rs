//! The bounds of docs/RULES.md (1.4).

/// Types of a graph, k.
pub const MOST_TYPES: u8 = 16;
/// Elements of a document, n.
pub const MOST_ELEMENTS: usize = 127;
/// Nodes of a document: the elements and the document node.
pub const MOST_NODES: usize = MOST_ELEMENTS + 1;
/// Nodes of a query.
pub const MOST_QUERY_NODES: usize = 24;
/// Steps of a program.
pub const MOST_STEPS: usize = 24;
