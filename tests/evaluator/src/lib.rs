//! An evaluator of Trammelbud's public calls that shares nothing with the
//! library: it follows the rules of docs/RULES.md and XPath 1.0 alone, to be
//! compared with it.
//!
//! It goes the plain way wherever there is one. A document is a tree of nodes
//! with lists of children, a query is walked over it node by node, and a
//! program is run over sets of pairs. `calls` has the twelve calls, each in
//! the shape of the library's own; `trammelbud` has the library's, and stands
//! only where a build was given the archive.

pub mod announce;
pub mod bits;
pub mod bounds;
pub mod calls;
pub mod cursor;
pub mod document;
pub mod example;
pub mod graph;
pub mod kinds;
pub mod listing;
pub mod plan;
pub mod program;
pub mod query;
pub mod refusal;
pub mod relation;
pub mod runner;
pub mod tables;
pub mod text;
#[cfg(feature = "archive")]
pub mod trammelbud;
pub mod translate;
pub mod tree;
pub mod xpath;
