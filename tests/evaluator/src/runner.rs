//! Running a program over a document.

use crate::bits;
use crate::document::{Document, ROOT};
use crate::program::Step;
use crate::relation::Relation;

/// Bytes of work area for one step.
pub const STEP_ROOM: usize = 2048;

/// The rows of every step.
pub fn run(document: &Document, steps: &[Step]) -> Vec<Relation> {
    let mut made: Vec<Relation> = Vec::with_capacity(steps.len());
    for step in steps {
        let rows = match *step {
            Step::Table(mask) => table(document, mask),
            Step::Own => Relation::identity(document.numbers()),
            Step::Text(number) => {
                Relation::identity(document.numbers().filter(|&v| document.has_text(v, number)))
            }
            Step::Join(a, b) => made[a].join(&made[b]),
            Step::Union(a, b) => made[a].union(&made[b]),
            Step::Lfp(a) => made[a].closure(),
            Step::Has(a) => made[a].has(),
            Step::Diff(a, b) => made[a].difference(&made[b]),
            Step::And(a, b) => made[a].intersection(&made[b]),
        };
        made.push(rows);
    }
    made
}

fn table(document: &Document, mask: u16) -> Relation {
    let mut rows = Relation::empty();
    for parent in document.numbers() {
        for &child in &document.node(parent).children {
            if mask >> document.node(child).kind & 1 == 1 {
                rows.add(parent, child);
            }
        }
    }
    rows
}

/// The answer: the nodes to which the last step has a row from node 0.
pub fn selected(steps: &[Relation]) -> u128 {
    steps.last().map_or(0, |last| last.from(ROOT))
}

/// The work area of a run: its steps one after the other.
pub fn work(steps: &[Relation]) -> Vec<u8> {
    let mut bytes = Vec::with_capacity(steps.len() * STEP_ROOM);
    for row in steps.iter().flat_map(Relation::bytes) {
        bytes.extend(row);
    }
    bytes
}

/// Nodes as the runner writes them: ascending, a byte each.
pub fn listed(nodes: u128) -> Vec<u8> {
    bits::ones(nodes).map(|node| node as u8).collect()
}
