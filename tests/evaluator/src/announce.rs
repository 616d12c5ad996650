//! Which kinds each step of a program may join, from the graph alone.

use crate::bounds::MOST_STEPS;
use crate::graph::Graph;
use crate::kinds::{Kinds, DOCUMENT, KINDS};
use crate::program::Step;
use crate::relation::Relation;
use crate::text::is_text;

/// For each step and each kind A, the set of kinds B with the pair (A, B).
pub type Announcement = [[u32; KINDS]; MOST_STEPS];

/// The announcement of a refused program.
pub const NOTHING: Announcement = [[0; KINDS]; MOST_STEPS];

pub fn announce(graph: &Graph, steps: &[Step]) -> Announcement {
    let mut announcement = NOTHING;
    for (announced, pairs) in announcement.iter_mut().zip(pairs(graph, steps)) {
        *announced = std::array::from_fn(|kind| pairs.from(kind) as u32);
    }
    announcement
}

/// The operations over kinds; only DIFF isn't what it is over rows.
fn pairs(graph: &Graph, steps: &[Step]) -> Vec<Relation> {
    let live = graph.live();
    let mut made: Vec<Relation> = Vec::with_capacity(steps.len());
    for step in steps {
        let pairs = match *step {
            Step::Table(mask) => table(graph, live, mask),
            Step::Own => identity(live),
            Step::Text(number) => text(live, number),
            Step::Join(a, b) => made[a].join(&made[b]),
            Step::Union(a, b) => made[a].union(&made[b]),
            Step::Lfp(a) => made[a].closure(),
            Step::Has(a) => made[a].has(),
            Step::Diff(a, _) => made[a].clone(),
            Step::And(a, b) => made[a].intersection(&made[b]),
        };
        made.push(pairs);
    }
    made
}

fn table(graph: &Graph, live: Kinds, mask: u16) -> Relation {
    let mut pairs = Relation::empty();
    for kind in live.iter() {
        for child in graph.children(kind).in_both(Kinds(mask.into())).iter() {
            pairs.add(kind.into(), child.into());
        }
    }
    pairs
}

/// The document node has no text, and an element of any live type may have any.
fn text(live: Kinds, number: u16) -> Relation {
    if is_text(number) {
        identity(Kinds(live.0 & !Kinds::only(DOCUMENT).0))
    } else {
        Relation::empty()
    }
}

fn identity(kinds: Kinds) -> Relation {
    Relation::identity(kinds.iter().map(usize::from))
}
