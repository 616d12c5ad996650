//! Queries with a given number of nodes, that are likely to select something.

use crate::rng::Rng;
use crate::world::World;
use evaluator::bounds::{MOST_QUERY_NODES, MOST_STEPS};
use evaluator::cursor::opening;
use evaluator::kinds::{Kinds, DOCUMENT};
use evaluator::query::code;
use evaluator::refusal::File;

/// A query file, and where in it each node's code stands.
pub struct Draft {
    pub qry: Vec<u8>,
    pub places: Vec<usize>,
}

/// A query of few enough nodes; one in eight may need too many steps, and some
/// select every node.
pub fn sound(rng: &mut Rng, world: &World) -> Vec<u8> {
    if rng.chance(2) {
        return [
            &opening(File::Query)[..],
            &[code::DEEP, code::OWN, code::OWN],
        ]
        .concat();
    }
    let most = *rng.pick(&[1, 5, 8, 12, 16, 20, 24, 24]);
    let nodes = match rng.within(most / 2..=most) {
        0 => 1,
        2 => 3,
        nodes => nodes,
    };
    let extra = if rng.below(8) == 0 {
        usize::MAX
    } else {
        MOST_STEPS - nodes
    };
    draft(rng, world, nodes, extra).qry
}

/// A query of more nodes than may be.
pub fn too_large(rng: &mut Rng, world: &World) -> Draft {
    let nodes = rng.within(MOST_QUERY_NODES + 1..=MOST_QUERY_NODES + 8);
    draft(rng, world, nodes, usize::MAX)
}

/// A query of exactly `nodes` nodes, not 2, that takes at most `extra` steps
/// more than that.
pub fn draft(rng: &mut Rng, world: &World, nodes: usize, extra: usize) -> Draft {
    let mut drafting = Drafting {
        rng,
        world,
        extra,
        draft: Draft {
            qry: opening(File::Query),
            places: Vec::new(),
        },
    };
    drafting.path(nodes, Kinds::only(DOCUMENT));
    drafting.draft
}

struct Drafting<'a> {
    rng: &'a mut Rng,
    world: &'a World,
    /// Steps still to spend on top of one for each node.
    extra: usize,
    draft: Draft,
}

impl Drafting<'_> {
    fn code(&mut self, code: u8) {
        self.draft.places.push(self.draft.qry.len());
        self.draft.qry.push(code);
    }

    fn spend(&mut self, steps: usize) -> bool {
        let affordable = self.extra >= steps;
        if affordable {
            self.extra -= steps;
        }
        affordable
    }

    /// A path of so many nodes; there is none of 2. Answers the kinds that it
    /// comes to, for the types in what follows to be chosen from.
    fn path(&mut self, nodes: usize, context: Kinds) -> Kinds {
        match nodes {
            1 => self.leaf(context),
            4 => self.filtered(1, 2, context),
            _ => match self.rng.below(5) {
                0 => {
                    let (p, q) = self.split(nodes - 1);
                    self.code(code::THEN);
                    let middle = self.path(p, context);
                    self.path(q, middle)
                }
                1 | 2 if self.spend(5) => {
                    let (p, q) = self.split(nodes - 1);
                    self.code(code::DEEP);
                    let middle = self.path(p, context);
                    let below = self.world.graph.below(middle);
                    self.path(q, middle.and_also(below))
                }
                3 => {
                    let (p, q) = self.split(nodes - 1);
                    self.code(code::UNION);
                    let left = self.path(p, context);
                    left.and_also(self.path(q, context))
                }
                _ => {
                    let (p, q) = self.split(nodes - 1);
                    self.filtered(p, q, context)
                }
            },
        }
    }

    fn filtered(&mut self, p: usize, q: usize, context: Kinds) -> Kinds {
        self.code(code::WHERE);
        let out = self.path(p, context);
        self.qualifier(q, out);
        out
    }

    fn leaf(&mut self, context: Kinds) -> Kinds {
        let children = self.world.graph.children_of_any(context);
        match self.rng.below(5) {
            0 => {
                self.code(code::OWN);
                context
            }
            1 => {
                self.code(code::ANY_CHILD);
                children
            }
            _ => {
                let kind = self.child_type(children);
                self.code(code::CHILD);
                self.draft.qry.push(kind);
                children.in_both(Kinds::only(kind))
            }
        }
    }

    fn child_type(&mut self, children: Kinds) -> u8 {
        let likely: Vec<u8> = children.iter().collect();
        if likely.is_empty() || self.rng.chance(10) {
            self.rng.below(self.world.graph.types().into()) as u8
        } else {
            *self.rng.pick(&likely)
        }
    }

    fn qualifier(&mut self, nodes: usize, context: Kinds) {
        match (nodes, self.rng.below(4)) {
            (1, _) => {
                self.code(code::TEXT);
                let text = *self.rng.pick(&self.world.texts);
                self.draft.qry.extend(text.to_be_bytes());
            }
            // Of two nodes more often, which makes it the not of a text test.
            (2, 0 | 1) | (3.., 0) if self.spend(1) => {
                self.code(code::NOT);
                self.qualifier(nodes - 1, context);
            }
            (3.., 1) | (3, _) => {
                let connective = *self.rng.pick(&[code::AND, code::OR]);
                let left = self.rng.within(1..=nodes - 2);
                self.code(connective);
                self.qualifier(left, context);
                self.qualifier(nodes - 1 - left, context);
            }
            _ => {
                self.code(code::SOME);
                self.path(nodes - 1, context);
            }
        }
    }

    /// Nodes for two parts that may both be paths.
    fn split(&mut self, nodes: usize) -> (usize, usize) {
        loop {
            let left = self.rng.within(1..=nodes - 1);
            if left != 2 && nodes - left != 2 {
                return (left, nodes - left);
            }
        }
    }
}
