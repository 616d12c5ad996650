//! Damage to one node of QRY.

use super::fields::{beyond, maybe_cut};
use crate::queries::{self, Draft};
use crate::rng::Rng;
use crate::world::World;
use evaluator::bounds::MOST_QUERY_NODES;
use evaluator::query::code;

pub fn damaged(rng: &mut Rng, world: &World) -> Vec<u8> {
    let kind = rng.below(9);
    let mut draft = if kind < 4 {
        queries::too_large(rng, world)
    } else {
        let nodes = *rng.pick(&[1, 3, 4, 7, 12, 23, 24]);
        queries::draft(rng, world, nodes, usize::MAX)
    };
    let at = *rng.pick(&draft.places);
    match kind {
        0 => {}
        // What the node too many looks like, or that nothing is there.
        1 => draft.qry.truncate(draft.places[MOST_QUERY_NODES]),
        2 => draft.qry[draft.places[MOST_QUERY_NODES]] = rng.byte(),
        3 | 4 => draft.qry[at] = *rng.pick(&[0, 8, 9, 0x10, 0x16, 0x17, 255]),
        // A path where a qualifier stands, or the other way round.
        5 => draft.qry[at] ^= 0x10,
        6 => spoil_type(rng, &mut draft, world.graph.types()),
        7 => draft.qry.push(rng.byte()),
        _ => draft.qry.truncate(at + rng.below(3)),
    }
    draft.qry
}

fn spoil_type(rng: &mut Rng, draft: &mut Draft, types: u8) {
    let is_child = |at: &&usize| draft.qry[**at] == code::CHILD;
    let children: Vec<usize> = draft.places.iter().filter(is_child).copied().collect();
    if !children.is_empty() {
        let at = *rng.pick(&children);
        draft.qry[at + 1] = beyond(rng, types);
        maybe_cut(rng, &mut draft.qry, at);
    }
}
