//! Damage to one step of REL.

use super::fields::{maybe_cut, spoil_mask, BODY};
use crate::programs;
use crate::rng::Rng;
use crate::world::World;
use evaluator::program::{self, op};

pub fn damaged(rng: &mut Rng, world: &World) -> Vec<u8> {
    let kind = rng.below(9);
    let count = if kind == 0 {
        rng.within(25..=30)
    } else {
        *rng.pick(&[1, 2, 5, 12, 23, 24])
    };
    let mut bytes = program::write(&programs::steps(rng, world, count));
    let own = rng.below(count);
    let at = BODY + 1 + 3 * own;
    match kind {
        0 => {}
        1 => bytes[BODY] = *rng.pick(&[0, 25, 128, 255]),
        2 => bytes[BODY] = rng.within(0..=25) as u8,
        3 => bytes[at] = *rng.pick(&[0, 10, 11, 255]),
        4 => {
            bytes[at] = rng.within(op::JOIN.into()..=op::AND.into()) as u8;
            bytes[at + 1 + rng.below(2)] = own as u8;
        }
        5 => {
            bytes[at] = *rng.pick(&[op::OWN, op::LFP, op::HAS]);
            bytes[at + rng.within(1..=2)] = *rng.pick(&[0, 1, 255]);
        }
        6 => {
            bytes[at] = op::TABLE;
            spoil_mask(rng, &mut bytes, at + 1, world.graph.types());
        }
        7 => bytes[at] = rng.within(op::TABLE.into()..=op::AND.into()) as u8,
        _ => {
            bytes.push(rng.byte());
            return bytes;
        }
    }
    maybe_cut(rng, &mut bytes, at);
    bytes
}
