//! Damage to one field of GRA.

use super::fields::{beyond, maybe_cut, spoil_mask, BODY};
use crate::rng::Rng;
use crate::world::World;

pub fn damaged(rng: &mut Rng, world: &World) -> Vec<u8> {
    let mut bytes = world.gra.clone();
    let types = world.graph.types();
    let at = match rng.below(5) {
        0 => {
            bytes[BODY] = *rng.pick(&[0, 17, 18, 128, 255]);
            BODY
        }
        1 => {
            bytes[BODY] = rng.within(0..=17) as u8;
            BODY
        }
        2 => {
            bytes[BODY + 1] = beyond(rng, types);
            BODY + 1
        }
        3 => {
            let at = BODY + 2 + 2 * rng.below(types.into());
            spoil_mask(rng, &mut bytes, at, types);
            at
        }
        _ => {
            bytes.push(rng.byte());
            return bytes;
        }
    };
    maybe_cut(rng, &mut bytes, at);
    bytes
}
