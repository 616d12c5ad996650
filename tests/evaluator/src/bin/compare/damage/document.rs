//! Damage to one token of TRE.

use super::fields::{beyond, maybe_cut, BODY};
use crate::rng::Rng;
use crate::world::{self, World};
use evaluator::bounds::MOST_ELEMENTS;
use evaluator::tree::{CLOSE, OPEN};

pub fn damaged(rng: &mut Rng, world: &World) -> Vec<u8> {
    let kind = rng.below(10);
    if kind < 2 {
        return crowded(rng, world);
    }
    let mut bytes = world.tre();
    let opens = places(&bytes, OPEN);
    let closes = places(&bytes, CLOSE);
    let open = *rng.pick(&opens);
    let at = match kind {
        2 => {
            bytes.insert(BODY, CLOSE);
            BODY
        }
        3 => {
            bytes[open + 1] = beyond(rng, world.graph.types());
            open
        }
        4 | 5 => {
            bytes[open + 1] = rng.below(world.graph.types().into()) as u8;
            open
        }
        6 => {
            bytes[BODY + 1] = rng.below(world.graph.types().into()) as u8;
            BODY
        }
        7 => {
            let tokens = if rng.chance(50) { opens } else { closes };
            let token = *rng.pick(&tokens);
            bytes[token] = *rng.pick(&[0, 3, 4, 255]);
            token
        }
        8 => {
            let close = *rng.pick(&closes);
            if rng.chance(50) {
                bytes.remove(close);
            } else {
                bytes.insert(close, CLOSE);
            }
            close
        }
        _ => {
            bytes.extend(*rng.pick::<&[u8]>(&[&[CLOSE], &[OPEN], &[0], &[OPEN, 0, 0, 0, CLOSE]]));
            return bytes;
        }
    };
    maybe_cut(rng, &mut bytes, at);
    bytes
}

/// A document of more elements than may be, where the graph lets it grow.
/// Whatever is wrong after the code of element 128 comes too late.
fn crowded(rng: &mut Rng, world: &World) -> Vec<u8> {
    let count = rng.within(MOST_ELEMENTS + 1..=MOST_ELEMENTS + 9);
    let mut bytes = world::tre(&world::grow(rng, &world.graph, &world.texts, count));
    if let Some(&open) = places(&bytes, OPEN).get(MOST_ELEMENTS) {
        match rng.below(3) {
            0 => bytes.truncate(open + rng.below(3)),
            1 => bytes[open + 1] = rng.byte(),
            _ => {}
        }
    }
    bytes
}

/// Where the tokens with a code stand in a sound TRE file.
fn places(tre: &[u8], code: u8) -> Vec<usize> {
    let mut found = Vec::new();
    let mut at = BODY;
    while at < tre.len() {
        if tre[at] == code {
            found.push(at);
        }
        at += if tre[at] == OPEN { 4 } else { 1 };
    }
    found
}
