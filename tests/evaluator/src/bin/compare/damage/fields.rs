//! What damage to one field takes in more than one file.

use crate::rng::Rng;

/// Where the body begins, after the opening bytes.
pub const BODY: usize = 5;

/// A wrong mark, a wrong version, or an end among them.
pub fn opening(rng: &mut Rng, mut bytes: Vec<u8>) -> Vec<u8> {
    match rng.below(4) {
        0 => bytes[rng.below(3)] ^= 1 << rng.below(8),
        1 => bytes[rng.within(3..=4)] ^= 1 << rng.below(8),
        2 => bytes[rng.below(BODY)] = rng.byte(),
        _ => {}
    }
    if rng.chance(40) {
        bytes.truncate(rng.within(0..=BODY));
    }
    bytes
}

/// A type that a graph of so many types hasn't.
pub fn beyond(rng: &mut Rng, types: u8) -> u8 {
    if rng.chance(50) {
        types
    } else {
        rng.within(types.into()..=255) as u8
    }
}

/// Sets a bit of `types` or more in the mask at a place, where there is one.
pub fn spoil_mask(rng: &mut Rng, bytes: &mut [u8], at: usize, types: u8) {
    if types < 16 {
        let bit = rng.within(types.into()..=15);
        bytes[at + 1 - bit / 8] |= 1 << (bit % 8);
    }
}

/// Sometimes ends the file at the place or a few bytes after it, so that what
/// is judged first there shows.
pub fn maybe_cut(rng: &mut Rng, bytes: &mut Vec<u8>, at: usize) {
    if rng.chance(30) {
        bytes.truncate(at + rng.below(5));
    }
}
