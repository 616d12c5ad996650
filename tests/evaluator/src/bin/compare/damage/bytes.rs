//! Damage that knows nothing of the file: cut, flipped, inserted, doubled.

use crate::rng::Rng;

/// Bytes that lie at an edge of some field.
const TELLING: [u8; 24] = [
    0, 1, 2, 3, 4, 5, 6, 7, 8, 9, 10, 15, 16, 17, 0x11, 0x12, 0x15, 0x18, 0x19, 126, 127, 128, 254,
    255,
];

pub fn damaged(rng: &mut Rng, mut bytes: Vec<u8>) -> Vec<u8> {
    for _ in 0..*rng.pick(&[1, 1, 1, 2, 3]) {
        damage(rng, &mut bytes);
    }
    bytes
}

fn damage(rng: &mut Rng, bytes: &mut Vec<u8>) {
    if bytes.is_empty() {
        bytes.push(rng.byte());
        return;
    }
    let at = rng.below(bytes.len());
    match rng.below(8) {
        0 => bytes.truncate(at),
        1 => bytes[at] ^= 1 << rng.below(8),
        2 => bytes[at] = *rng.pick(&TELLING),
        3 => bytes.insert(at, *rng.pick(&TELLING)),
        4 => {
            bytes.remove(at);
        }
        5 => {
            let length = rng.within(1..=16.min(bytes.len() - at));
            let stretch = bytes[at..at + length].to_vec();
            bytes.splice(at..at, stretch);
        }
        6 => {
            let more = rng.within(1..=5);
            let more = rng.bytes(more);
            bytes.extend(more);
        }
        _ => {
            let other = rng.below(bytes.len());
            bytes.swap(at, other);
        }
    }
}
