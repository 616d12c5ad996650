//! Files that are turned away, or nearly.

mod bytes;
mod document;
mod fields;
mod graph;
mod program;
mod query;
mod tables;

use crate::rng::Rng;
use crate::world::World;
use evaluator::refusal::File;

/// A damaged file: in one of its fields, or anywhere in its bytes.
pub fn damaged(rng: &mut Rng, world: &World, file: File, sound: Vec<u8>) -> Vec<u8> {
    match rng.below(20) {
        0..=10 => in_one_field(rng, world, file),
        11 => fields::opening(rng, sound),
        12 => {
            let broken = in_one_field(rng, world, file);
            bytes::damaged(rng, broken)
        }
        _ => bytes::damaged(rng, sound),
    }
}

fn in_one_field(rng: &mut Rng, world: &World, file: File) -> Vec<u8> {
    match file {
        File::Graph => graph::damaged(rng, world),
        File::Document => document::damaged(rng, world),
        File::Tables => tables::damaged(rng, world),
        File::Query => query::damaged(rng, world),
        File::Program => program::damaged(rng, world),
    }
}

/// Random bytes, with or without the opening bytes of the file.
pub fn random(rng: &mut Rng, file: File) -> Vec<u8> {
    let mut bytes = if rng.chance(60) {
        evaluator::cursor::opening(file)
    } else {
        Vec::new()
    };
    let most = *rng.pick(&[0, 2, 8, 64, 800]);
    let length = rng.within(0..=most);
    let small = rng.chance(50);
    bytes.extend(
        rng.bytes(length)
            .iter()
            .map(|&byte| if small { byte % 8 } else { byte }),
    );
    bytes
}
