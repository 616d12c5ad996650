//! Putting a case together: files sound or damaged, and buffers with room
//! enough or too little.

use crate::call::Call;
use crate::case::{Case, Expectation};
use crate::damage;
use crate::rng::Rng;
use crate::world::World;
use crate::{programs, queries};
use evaluator::refusal::File;

/// How a room stands to what is asked for, for the tally.
#[derive(Clone, Copy, PartialEq, Eq, Debug)]
pub enum Room {
    Exact,
    Larger,
    OneShort,
    Zero,
    Shorter,
}

/// A case with what the evaluator says of its files. The rooms are empty
/// where the files are refused.
pub struct Posed {
    pub case: Case,
    pub expectation: Expectation,
    pub rooms: Vec<Room>,
}

pub fn pose(rng: &mut Rng, world: &World, call: Call) -> Posed {
    let files = files(rng, world, call);
    let expectation = Expectation::of(call, &files);
    let (rooms, lengths): (Vec<Room>, Vec<usize>) = match expectation.rooms() {
        Some(asked) => asked.iter().map(|&asked| room(rng, asked)).unzip(),
        None => {
            let lengths = call.buffers().iter().map(|_| any_length(rng));
            (Vec::new(), lengths.collect())
        }
    };
    let lent = lengths.iter().map(|&length| filling(rng, length)).collect();
    Posed {
        case: Case { call, files, lent },
        expectation,
        rooms,
    }
}

fn files(rng: &mut Rng, world: &World, call: Call) -> Vec<Vec<u8>> {
    let kinds = call.files();
    let mut files: Vec<Vec<u8>> = kinds.iter().map(|&kind| sound(rng, world, kind)).collect();
    let mut damage = |rng: &mut Rng, at: usize| {
        let sound = std::mem::take(&mut files[at]);
        files[at] = damage::damaged(rng, world, kinds[at], sound);
    };
    match rng.below(100) {
        0..=39 => {}
        40..=84 => {
            let at = rng.below(kinds.len());
            damage(rng, at);
        }
        85..=92 => (0..kinds.len()).for_each(|at| damage(rng, at)),
        93..=96 => {
            let at = rng.below(kinds.len());
            files[at] = damage::random(rng, kinds[at]);
        }
        97 => {
            files = kinds
                .iter()
                .map(|&kind| damage::random(rng, kind))
                .collect()
        }
        98 => files[rng.below(kinds.len())].clear(),
        // A file where another is looked for.
        _ => {
            let (from, to) = (rng.below(kinds.len()), rng.below(kinds.len()));
            files[to] = files[from].clone();
        }
    }
    files
}

fn sound(rng: &mut Rng, world: &World, file: File) -> Vec<u8> {
    match file {
        File::Graph => world.gra.clone(),
        File::Document => world.tre(),
        File::Tables => world.edg(),
        File::Query => queries::sound(rng, world),
        File::Program => programs::sound(rng, world),
    }
}

fn room(rng: &mut Rng, asked: usize) -> (Room, usize) {
    match rng.below(100) {
        0..=49 => (Room::Exact, asked),
        50..=84 => (Room::Larger, asked + rng.within(1..=80)),
        85..=91 => (Room::OneShort, asked - 1),
        92..=95 => (Room::Zero, 0),
        _ => (Room::Shorter, rng.below(asked)),
    }
}

/// Room for a call that is refused anyway.
fn any_length(rng: &mut Rng) -> usize {
    let most = *rng.pick(&[0, 10, 200, 3000]);
    rng.within(0..=most)
}

/// What a buffer comes with: anything.
fn filling(rng: &mut Rng, length: usize) -> Vec<u8> {
    match rng.below(8) {
        0 => vec![0x00; length],
        1 => vec![0xFF; length],
        _ => rng.bytes(length),
    }
}
