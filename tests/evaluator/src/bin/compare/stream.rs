//! The cases of a run, one after the other, as its seed decides.

use crate::call::Call;
use crate::pose::{pose, Posed};
use crate::rng::Rng;
use crate::world::World;

/// Cases made for one graph and document before there are new ones.
const CASES_A_WORLD: u32 = 8;

pub struct Stream {
    rng: Rng,
    calls: Vec<Call>,
    world: World,
    left: u32,
}

impl Stream {
    pub fn new(seed: u64, calls: &[Call]) -> Stream {
        let mut rng = Rng::new(seed);
        Stream {
            world: World::make(&mut rng),
            rng,
            calls: calls.to_vec(),
            left: CASES_A_WORLD,
        }
    }

    pub fn next(&mut self) -> Posed {
        if self.left == 0 {
            self.world = World::make(&mut self.rng);
            self.left = CASES_A_WORLD;
        }
        self.left -= 1;
        let call = *self.rng.pick(&self.calls);
        pose(&mut self.rng, &self.world, call)
    }
}
