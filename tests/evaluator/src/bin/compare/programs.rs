//! Programs, from queries and from nothing.

use crate::queries;
use crate::rng::Rng;
use crate::world::World;
use evaluator::bounds::MOST_STEPS;
use evaluator::plan;
use evaluator::program::{self, Step};

pub fn sound(rng: &mut Rng, world: &World) -> Vec<u8> {
    if rng.chance(25) {
        let qry = queries::sound(rng, world);
        if let Ok(mut plan) = plan::translate(&world.gra, &qry) {
            return plan.lent.remove(0).bytes;
        }
    }
    let most = *rng.pick(&[2, 6, 12, MOST_STEPS]);
    let count = rng.within(most / 2..=most);
    program::write(&steps(rng, world, count))
}

/// Steps that are sound but for their number.
pub fn steps(rng: &mut Rng, world: &World, count: usize) -> Vec<Step> {
    (0..count).map(|own| step(rng, world, own)).collect()
}

fn step(rng: &mut Rng, world: &World, own: usize) -> Step {
    let kinds = if own == 0 { 3 } else { 12 };
    match rng.below(kinds) {
        0 => Step::Table(mask(rng, world)),
        1 => Step::Own,
        2 => Step::Text(*rng.pick(&world.texts)),
        3 | 4 => Step::Join(rng.below(own), rng.below(own)),
        5 | 6 => Step::Union(rng.below(own), rng.below(own)),
        7 | 8 => Step::Lfp(rng.below(own)),
        9 => Step::Has(rng.below(own)),
        10 => Step::Diff(rng.below(own), rng.below(own)),
        _ => Step::And(rng.below(own), rng.below(own)),
    }
}

fn mask(rng: &mut Rng, world: &World) -> u16 {
    let types = world.graph.types();
    let all = ((1u32 << types) - 1) as u16;
    match rng.below(6) {
        0 => 0,
        1 => 1 << rng.below(types.into()),
        2 => all & rng.next() as u16,
        _ => all,
    }
}
