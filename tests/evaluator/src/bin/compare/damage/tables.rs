//! Damage to one count or row of EDG, or to what the rows make together.

use super::fields::BODY;
use crate::rng::Rng;
use crate::world::{self, Rows, World};
use evaluator::bounds::MOST_ELEMENTS;

pub fn damaged(rng: &mut Rng, world: &World) -> Vec<u8> {
    let types = world.graph.types();
    let mut tables = world::tables(types, &world.elements);
    let kind = rng.below(15);
    match kind {
        0 => {
            let count = rng.within(MOST_ELEMENTS + 1..=MOST_ELEMENTS + 9);
            let elements = world::grow(rng, &world.graph, &world.texts, count);
            tables = world::tables(types, &elements);
        }
        1 => tables.iter_mut().for_each(Rows::clear),
        2 => row(rng, &mut tables)[1] = *rng.pick(&[0, 128, 129, 255]),
        3 => {
            let row = row(rng, &mut tables);
            row[0] = *rng.pick(&[row[1], row[1] + 1, 127, 255]);
        }
        4 => {
            let row = row(rng, &mut tables);
            row[0] = rng.below(row[1].into()) as u8;
        }
        5 => row(rng, &mut tables)[0] = 0,
        6 => shuffle(rng, &mut tables),
        7 => retype(rng, &mut tables),
        8 => renumber(rng, &mut tables),
        9 => lengthen(rng, &mut tables),
        // Two faults, to see which comes first.
        10 => {
            retype(rng, &mut tables);
            let row = row(rng, &mut tables);
            row[0] = rng.below(row[1].into()) as u8;
        }
        _ => {}
    }
    let mut bytes = world::edg(&tables);
    match kind {
        11 => bytes[BODY] = rng.within(0..=17) as u8,
        12 => overfill(rng, &mut bytes, &tables),
        13 => bytes.push(rng.byte()),
        14 => bytes.truncate(rng.within(BODY..=bytes.len())),
        _ if rng.chance(10) => bytes.push(rng.byte()),
        _ => {}
    }
    bytes
}

fn row<'a>(rng: &mut Rng, tables: &'a mut [Rows]) -> &'a mut [u8; 4] {
    let total = tables.iter().map(Vec::len).sum();
    let which = rng.below(total);
    tables
        .iter_mut()
        .flatten()
        .nth(which)
        .expect("the total counts the rows")
}

/// Two rows of one table change places.
fn shuffle(rng: &mut Rng, tables: &mut [Rows]) {
    for rows in tables.iter_mut().filter(|rows| rows.len() > 1) {
        if rng.chance(60) {
            let at = rng.below(rows.len() - 1);
            rows.swap(at, at + 1);
        }
    }
}

/// A row goes to another type's table.
fn retype(rng: &mut Rng, tables: &mut [Rows]) {
    let moved = *row(rng, tables);
    for rows in tables.iter_mut() {
        rows.retain(|row| row[1] != moved[1]);
    }
    let other = rng.below(tables.len());
    tables[other].push(moved);
    tables[other].sort_by_key(|row| row[1]);
}

/// A row takes another's number, or the number after its own.
fn renumber(rng: &mut Rng, tables: &mut [Rows]) {
    let other = row(rng, tables)[1];
    let row = row(rng, tables);
    row[1] = if rng.chance(50) { other } else { row[1] + 1 };
    for rows in tables.iter_mut() {
        rows.sort_by_key(|row| row[1]);
    }
}

/// The last element goes further off, so that a number is left out.
fn lengthen(rng: &mut Rng, tables: &mut [Rows]) {
    let last = tables.iter_mut().flatten().max_by_key(|row| row[1]);
    let number = &mut last.expect("a document has an element")[1];
    *number = rng.within(usize::from(*number)..=MOST_ELEMENTS) as u8;
}

/// One table's count takes the total to 128 or beyond.
fn overfill(rng: &mut Rng, bytes: &mut [u8], tables: &[Rows]) {
    let which = rng.below(tables.len());
    let before: usize = tables[..which].iter().map(Vec::len).sum();
    let at = BODY + 1 + which + 4 * before;
    let least = MOST_ELEMENTS + 1 - before;
    bytes[at] = *rng.pick(&[least, least, least - 1, 255]) as u8;
}
