//! Files with one part less, where that takes more than deleting bytes: the
//! parts after it are counted and numbered anew.

use crate::world::{edg, Rows};
use evaluator::program::op;
use evaluator::query::code;
use evaluator::refusal::File;

/// Where the body begins: the count of a program's steps, k of tables, or the
/// first node of a query.
const BODY: usize = 5;

/// The file without its part number `part`, counted from 0.
pub fn without(file: File, bytes: &[u8], part: usize) -> Option<Vec<u8>> {
    match file {
        File::Query => without_node(bytes, part),
        File::Program => without_step(bytes, part),
        File::Tables => without_element(bytes, part + 1),
        _ => None,
    }
}

/// With the first part of a node in its place.
fn without_node(qry: &[u8], node: usize) -> Option<Vec<u8>> {
    let at = (0..node).try_fold(BODY, |at, _| Some(at + own_length(*qry.get(at)?)))?;
    if parts(*qry.get(at)?) == 0 {
        return None;
    }
    let first = at + 1..node_end(qry, at + 1)?;
    Some([&qry[..at], &qry[first], &qry[node_end(qry, at)?..]].concat())
}

/// Where a node with all its parts ends.
fn node_end(qry: &[u8], at: usize) -> Option<usize> {
    let code = *qry.get(at)?;
    let end = (0..parts(code)).try_fold(at + own_length(code), |end, _| node_end(qry, end))?;
    (end <= qry.len()).then_some(end)
}

/// How many nodes are parts of a node with this code.
fn parts(code: u8) -> usize {
    match code {
        code::SOME | code::NOT => 1,
        code::THEN..=code::WHERE | code::AND | code::OR => 2,
        _ => 0,
    }
}

/// The bytes of a node that belong to no part of it.
fn own_length(code: u8) -> usize {
    match code {
        code::CHILD => 2,
        code::TEXT => 3,
        _ => 1,
    }
}

fn without_step(rel: &[u8], step: usize) -> Option<Vec<u8>> {
    let body = rel.get(BODY + 1..)?;
    let mut steps: Vec<[u8; 3]> = body.chunks_exact(3).map(|s| [s[0], s[1], s[2]]).collect();
    if step >= steps.len() || steps.len() * 3 != body.len() {
        return None;
    }
    steps.remove(step);
    let lower = |operand: &mut u8| *operand -= u8::from(usize::from(*operand) > step);
    for [operation, x, y] in &mut steps[step..] {
        match *operation {
            op::LFP | op::HAS => lower(x),
            op::JOIN | op::UNION | op::DIFF | op::AND => {
                lower(x);
                lower(y);
            }
            _ => {}
        }
    }
    let mut bytes = rel[..BODY].to_vec();
    bytes.push(steps.len() as u8);
    bytes.extend(steps.concat());
    Some(bytes)
}

/// Without one element: its children go to its parent.
fn without_element(bytes: &[u8], number: usize) -> Option<Vec<u8>> {
    let number = u8::try_from(number).ok()?;
    let mut tables = read_tables(bytes)?;
    let parent = tables.iter().flatten().find(|row| row[1] == number)?[0];
    for rows in &mut tables {
        rows.retain(|row| row[1] != number);
        for [from, to, ..] in rows {
            if *from == number {
                *from = parent;
            }
            *from -= u8::from(*from > number);
            *to -= u8::from(*to > number);
        }
    }
    Some(edg(&tables))
}

/// The rows as they stand, right or wrong.
fn read_tables(bytes: &[u8]) -> Option<Vec<Rows>> {
    let (&types, mut rest) = bytes.get(BODY..)?.split_first()?;
    let mut tables = Vec::new();
    for _ in 0..types {
        let (&count, after) = rest.split_first()?;
        let length = 4 * usize::from(count);
        let rows = after.get(..length)?;
        tables.push(
            rows.chunks_exact(4)
                .map(|r| [r[0], r[1], r[2], r[3]])
                .collect(),
        );
        rest = &after[length..];
    }
    rest.is_empty().then_some(tables)
}
