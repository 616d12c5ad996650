//! Building files for the tests, field by field.
#![allow(dead_code)] // each test file uses its own part

use evaluator::cursor::opening;
use evaluator::example;
use evaluator::refusal::File;

/// A graph of one type that may stand in itself.
pub fn loop_graph() -> Vec<u8> {
    gra(0, &[1])
}

pub fn gra(root: u8, masks: &[u16]) -> Vec<u8> {
    let mut bytes = opening(File::Graph);
    bytes.extend([masks.len() as u8, root]);
    bytes.extend(masks.iter().flat_map(|mask| mask.to_be_bytes()));
    bytes
}

/// A document of one type: `depth` elements, each the parent of the next.
pub fn chain(depth: usize) -> Vec<u8> {
    let opens = [1, 0, 0, 0].repeat(depth);
    [opening(File::Document), opens, vec![2; depth]].concat()
}

/// A document of one type: a root and `leaves` elements under it.
pub fn star(leaves: usize) -> Vec<u8> {
    let inner = [1, 0, 0, 0, 2].repeat(leaves);
    [opening(File::Document), vec![1, 0, 0, 0], inner, vec![2]].concat()
}

pub fn tre(tokens: &[u8]) -> Vec<u8> {
    [&opening(File::Document), tokens].concat()
}

pub fn edg(body: &[u8]) -> Vec<u8> {
    [&opening(File::Tables), body].concat()
}

pub fn qry(path: &[u8]) -> Vec<u8> {
    [&opening(File::Query), path].concat()
}

pub fn rel(body: &[u8]) -> Vec<u8> {
    [&opening(File::Program), body].concat()
}

/// A path of `nodes` nodes, odd: child tests joined by slashes.
pub fn slashes(nodes: usize) -> Vec<u8> {
    let joins = nodes / 2;
    [vec![4; joins], [2, 0].repeat(joins + 1)].concat()
}

/// A chain of child tests joined by `count` double slashes.
pub fn double_slashes(count: usize) -> Vec<u8> {
    [vec![5; count], [2, 0].repeat(count + 1)].concat()
}

/// Each of the example's fourteen queries, put to a call of `select`'s shape,
/// which answers number and count, selects the nodes that docs/RULES.md prints
/// (18.5).
pub fn selects_as_printed(select: impl Fn(&[u8], &[u8], &[u8], &mut [u8], &mut [u8]) -> (u8, u32)) {
    for (case, asked) in (1..).zip(example::queries()) {
        let (mut out, mut work) = ([0; 9], [0; 24 * 2048]);
        let (gra, edg) = (example::gra(), example::edg());
        let (number, count) = select(&gra, &edg, &asked.qry, &mut out, &mut work);
        assert_eq!(number, 0, "C{case}");
        assert_eq!(out[..count as usize], *asked.selects, "C{case}");
    }
}
