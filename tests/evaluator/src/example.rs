//! The example of docs/RULES.md, section 18: a document and fourteen queries.

use crate::cursor::opening;
use crate::document::Document;
use crate::graph::Graph;
use crate::query::code;
use crate::refusal::File;
use crate::{tables, tree};

pub const ARCHIVE: u8 = 0;
pub const GROUP: u8 = 1;
pub const STATION: u8 = 2;
pub const REMARK: u8 = 3;

/// Type, with the types that may stand under it.
const EDGES: [(u8, &[u8]); 4] = [
    (ARCHIVE, &[GROUP]),
    (GROUP, &[GROUP, STATION]),
    (STATION, &[REMARK]),
    (REMARK, &[STATION]),
];

/// Parent, type and text number of elements 1 to 8.
const ELEMENTS: [(usize, u8, u16); 8] = [
    (0, ARCHIVE, 0),
    (1, GROUP, 0),
    (2, GROUP, 0),
    (3, STATION, 7),
    (4, REMARK, 9),
    (5, STATION, 8),
    (2, STATION, 7),
    (1, GROUP, 0),
];

/// A query of the example, with the nodes that it selects.
pub struct Asked {
    /// How XPath writes it.
    pub text: &'static str,
    pub qry: Vec<u8>,
    pub selects: &'static [u8],
}

pub fn gra() -> Vec<u8> {
    let mut bytes = opening(File::Graph);
    bytes.extend([EDGES.len() as u8, ARCHIVE]);
    for (_, children) in EDGES {
        let mask = children.iter().fold(0u16, |mask, child| mask | 1 << child);
        bytes.extend(mask.to_be_bytes());
    }
    bytes
}

pub fn tre() -> Vec<u8> {
    tree::write(&document())
}

pub fn edg() -> Vec<u8> {
    let graph = Graph::read(&gra()).expect("the example's graph is sound");
    tables::write(&graph, &document())
}

fn document() -> Document {
    let mut document = Document::empty();
    for (parent, kind, text) in ELEMENTS {
        document.add(parent, kind, text);
    }
    document
}

/// C1 to C14, in order.
pub fn queries() -> Vec<Asked> {
    let below = |path: &[u8]| deep(&own(), path);
    let some = |kind: u8| [&[code::SOME], &child(kind)[..]].concat();
    let asked = |text, path: Vec<u8>, selects| Asked {
        text,
        qry: file(&path),
        selects,
    };
    vec![
        asked(".", own(), &[0]),
        asked("archive", child(ARCHIVE), &[1]),
        asked("station", child(STATION), &[]),
        asked(
            "archive/group",
            then(&child(ARCHIVE), &child(GROUP)),
            &[2, 8],
        ),
        asked(".//station", below(&child(STATION)), &[4, 6, 7]),
        asked(
            "archive//group",
            deep(&child(ARCHIVE), &child(GROUP)),
            &[2, 3, 8],
        ),
        asked(
            ".//station[text()=7]",
            below(&with(&child(STATION), &[code::TEXT, 0, 7])),
            &[4, 7],
        ),
        asked(
            ".//station[not(remark)]",
            below(&with(
                &child(STATION),
                &[&[code::NOT], &some(REMARK)[..]].concat(),
            )),
            &[6, 7],
        ),
        asked(
            ".//group[station and group]",
            below(&with(
                &child(GROUP),
                &both(code::AND, &some(STATION), &some(GROUP)),
            )),
            &[2],
        ),
        asked(
            ".//group[station or group]",
            below(&with(
                &child(GROUP),
                &both(code::OR, &some(STATION), &some(GROUP)),
            )),
            &[2, 3],
        ),
        asked(
            "archive//.",
            deep(&child(ARCHIVE), &own()),
            &[1, 2, 3, 4, 5, 6, 7, 8],
        ),
        asked(".//*", below(&[code::ANY_CHILD]), &[1, 2, 3, 4, 5, 6, 7, 8]),
        asked(
            ".//station//station",
            deep(&below(&child(STATION)), &child(STATION)),
            &[6],
        ),
        asked(
            "group | archive",
            both(code::UNION, &child(GROUP), &child(ARCHIVE)),
            &[1],
        ),
    ]
}

fn file(path: &[u8]) -> Vec<u8> {
    [&opening(File::Query), path].concat()
}

fn own() -> Vec<u8> {
    vec![code::OWN]
}

fn child(kind: u8) -> Vec<u8> {
    vec![code::CHILD, kind]
}

fn then(p: &[u8], q: &[u8]) -> Vec<u8> {
    both(code::THEN, p, q)
}

fn deep(p: &[u8], q: &[u8]) -> Vec<u8> {
    both(code::DEEP, p, q)
}

fn with(path: &[u8], qualifier: &[u8]) -> Vec<u8> {
    both(code::WHERE, path, qualifier)
}

/// A node with two parts.
fn both(code: u8, p: &[u8], q: &[u8]) -> Vec<u8> {
    [&[code], p, q].concat()
}
