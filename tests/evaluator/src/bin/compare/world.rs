//! Graphs, and documents that they accept.

use crate::rng::Rng;
use evaluator::cursor::opening;
use evaluator::graph::Graph;
use evaluator::refusal::File;
use evaluator::text::NO_TEXT;
use evaluator::tree::{CLOSE, OPEN};

/// Element i of a document stands at place i-1.
#[derive(Clone)]
pub struct Element {
    pub parent: usize,
    pub kind: u8,
    pub text: u16,
}

/// A graph with one document, which queries and programs are made for.
pub struct World {
    pub gra: Vec<u8>,
    pub graph: Graph,
    pub elements: Vec<Element>,
    /// Text numbers that the document is likely to have.
    pub texts: Vec<u16>,
}

impl World {
    pub fn make(rng: &mut Rng) -> World {
        let gra = make_gra(rng);
        let graph = Graph::read(&gra).expect("graphs are made sound");
        // Twice the number that is no text's, so that it is often asked for.
        let texts = vec![NO_TEXT, NO_TEXT, 0xFFFF, 7, rng.next() as u16];
        let elements = match rng.below(5) {
            0 => 127,
            1 => rng.within(1..=8),
            _ => rng.within(1..=127),
        };
        let elements = grow(rng, &graph, &texts, elements);
        World {
            gra,
            graph,
            elements,
            texts,
        }
    }

    pub fn tre(&self) -> Vec<u8> {
        tre(&self.elements)
    }

    pub fn edg(&self) -> Vec<u8> {
        edg(&tables(self.graph.types(), &self.elements))
    }
}

fn make_gra(rng: &mut Rng) -> Vec<u8> {
    let types = match rng.below(4) {
        0 => 16,
        1 => rng.within(1..=3),
        _ => rng.within(1..=16),
    };
    let root = rng.below(types);
    let mut bytes = opening(File::Graph);
    bytes.extend([types as u8, root as u8]);
    let all = ((1u32 << types) - 1) as u16;
    let shape = rng.below(8);
    for kind in 0..types {
        let mask = match shape {
            0 => all,
            // Round all the types.
            1 => 1 << ((kind + 1) % types),
            // Each in itself.
            2 => 1 << kind,
            // Everything under the root and nothing else.
            3 if kind == root => all,
            3 => 0,
            // Only downwards, so no type is below itself.
            4 => (rng.next() as u32 & (u32::from(all) << kind << 1)) as u16,
            // Few edges, so some types are not live.
            5 => 1 << rng.below(types),
            6 => 1 << rng.below(types) | 1 << rng.below(types),
            _ => rng.next() as u16,
        };
        bytes.extend((mask & all).to_be_bytes());
    }
    bytes
}

/// A document of `count` elements, or of fewer where no more can stand.
pub fn grow(rng: &mut Rng, graph: &Graph, texts: &[u16], count: usize) -> Vec<Element> {
    let shape = rng.below(4);
    let root = graph.children(evaluator::kinds::DOCUMENT);
    let mut elements = Vec::new();
    let mut open: Vec<usize> = Vec::new();
    add(rng, &mut elements, 0, root.types(), texts);
    open.push(1);
    while elements.len() < count {
        let holds = |&place: &usize| graph.children(elements[open[place] - 1].kind).0 != 0;
        let fertile = || (0..open.len()).filter(holds);
        let place = match shape {
            0 => fertile().next_back(),
            1 => fertile().next(),
            _ => {
                let places: Vec<usize> = fertile().collect();
                (!places.is_empty()).then(|| *rng.pick(&places))
            }
        };
        let place = match place {
            Some(place) => place,
            None => break,
        };
        let parent = open[place];
        let mask = graph.children(elements[parent - 1].kind).types();
        add(rng, &mut elements, parent, mask, texts);
        open.truncate(place + 1);
        open.push(elements.len());
    }
    elements
}

fn add(rng: &mut Rng, elements: &mut Vec<Element>, parent: usize, mask: u16, texts: &[u16]) {
    let kinds: Vec<u8> = (0..16).filter(|kind| mask >> kind & 1 == 1).collect();
    let text = if rng.chance(10) {
        rng.next() as u16
    } else {
        *rng.pick(texts)
    };
    elements.push(Element {
        parent,
        kind: *rng.pick(&kinds),
        text,
    });
}

pub fn tre(elements: &[Element]) -> Vec<u8> {
    let mut bytes = opening(File::Document);
    let mut open = vec![0];
    for (number, element) in (1..).zip(elements) {
        while *open.last().expect("the document node stays open") != element.parent {
            open.pop();
            bytes.push(CLOSE);
        }
        bytes.extend([OPEN, element.kind]);
        bytes.extend(element.text.to_be_bytes());
        open.push(number);
    }
    bytes.extend(vec![CLOSE; open.len() - 1]);
    bytes
}

/// Rows as they stand in EDG: from, to, text number.
pub type Rows = Vec<[u8; 4]>;

pub fn tables(types: u8, elements: &[Element]) -> Vec<Rows> {
    let mut tables = vec![Rows::new(); types.into()];
    for (number, element) in (1..).zip(elements) {
        let [high, low] = element.text.to_be_bytes();
        tables[usize::from(element.kind)].push([element.parent as u8, number, high, low]);
    }
    tables
}

pub fn edg(tables: &[Rows]) -> Vec<u8> {
    let mut bytes = opening(File::Tables);
    bytes.push(tables.len() as u8);
    for rows in tables {
        bytes.push(rows.len() as u8);
        bytes.extend(rows.concat());
    }
    bytes
}
