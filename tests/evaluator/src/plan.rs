//! What each call answers and writes, before the room lent to it is looked at.
//!
//! Room is judged last (12), so a call is its plan with the buffers held to
//! it: `settle` does that for all of them. The comparison makes its buffers
//! by the plan too, exact or one short.

use crate::announce::{announce, Announcement};
use crate::document::Document;
use crate::graph::Graph;
use crate::program::{self, Step};
use crate::query::Query;
use crate::refusal::{Cause, Refusal};
use crate::relation::Relation;
use crate::runner::{self, STEP_ROOM};
use crate::{listing, tables, translate, tree, xpath};

/// An accepted call's count, and what it does with each lent buffer.
pub struct Plan {
    pub count: u32,
    pub lent: Vec<Writing>,
}

/// Bytes for the start of a buffer, and the room that is asked for.
pub struct Writing {
    pub bytes: Vec<u8>,
    pub room: usize,
}

impl Plan {
    fn counting(count: usize) -> Plan {
        Plan {
            count: count as u32,
            lent: Vec::new(),
        }
    }

    /// One file written, in as much room as it takes, and its length answered.
    fn writing(bytes: Vec<u8>) -> Plan {
        Plan {
            count: bytes.len() as u32,
            lent: vec![Writing::exactly(bytes)],
        }
    }
}

impl Writing {
    fn exactly(bytes: Vec<u8>) -> Writing {
        let room = bytes.len();
        Writing { bytes, room }
    }

    fn work(steps: &[Relation]) -> Writing {
        Writing {
            bytes: runner::work(steps),
            room: steps.len() * STEP_ROOM,
        }
    }

    /// A listing: the room is asked for that the longest one of so many
    /// elements would take, a line of 13 bytes for each node and the first.
    fn listing(document: &Document, nodes: u128) -> Writing {
        Writing {
            bytes: listing::text(document, nodes).into_bytes(),
            room: 13 * (document.elements() + 2),
        }
    }

    fn nodes(document: &Document, nodes: u128) -> Writing {
        Writing {
            bytes: runner::listed(nodes),
            room: document.elements() + 1,
        }
    }
}

/// Holds buffers to a plan: all that it writes, or nothing.
pub fn settle(plan: Result<Plan, Refusal>, lent: &mut [&mut [u8]]) -> Result<u32, Refusal> {
    let plan = plan?;
    let short = |(buffer, writing): (&&mut [u8], &Writing)| buffer.len() < writing.room;
    if lent.iter().zip(&plan.lent).any(short) {
        return Err(Refusal::after_reading(Cause::Room));
    }
    for (buffer, writing) in lent.iter_mut().zip(&plan.lent) {
        buffer[..writing.bytes.len()].copy_from_slice(&writing.bytes);
    }
    Ok(plan.count)
}

pub fn read_graph(gra: &[u8]) -> Result<Plan, Refusal> {
    Graph::read(gra).map(|graph| Plan::counting(graph.types().into()))
}

pub fn read_document(gra: &[u8], tre: &[u8]) -> Result<Plan, Refusal> {
    let graph = Graph::read(gra)?;
    tree::read(&graph, tre).map(|document| Plan::counting(document.elements()))
}

pub fn read_tables(gra: &[u8], edg: &[u8]) -> Result<Plan, Refusal> {
    let graph = Graph::read(gra)?;
    tables::read(&graph, edg).map(|document| Plan::counting(document.elements()))
}

pub fn read_query(gra: &[u8], qry: &[u8]) -> Result<Plan, Refusal> {
    let graph = Graph::read(gra)?;
    Query::read(&graph, qry).map(|query| Plan::counting(query.nodes))
}

pub fn read_program(gra: &[u8], rel: &[u8]) -> Result<Plan, Refusal> {
    let graph = Graph::read(gra)?;
    program::read(&graph, rel).map(|steps| Plan::counting(steps.len()))
}

pub fn shred(gra: &[u8], tre: &[u8]) -> Result<Plan, Refusal> {
    let graph = Graph::read(gra)?;
    let document = tree::read(&graph, tre)?;
    Ok(Plan::writing(tables::write(&graph, &document)))
}

pub fn rebuild(gra: &[u8], edg: &[u8]) -> Result<Plan, Refusal> {
    let graph = Graph::read(gra)?;
    let document = tables::read(&graph, edg)?;
    Ok(Plan::writing(tree::write(&document)))
}

pub fn translate(gra: &[u8], qry: &[u8]) -> Result<Plan, Refusal> {
    let graph = Graph::read(gra)?;
    let query = Query::read(&graph, qry)?;
    let steps = translate::translate(&graph, &query)?;
    Ok(Plan::writing(program::write(&steps)))
}

pub fn check(gra: &[u8], rel: &[u8]) -> Result<Announcement, Refusal> {
    let graph = Graph::read(gra)?;
    let steps = program::read(&graph, rel)?;
    Ok(announce(&graph, &steps))
}

pub fn run(gra: &[u8], edg: &[u8], rel: &[u8]) -> Result<Plan, Refusal> {
    let graph = Graph::read(gra)?;
    let document = tables::read(&graph, edg)?;
    let steps = program::read(&graph, rel)?;
    let made = runner::run(&document, &steps);
    let nodes = runner::selected(&made);
    Ok(Plan {
        count: nodes.count_ones(),
        lent: vec![Writing::nodes(&document, nodes), Writing::work(&made)],
    })
}

pub fn select(gra: &[u8], edg: &[u8], qry: &[u8]) -> Result<Plan, Refusal> {
    let asked = Asked::read(gra, edg, qry)?;
    Ok(Plan {
        count: asked.nodes.count_ones(),
        lent: vec![
            Writing::nodes(&asked.document, asked.nodes),
            Writing::work(&asked.made()),
        ],
    })
}

pub fn list(gra: &[u8], edg: &[u8], qry: &[u8]) -> Result<Plan, Refusal> {
    let asked = Asked::read(gra, edg, qry)?;
    let text = Writing::listing(&asked.document, asked.nodes);
    Ok(Plan {
        count: text.bytes.len() as u32,
        lent: vec![text, Writing::work(&asked.made())],
    })
}

/// A query asked of a document. The nodes are what the walk over the tree
/// says, not what the program does: that the two agree is for the comparison
/// to see.
struct Asked {
    document: Document,
    steps: Vec<Step>,
    nodes: u128,
}

impl Asked {
    fn read(gra: &[u8], edg: &[u8], qry: &[u8]) -> Result<Asked, Refusal> {
        let graph = Graph::read(gra)?;
        let document = tables::read(&graph, edg)?;
        let query = Query::read(&graph, qry)?;
        let steps = translate::translate(&graph, &query)?;
        let nodes = xpath::select(&document, &query.path);
        Ok(Asked {
            document,
            steps,
            nodes,
        })
    }

    fn made(&self) -> Vec<Relation> {
        runner::run(&self.document, &self.steps)
    }
}
