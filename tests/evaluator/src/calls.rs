//! The twelve public calls. Files come as slices; buffers are lent, and have
//! afterwards the bytes that the library's call would leave in them.

use crate::announce::{Announcement, NOTHING};
use crate::plan::{self, settle, Plan};
use crate::refusal::{File, Refusal};

/// 0 and a count, or a refusal's number and 0.
#[derive(Clone, Copy, PartialEq, Eq, Debug)]
pub struct Answer {
    pub number: u8,
    pub count: u32,
    /// The file that was turned away. No call of the library answers it: the
    /// comparison counts by it what it has met.
    pub file: Option<File>,
}

impl Answer {
    fn of(result: Result<u32, Refusal>) -> Answer {
        match result {
            Ok(count) => Answer {
                number: 0,
                count,
                file: None,
            },
            Err(refusal) => Answer {
                number: refusal.cause as u8,
                count: 0,
                file: refusal.file,
            },
        }
    }
}

/// The check's answer: a number, and the pairs announced for each step.
#[derive(Clone, PartialEq, Eq, Debug)]
pub struct Checked {
    pub number: u8,
    pub steps: Announcement,
    /// As in `Answer`.
    pub file: Option<File>,
}

/// A plan held to the buffers lent.
pub fn answer(plan: Result<Plan, Refusal>, lent: &mut [&mut [u8]]) -> Answer {
    Answer::of(settle(plan, lent))
}

pub fn read_graph(gra: &[u8]) -> Answer {
    answer(plan::read_graph(gra), &mut [])
}

pub fn read_document(gra: &[u8], tre: &[u8]) -> Answer {
    answer(plan::read_document(gra, tre), &mut [])
}

pub fn read_tables(gra: &[u8], edg: &[u8]) -> Answer {
    answer(plan::read_tables(gra, edg), &mut [])
}

pub fn read_query(gra: &[u8], qry: &[u8]) -> Answer {
    answer(plan::read_query(gra, qry), &mut [])
}

pub fn read_program(gra: &[u8], rel: &[u8]) -> Answer {
    answer(plan::read_program(gra, rel), &mut [])
}

pub fn shred(gra: &[u8], tre: &[u8], out: &mut [u8]) -> Answer {
    answer(plan::shred(gra, tre), &mut [out])
}

pub fn rebuild(gra: &[u8], edg: &[u8], out: &mut [u8]) -> Answer {
    answer(plan::rebuild(gra, edg), &mut [out])
}

pub fn translate(gra: &[u8], qry: &[u8], out: &mut [u8]) -> Answer {
    answer(plan::translate(gra, qry), &mut [out])
}

pub fn check(gra: &[u8], rel: &[u8]) -> Checked {
    match plan::check(gra, rel) {
        Ok(steps) => Checked {
            number: 0,
            steps,
            file: None,
        },
        Err(refusal) => Checked {
            number: refusal.cause as u8,
            steps: NOTHING,
            file: refusal.file,
        },
    }
}

pub fn run(gra: &[u8], edg: &[u8], rel: &[u8], out: &mut [u8], work: &mut [u8]) -> Answer {
    answer(plan::run(gra, edg, rel), &mut [out, work])
}

pub fn select(gra: &[u8], edg: &[u8], qry: &[u8], out: &mut [u8], work: &mut [u8]) -> Answer {
    answer(plan::select(gra, edg, qry), &mut [out, work])
}

pub fn list(gra: &[u8], edg: &[u8], qry: &[u8], text: &mut [u8], work: &mut [u8]) -> Answer {
    answer(plan::list(gra, edg, qry), &mut [text, work])
}
