//! One call with its input, and what comes of it.

use crate::call::Call;
use evaluator::announce::{Announcement, NOTHING};
use evaluator::plan::{self, settle, Plan};
use evaluator::refusal::{File, Refusal};

/// A call, the files given to it, and the buffers lent to it with the bytes
/// they come with.
#[derive(Clone)]
pub struct Case {
    pub call: Call,
    pub files: Vec<Vec<u8>>,
    pub lent: Vec<Vec<u8>>,
}

impl Case {
    /// Bytes of input, for telling whether one case is smaller than another.
    pub fn size(&self) -> usize {
        self.files.iter().chain(&self.lent).map(Vec::len).sum()
    }
}

/// All that a caller can see of a call.
#[derive(Clone, PartialEq, Eq)]
pub struct Outcome {
    pub number: u8,
    pub count: u32,
    /// What the check announces; nothing for any other call.
    pub announced: Box<Announcement>,
    /// The lent buffers afterwards.
    pub lent: Vec<Vec<u8>>,
    /// Whether a byte beside a lent buffer was changed.
    pub strayed: bool,
}

/// What the evaluator says of a call's files, before any room is looked at.
pub enum Expectation {
    Written(Result<Plan, Refusal>),
    Announced(Result<Box<Announcement>, Refusal>),
}

impl Expectation {
    pub fn of(call: Call, files: &[Vec<u8>]) -> Expectation {
        let file = |at: usize| &files[at][..];
        Expectation::Written(match call {
            Call::Check => {
                return Expectation::Announced(plan::check(file(0), file(1)).map(Box::new))
            }
            Call::ReadGraph => plan::read_graph(file(0)),
            Call::ReadDocument => plan::read_document(file(0), file(1)),
            Call::ReadTables => plan::read_tables(file(0), file(1)),
            Call::ReadQuery => plan::read_query(file(0), file(1)),
            Call::ReadProgram => plan::read_program(file(0), file(1)),
            Call::Shred => plan::shred(file(0), file(1)),
            Call::Rebuild => plan::rebuild(file(0), file(1)),
            Call::Translate => plan::translate(file(0), file(1)),
            Call::Run => plan::run(file(0), file(1), file(2)),
            Call::Select => plan::select(file(0), file(1), file(2)),
            Call::List => plan::list(file(0), file(1), file(2)),
        })
    }

    /// The room that the call asks for, where its files are accepted.
    pub fn rooms(&self) -> Option<Vec<usize>> {
        match self {
            Expectation::Written(Ok(plan)) => Some(plan.lent.iter().map(|w| w.room).collect()),
            _ => None,
        }
    }

    /// The outcome with these buffers, and the file that is at fault.
    pub fn outcome(self, lent: &[Vec<u8>]) -> (Outcome, Option<File>) {
        let mut outcome = Outcome {
            number: 0,
            count: 0,
            announced: Box::new(NOTHING),
            lent: lent.to_vec(),
            strayed: false,
        };
        let settled = match self {
            Expectation::Announced(announced) => announced.map(|pairs| outcome.announced = pairs),
            Expectation::Written(plan) => {
                let mut buffers: Vec<&mut [u8]> =
                    outcome.lent.iter_mut().map(Vec::as_mut_slice).collect();
                settle(plan, &mut buffers).map(|count| outcome.count = count)
            }
        };
        match settled {
            Ok(()) => (outcome, None),
            Err(refusal) => {
                outcome.number = refusal.cause as u8;
                (outcome, refusal.file)
            }
        }
    }
}

/// The evaluator's outcome of a case.
pub fn expected(case: &Case) -> Outcome {
    Expectation::of(case.call, &case.files)
        .outcome(&case.lent)
        .0
}
