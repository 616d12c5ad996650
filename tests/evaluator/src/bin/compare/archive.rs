//! The library's outcome of a case, from the archive.

use crate::call::Call;
use crate::case::{Case, Outcome};
use evaluator::announce::NOTHING;
use evaluator::trammelbud;

/// Bytes on either side of a lent buffer that no call may touch.
const MARGIN: usize = 64;
const UNTOUCHED: u8 = 0xA5;

pub fn outcome(case: &Case) -> Outcome {
    let mut announced = Box::new(NOTHING);
    let mut held: Vec<Vec<u8>> = case.lent.iter().map(|bytes| with_margins(bytes)).collect();
    let answer = {
        let mut lent = held.iter_mut().map(|bytes| inner(bytes));
        let mut lend = || lent.next().expect("a case has its call's buffers");
        let file = |at: usize| &case.files[at][..];
        match case.call {
            Call::ReadGraph => trammelbud::read_graph(file(0)),
            Call::ReadDocument => trammelbud::read_document(file(0), file(1)),
            Call::ReadTables => trammelbud::read_tables(file(0), file(1)),
            Call::ReadQuery => trammelbud::read_query(file(0), file(1)),
            Call::ReadProgram => trammelbud::read_program(file(0), file(1)),
            Call::Shred => trammelbud::shred(file(0), file(1), lend()),
            Call::Rebuild => trammelbud::rebuild(file(0), file(1), lend()),
            Call::Translate => trammelbud::translate(file(0), file(1), lend()),
            Call::Check => {
                let checked = trammelbud::check(file(0), file(1));
                *announced = checked.steps.map(|step| step.pairs);
                trammelbud::Answer {
                    number: checked.number,
                    count: 0,
                }
            }
            Call::Run => trammelbud::run(file(0), file(1), file(2), lend(), lend()),
            Call::Select => trammelbud::select(file(0), file(1), file(2), lend(), lend()),
            Call::List => trammelbud::list(file(0), file(1), file(2), lend(), lend()),
        }
    };
    Outcome {
        number: answer.number,
        count: answer.count,
        announced,
        strayed: held.iter().any(|bytes| strayed(bytes)),
        lent: held.iter_mut().map(|bytes| inner(bytes).to_vec()).collect(),
    }
}

fn with_margins(bytes: &[u8]) -> Vec<u8> {
    let margin = [UNTOUCHED; MARGIN];
    [&margin, bytes, &margin].concat()
}

fn inner(held: &mut [u8]) -> &mut [u8] {
    let end = held.len() - MARGIN;
    &mut held[MARGIN..end]
}

fn strayed(held: &[u8]) -> bool {
    let (before, rest) = held.split_at(MARGIN);
    let after = &rest[rest.len() - MARGIN..];
    before.iter().chain(after).any(|&byte| byte != UNTOUCHED)
}
