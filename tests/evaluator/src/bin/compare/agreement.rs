//! What the evaluator has to agree on with itself, on generated input.

use crate::arguments::Arguments;
use crate::call::Call;
use crate::case::{self, Case, Outcome};
use crate::stream::Stream;
use crate::{compare, mutants};
use evaluator::graph::Graph;
use evaluator::runner::STEP_ROOM;
use evaluator::{calls, tables};

/// Accepted cases of one call among so many.
fn accepted(call: Call, cases: usize) -> impl Iterator<Item = (Case, Outcome)> {
    let mut stream = Stream::new(2, &[call]);
    (0..cases).filter_map(move |_| {
        let posed = stream.next();
        let (outcome, _) = posed.expectation.outcome(&posed.case.lent);
        (outcome.number == 0).then_some((posed.case, outcome))
    })
}

fn holds(step: &[u8], v: usize, w: usize) -> bool {
    step[16 * v + w / 8] >> (w % 8) & 1 == 1
}

#[test]
fn generators_reach_everything() {
    let arguments = Arguments {
        calls: 60_000,
        seed: 1,
        only: Call::ALL.to_vec(),
        self_test: false,
    };
    assert!(compare(&arguments, case::expected));
}

#[test]
fn every_mutant_is_noticed() {
    assert!(mutants::all_noticed(1));
}

/// The walk over the tree names the nodes that the translated program does.
#[test]
fn walk_and_program_agree() {
    for (case, outcome) in accepted(Call::Select, 20_000) {
        let mut rel = [0; 78];
        let steps = calls::translate(&case.files[0], &case.files[2], &mut rel).count / 3 - 2;
        let last = &outcome.lent[1][(steps as usize - 1) * STEP_ROOM..];
        let named: Vec<u8> = (0..=127).filter(|&w| holds(last, 0, w.into())).collect();
        assert_eq!(outcome.lent[0][..outcome.count as usize], named);
    }
}

/// Every row that a run makes joins an announced pair.
#[test]
fn rows_join_announced_pairs() {
    for (case, outcome) in accepted(Call::Run, 5_000) {
        let (gra, edg, rel) = (&case.files[0], &case.files[1], &case.files[2]);
        let announced = calls::check(gra, rel).steps;
        let graph = Graph::read(gra).expect("the run was accepted");
        let document = tables::read(&graph, edg).expect("the run was accepted");
        let kind = |node: usize| usize::from(document.node(node).kind);
        let steps = outcome.lent[1].chunks_exact(STEP_ROOM);
        for (step, pairs) in steps.zip(&announced[..rel[5].into()]) {
            for v in document.numbers() {
                for w in document.numbers().filter(|&w| holds(step, v, w)) {
                    assert!(pairs[kind(v)] >> kind(w) & 1 == 1);
                }
            }
        }
    }
}
