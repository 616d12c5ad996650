//! The comparison held to the test: answers that are wrong on purpose, each of
//! which it has to notice.

use crate::call::Call;
use crate::case::{expected, Case, Outcome};
use crate::contents::Contents;
use crate::shrink::shrink;
use crate::stream::Stream;
use evaluator::query::code;
use evaluator::runner::STEP_ROOM;

/// Cases within which each mutant has to be noticed.
const WITHIN: usize = 100_000;

struct Mutant {
    name: &'static str,
    /// Spoils the right outcome of a case.
    spoil: fn(&Case, &mut Outcome),
}

/// Whether each mutant is noticed, and shrinking keeps what was noticed.
pub fn all_noticed(seed: u64) -> bool {
    let mut stream = Stream::new(seed, &Call::ALL);
    let mut left: Vec<&Mutant> = MUTANTS.iter().collect();
    for number in 1..=WITHIN {
        let posed = stream.next();
        let (right, _) = posed.expectation.outcome(&posed.case.lent);
        left.retain(|mutant| {
            let noticed = spoiled(mutant, &posed.case, &right) != right;
            if noticed {
                let small = shrunk(mutant, &posed.case);
                println!(
                    "{}: noticed at call {number}, in {} bytes after shrinking",
                    mutant.name,
                    small.size()
                );
            }
            !noticed
        });
        if left.is_empty() {
            println!("{} wrong answers, all noticed", MUTANTS.len());
            return true;
        }
    }
    for mutant in left {
        println!("{}: NOT noticed in {WITHIN} calls", mutant.name);
    }
    false
}

fn spoiled(mutant: &Mutant, case: &Case, right: &Outcome) -> Outcome {
    let mut outcome = right.clone();
    (mutant.spoil)(case, &mut outcome);
    outcome
}

fn shrunk(mutant: &Mutant, case: &Case) -> Case {
    let differs = |case: &Case| {
        let right = expected(case);
        spoiled(mutant, case, &right) != right
    };
    let small = shrink(case.clone(), differs);
    assert!(differs(&small), "shrinking lost the difference");
    assert!(
        small.size() <= case.size(),
        "shrinking made the case larger"
    );
    small
}

fn refuse(case: &Case, outcome: &mut Outcome, number: u8) {
    outcome.number = number;
    outcome.count = 0;
    outcome.announced.fill([0; 17]);
    outcome.lent.clone_from(&case.lent);
}

fn accepted(case: &Case, outcome: &Outcome, calls: &[Call]) -> bool {
    outcome.number == 0 && calls.contains(&case.call)
}

/// The code of a query's node, counted from 0, where those before it are sound.
fn query_node(case: &Case, node: usize) -> Option<u8> {
    let qry = case.files.last()?;
    let mut at = 5;
    for _ in 0..node {
        at += match *qry.get(at)? {
            code::CHILD => 2,
            code::TEXT => 3,
            _ => 1,
        };
    }
    qry.get(at).copied()
}

const RUNNERS: [Call; 2] = [Call::Run, Call::Select];
const WORKERS: [Call; 3] = [Call::Run, Call::Select, Call::List];
const WRITERS: [Call; 3] = [Call::Shred, Call::Rebuild, Call::Translate];

/// The stand-ins that docs/RULES.md names (17.16) come first.
const MUTANTS: &[Mutant] = &[
    Mutant {
        name: "a reader that refuses all",
        spoil: |case, outcome| {
            if case.call.buffers().is_empty() {
                refuse(case, outcome, 1);
            }
        },
    },
    Mutant {
        name: "a translator that refuses all",
        spoil: |case, outcome| {
            if case.call == Call::Translate {
                refuse(case, outcome, 11);
            }
        },
    },
    Mutant {
        name: "the same nodes always",
        spoil: |case, outcome| {
            if accepted(case, outcome, &RUNNERS) {
                outcome.count = 1;
                outcome.lent[0][..case.lent[0].len()].copy_from_slice(&case.lent[0]);
                outcome.lent[0][0] = 1;
            }
        },
    },
    Mutant {
        name: "a run that touches no work area",
        spoil: |case, outcome| {
            if accepted(case, outcome, &WORKERS) {
                outcome.lent[1].clone_from(&case.lent[1]);
            }
        },
    },
    Mutant {
        name: "a run that fills step 0 alone",
        spoil: |case, outcome| {
            if accepted(case, outcome, &WORKERS) {
                outcome.lent[1][STEP_ROOM..].copy_from_slice(&case.lent[1][STEP_ROOM..]);
            }
        },
    },
    Mutant {
        name: "a count that isn't the nodes listed",
        spoil: |case, outcome| {
            if accepted(case, outcome, &RUNNERS) {
                outcome.count += 1;
            }
        },
    },
    Mutant {
        name: "a check that announces every pair",
        spoil: |case, outcome| {
            if accepted(case, outcome, &[Call::Check]) {
                outcome.announced.fill([0x1FFFF; 17]);
            }
        },
    },
    Mutant {
        name: "a check that announces past the last step",
        spoil: |case, outcome| {
            if accepted(case, outcome, &[Call::Check]) && case.files[1][5] < 24 {
                outcome.announced[23][16] = 1;
            }
        },
    },
    Mutant {
        name: "a check that forgets type 15",
        spoil: |_, outcome| {
            outcome
                .announced
                .iter_mut()
                .flatten()
                .for_each(|kinds| *kinds &= !0x8000)
        },
    },
    Mutant {
        name: "a check of nothing that announces",
        spoil: |case, outcome| {
            if case.call == Call::Check && outcome.number == 10 {
                outcome.announced[0][16] = 1;
            }
        },
    },
    Mutant {
        name: "a refused call with a count",
        spoil: |_, outcome| {
            if outcome.number == 7 {
                outcome.count = 1;
            }
        },
    },
    Mutant {
        name: "a call that writes and then finds too little room",
        spoil: |_, outcome| {
            if outcome.number == 12 && !outcome.lent[0].is_empty() {
                outcome.lent[0][0] ^= 1;
            }
        },
    },
    Mutant {
        name: "a run that clears the work area before it refuses",
        spoil: |case, outcome| {
            if outcome.number == 9 && case.call == Call::Run {
                outcome.lent[1].fill(0);
            }
        },
    },
    Mutant {
        name: "a byte written past the nodes",
        spoil: |case, outcome| {
            if accepted(case, outcome, &RUNNERS) {
                if let Some(byte) = outcome.lent[0].get_mut(outcome.count as usize) {
                    *byte = 0;
                }
            }
        },
    },
    Mutant {
        name: "a byte written past the last step",
        spoil: |case, outcome| {
            if accepted(case, outcome, &[Call::Run]) {
                let end = STEP_ROOM * usize::from(case.files[2][5]);
                if let Some(byte) = outcome.lent[1].get_mut(end) {
                    *byte ^= 0x80;
                }
            }
        },
    },
    Mutant {
        name: "a byte written outside a buffer",
        spoil: |case, outcome| outcome.strayed = accepted(case, outcome, &WRITERS),
    },
    Mutant {
        name: "a writer that asks for one byte too many",
        spoil: |case, outcome| {
            if accepted(case, outcome, &WRITERS) && case.lent[0].len() == outcome.count as usize {
                refuse(case, outcome, 12);
            }
        },
    },
    Mutant {
        name: "a runner that asks for as many bytes as it selects",
        spoil: |case, outcome| {
            if case.call == Call::Run && outcome.number == 12 {
                let roomier = Case {
                    lent: vec![vec![0; 128], case.lent[1].clone()],
                    ..case.clone()
                };
                let accepted = expected(&roomier);
                if accepted.number == 0 && accepted.count as usize <= case.lent[0].len() {
                    outcome.number = 0;
                }
            }
        },
    },
    Mutant {
        name: "room judged before the steps are counted",
        spoil: |case, outcome| {
            if outcome.number == 11 && case.lent[0].is_empty() {
                outcome.number = 12;
            }
        },
    },
    Mutant {
        name: "a closure that goes no further than 120 nodes",
        spoil: |case, outcome| {
            if accepted(case, outcome, &WORKERS) {
                for step in outcome.lent[1].chunks_exact_mut(STEP_ROOM) {
                    step[15] = 0;
                }
            }
        },
    },
    Mutant {
        name: "a SELF without node 0",
        spoil: |case, outcome| {
            if accepted(case, outcome, &[Call::Run]) && case.files[2][6] == 2 {
                outcome.lent[1][0] &= !1;
            }
        },
    },
    Mutant {
        name: "a TEXT 0 with rows",
        spoil: |case, outcome| {
            if accepted(case, outcome, &[Call::Run]) {
                let contents = Contents::of(case);
                for step in contents.text_0_steps() {
                    let room = &mut outcome.lent[1][STEP_ROOM * step..];
                    for v in contents.textless() {
                        room[16 * v + v / 8] |= 1 << (v % 8);
                    }
                }
            }
        },
    },
    Mutant {
        name: "a TEXT 0 that announces the root type",
        spoil: |case, outcome| {
            if accepted(case, outcome, &[Call::Check]) {
                let root = case.files[0][6];
                for step in Contents::of(case).text_0_steps() {
                    outcome.announced[step][usize::from(root)] |= 1 << root;
                }
            }
        },
    },
    Mutant {
        name: "a shredder that loses text number 65535",
        spoil: |case, outcome| {
            if accepted(case, outcome, &[Call::Shred]) {
                let written = &mut outcome.lent[0][..outcome.count as usize];
                // Only a text number has two such bytes.
                if let Some(at) = written.windows(2).position(|pair| pair == [0xFF; 2]) {
                    written[at] = 0;
                }
            }
        },
    },
    Mutant {
        name: "a 25th query node judged by its code",
        spoil: |case, outcome| {
            let unknown = matches!(query_node(case, 24), Some(0x08..=0x10 | 0x16..));
            if case.call == Call::ReadQuery && outcome.number == 4 && unknown {
                outcome.number = 5;
            }
        },
    },
    Mutant {
        name: "a 25th query node that isn't there as an end",
        spoil: |case, outcome| {
            let missing = query_node(case, 24).is_none();
            if case.call == Call::ReadQuery && outcome.number == 4 && missing {
                outcome.number = 1;
            }
        },
    },
    Mutant {
        name: "a listing without its last line's end",
        spoil: |case, outcome| {
            if accepted(case, outcome, &[Call::List]) {
                outcome.count -= 1;
            }
        },
    },
    Mutant {
        name: "bytes after the end let pass",
        spoil: |case, outcome| {
            if case.call == Call::ReadQuery && outcome.number == 10 {
                outcome.number = 0;
            }
        },
    },
];
