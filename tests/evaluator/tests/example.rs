//! The example of docs/RULES.md, section 18, by the walk over the tree and by
//! translating and running.

mod common;

use evaluator::example::{self, Asked};
use evaluator::query::code;
use evaluator::{calls, plan};

const WORK: usize = 24 * 2048;

/// Room for the listing of any query on the example: 13 bytes for each of its 8 elements, the document node and the first line.
const LISTING: usize = 13 * (8 + 2);

fn translated(asked: &Asked) -> Vec<u8> {
    let plan = plan::translate(&example::gra(), &asked.qry).ok();
    plan.expect("a query of the example is translated")
        .lent
        .remove(0)
        .bytes
}

#[test]
fn graph_is_as_printed() {
    let printed = [
        0x47, 0x52, 0x41, 0x00, 0x01, 0x04, 0x00, 0x00, 0x02, 0x00, 0x06, 0x00, 0x08, 0x00, 0x04,
    ];
    assert_eq!(example::gra(), printed);
}

#[test]
fn tables_are_42_bytes_and_go_back() {
    let (gra, tre, edg) = (example::gra(), example::tre(), example::edg());
    let mut out = [0; 42];
    let answer = calls::shred(&gra, &tre, &mut out);
    assert_eq!((answer.number, answer.count), (0, 42));
    assert_eq!(out[..], edg);
    let mut back = vec![0; tre.len()];
    let answer = calls::rebuild(&gra, &edg, &mut back);
    assert_eq!((answer.number, answer.count), (0, tre.len() as u32));
    assert_eq!(back, tre);
}

#[test]
fn tree_walk_selects_as_printed() {
    common::selects_as_printed(|gra, edg, qry, out, work| {
        let answer = calls::select(gra, edg, qry, out, work);
        (answer.number, answer.count)
    });
}

#[test]
fn translated_programs_select_as_printed() {
    for (case, asked) in (1..).zip(example::queries()) {
        let (mut out, mut work) = ([0; 9], [0; WORK]);
        let rel = translated(&asked);
        let answer = calls::run(&example::gra(), &example::edg(), &rel, &mut out, &mut work);
        assert_eq!(answer.number, 0, "C{case}");
        assert_eq!(out[..answer.count as usize], *asked.selects, "C{case}");
    }
}

#[test]
fn select_leaves_what_the_translated_run_leaves() {
    for asked in example::queries() {
        let (gra, edg, rel) = (example::gra(), example::edg(), translated(&asked));
        let (mut out, mut work) = ([0xAA; 12], [0x55; WORK]);
        let (mut run_out, mut run_work) = (out, work);
        let selected = calls::select(&gra, &edg, &asked.qry, &mut out, &mut work);
        assert_eq!(
            selected,
            calls::run(&gra, &edg, &rel, &mut run_out, &mut run_work)
        );
        assert_eq!((out, work), (run_out, run_work));
    }
}

#[test]
fn station_announces_nothing() {
    let rel = translated(&example::queries()[2]);
    let checked = calls::check(&example::gra(), &rel);
    assert_eq!(checked.number, 0);
    assert!(checked.steps.iter().flatten().all(|&kinds| kinds == 0));
}

#[test]
fn fifth_query_takes_the_printed_steps() {
    let fifth = &example::queries()[4];
    assert_eq!(fifth.qry[5..], [5, 1, 2, 2]);
    let steps = [
        [2, 0, 0],
        [1, 0, 0x0F],
        [6, 1, 0],
        [2, 0, 0],
        [5, 2, 3],
        [4, 0, 4],
        [1, 0, 0x04],
        [4, 5, 6],
    ];
    let rel = translated(fifth);
    assert_eq!(rel[5], 8);
    assert_eq!(rel[6..], steps.concat());
}

/// No type or text number of the example has a byte that is also the code of
/// // or of not, so the codes can be counted in the bytes.
#[test]
fn steps_are_nodes_and_five_for_each_deep_and_one_for_each_not() {
    for asked in example::queries() {
        let count = |code: u8| asked.qry[5..].iter().filter(|&&byte| byte == code).count();
        let nodes = calls::read_query(&example::gra(), &asked.qry).count as usize;
        let steps = usize::from(translated(&asked)[5]);
        assert_eq!(
            steps,
            nodes + 5 * count(code::DEEP) + count(code::NOT),
            "{}",
            asked.text
        );
    }
}

#[test]
fn fifth_query_is_listed_as_printed() {
    let (mut text, mut work) = ([b'?'; LISTING], [0; WORK]);
    let qry = &example::queries()[4].qry;
    let answer = calls::list(&example::gra(), &example::edg(), qry, &mut text, &mut work);
    let printed = b"selected 3\n4 2 7\n6 2 8\n7 2 7\n";
    assert_eq!((answer.number, answer.count as usize), (0, printed.len()));
    assert_eq!(text[..printed.len()], *printed);
    assert!(text[printed.len()..].iter().all(|&byte| byte == b'?'));
}

#[test]
fn first_query_lists_the_document_node() {
    let (mut text, mut work) = ([b'?'; LISTING], [0; 2048]);
    let qry = &example::queries()[0].qry;
    let answer = calls::list(&example::gra(), &example::edg(), qry, &mut text, &mut work);
    assert_eq!((answer.number, answer.count), (0, 18));
    assert_eq!(text[..18], *b"selected 1\n0 16 0\n");
    assert!(text[18..].iter().all(|&byte| byte == b'?'));
}

/// Kinds 0 archive, 1 group, 2 station, 3 remark, 16 the document node.
#[test]
fn fifth_query_announces_its_pairs() {
    let rel = translated(&example::queries()[4]);
    let checked = calls::check(&example::gra(), &rel);
    let at = |step: usize, kind: usize| checked.steps[step][kind];
    assert_eq!(
        (0..17).map(|kind| at(0, kind)).sum::<u32>(),
        0x1000F,
        "SELF on live kinds"
    );
    assert_eq!(
        [at(1, 16), at(1, 0), at(1, 1), at(1, 2), at(1, 3)],
        [1, 2, 6, 8, 4]
    );
    assert_eq!([at(2, 16), at(2, 0), at(2, 2)], [0xF, 0xE, 0xC]);
    assert_eq!([at(5, 16), at(7, 16)], [0x1000F, 4]);
    assert_eq!([at(7, 1), at(7, 3)], [4, 4]);
    assert!(checked.steps[8..].iter().flatten().all(|&kinds| kinds == 0));
}
