//! The example through the library itself, as a Rust program calls it. Built
//! only where the archive is given.
#![cfg(feature = "archive")]

mod common;

use evaluator::{example, trammelbud};

#[test]
fn queries_select_as_printed() {
    common::selects_as_printed(|gra, edg, qry, out, work| {
        let answer = trammelbud::select(gra, edg, qry, out, work);
        (answer.number, answer.count)
    });
}

#[test]
fn tables_are_42_bytes_and_go_back() {
    let mut edg = [0; 42];
    let answer = trammelbud::shred(&example::gra(), &example::tre(), &mut edg);
    assert_eq!((answer.number, answer.count), (0, 42));
    let mut tre = vec![0; example::tre().len()];
    let answer = trammelbud::rebuild(&example::gra(), &edg, &mut tre);
    assert_eq!((answer.number, answer.count as usize), (0, tre.len()));
    assert_eq!(tre, example::tre());
}

#[test]
fn a_refused_call_leaves_its_buffer() {
    let mut out = [7; 41];
    let answer = trammelbud::shred(&example::gra(), &example::tre(), &mut out);
    assert_eq!((answer.number, answer.count), (12, 0));
    assert_eq!(out, [7; 41]);
}
