//! The files in `examples/stations` are what the example is.

use evaluator::{calls, example};
use std::path::Path;
use std::{fs, str};

fn file(name: &str) -> Vec<u8> {
    let stations = Path::new(env!("CARGO_MANIFEST_DIR")).join("../../examples/stations");
    fs::read(stations.join(name)).expect("the file is there")
}

#[test]
fn graph_document_and_tables() {
    assert_eq!(file("graph.gra"), example::gra());
    assert_eq!(file("document.tre"), example::tre());
    assert_eq!(file("tables.edg"), example::edg());
}

#[test]
fn queries() {
    for (number, asked) in (1..).zip(example::queries()) {
        assert_eq!(file(&format!("queries/c{number:02}.qry")), asked.qry);
    }
    assert_eq!(file("query.qry"), file("queries/c05.qry"));
}

#[test]
fn program() {
    let mut out = [0; 78];
    let answer = calls::translate(&example::gra(), &file("query.qry"), &mut out);
    assert_eq!(answer.number, 0);
    assert_eq!(file("program.rel"), out[..answer.count as usize]);
}

#[test]
fn listing() {
    let listing = file("listing.txt");
    let text = str::from_utf8(&listing).expect("a listing is ASCII");
    assert_eq!(text, "selected 3\n4 2 7\n6 2 8\n7 2 7\n");
}
