//! The details of what is turned away, sentence by sentence.

mod common;

use common::*;
use evaluator::calls;

fn graph(bytes: &[u8]) -> u8 {
    calls::read_graph(bytes).number
}

/// Under a graph of types 0 and 1 with root 0, where 0 holds 1 and 1 holds both.
fn two_types() -> Vec<u8> {
    gra(0, &[2, 3])
}

fn document(tokens: &[u8]) -> u8 {
    calls::read_document(&two_types(), &tre(tokens)).number
}

fn tables(body: &[u8]) -> u8 {
    calls::read_tables(&two_types(), &edg(body)).number
}

fn query(path: &[u8]) -> u8 {
    calls::read_query(&two_types(), &qry(path)).number
}

fn program(body: &[u8]) -> u8 {
    calls::read_program(&two_types(), &rel(body)).number
}

/// 1, 2 and 3 at the opening bytes, the same for every file.
#[test]
fn opening_bytes_are_a_field_of_three_and_one_of_two() {
    let number = |file: &str, bytes: &[u8]| match file {
        "GRA" => graph(bytes),
        "TRE" => calls::read_document(&two_types(), bytes).number,
        "EDG" => calls::read_tables(&two_types(), bytes).number,
        "QRY" => calls::read_query(&two_types(), bytes).number,
        _ => calls::read_program(&two_types(), bytes).number,
    };
    for file in ["GRA", "TRE", "EDG", "QRY", "REL"] {
        let mark = file.as_bytes();
        let opened = |version: &[u8]| number(file, &[mark, version].concat());
        assert_eq!(number(file, b""), 1);
        assert_eq!(
            number(file, b"XY"),
            1,
            "a mark is judged when it is all there"
        );
        assert_eq!(number(file, b"XYZ"), 2);
        assert_eq!(number(file, &mark.to_ascii_lowercase()), 2);
        assert_eq!(opened(&[]), 1);
        assert_eq!(opened(&[9]), 1, "and so is a version");
        assert_eq!(opened(&[0, 2]), 3);
        assert_eq!(opened(&[1, 0]), 3);
        assert_eq!(opened(&[1, 1]), 3);
        assert_eq!(opened(&[0, 0]), 3);
        assert_eq!(opened(&[0, 1]), 1);
    }
}

#[test]
fn graph_counts_types() {
    let sixteen = gra(15, &[0xFFFF; 16]);
    let answer = calls::read_graph(&sixteen);
    assert_eq!((answer.number, answer.count), (0, 16));
    assert_eq!(calls::read_graph(&loop_graph()).count, 1);
}

#[test]
fn graph_bounds_are_4() {
    let mut bytes = loop_graph();
    for types in [0, 17, 255] {
        bytes[5] = types;
        assert_eq!(graph(&bytes), 4);
        assert_eq!(graph(&bytes[..6]), 4, "before the root is there");
    }
}

#[test]
fn graph_root_and_masks_are_6() {
    let mut root = loop_graph();
    root[6] = 1;
    assert_eq!(graph(&root), 6);
    assert_eq!(graph(&root[..7]), 6, "before the masks are there");
    assert_eq!(graph(&gra(0, &[4, 0])), 6);
    assert_eq!(graph(&gra(0, &[3, 0x8000])), 6);
    let early = gra(0, &[4, 0]);
    assert_eq!(
        graph(&early[..9]),
        6,
        "each mask when its two bytes are there"
    );
    assert_eq!(graph(&early[..8]), 1);
}

#[test]
fn graph_ends_are_1_and_10() {
    let whole = two_types();
    for length in 0..whole.len() {
        assert_eq!(graph(&whole[..length]), 1);
    }
    assert_eq!(graph(&[&whole[..], &[0]].concat()), 10);
}

#[test]
fn document_opens_are_judged_type_edge_text() {
    assert_eq!(document(&[1, 0, 0, 0, 2]), 0);
    assert_eq!(document(&[1, 2]), 6, "a type of k or more");
    assert_eq!(document(&[1, 1]), 7, "a root type that is wrong");
    assert_eq!(document(&[1, 0, 0]), 1, "then the text bytes");
    assert_eq!(document(&[1, 0, 0, 0, 1, 0]), 7, "an edge not in the graph");
    assert_eq!(document(&[1, 0, 0, 0, 1, 2]), 6);
    assert_eq!(document(&[1, 0, 0, 0, 1, 1]), 1);
}

#[test]
fn document_tokens_and_ends() {
    assert_eq!(document(&[2]), 7, "a first token that closes");
    assert_eq!(document(&[0]), 5);
    assert_eq!(document(&[3]), 5);
    assert_eq!(document(&[1, 0, 0, 0, 3]), 5);
    assert_eq!(document(&[]), 1);
    assert_eq!(document(&[1, 0, 0, 0]), 1);
    assert_eq!(document(&[1, 0, 0, 0, 2, 2]), 10);
    assert_eq!(
        document(&[1, 0, 0, 0, 2, 1, 0, 0, 0, 2]),
        10,
        "a second tree"
    );
}

#[test]
fn documents_and_tables_count_elements() {
    let tokens = tre(&[1, 0, 0, 0, 1, 1, 0, 5, 2, 1, 1, 255, 255, 2, 2]);
    let answer = calls::read_document(&two_types(), &tokens);
    assert_eq!((answer.number, answer.count), (0, 3));
    let rows = edg(&[2, 1, 0, 1, 0, 0, 2, 1, 2, 0, 5, 1, 3, 255, 255]);
    let answer = calls::read_tables(&two_types(), &rows);
    assert_eq!((answer.number, answer.count), (0, 3));
}

#[test]
fn tables_bounds_are_4() {
    for types in [0, 1, 3, 16, 17] {
        assert_eq!(tables(&[types]), 4, "k differs from the graph's");
    }
    assert_eq!(tables(&[2, 128]), 4, "a count above 127, before its rows");
    assert_eq!(tables(&[2, 1, 0, 1, 0, 0, 127]), 4, "a total above 127");
    assert_eq!(tables(&[2, 0, 0]), 4, "a total of 0");
    assert_eq!(tables(&[2, 0, 0, 9]), 4, "a total of 0 before extra bytes");
    assert_eq!(tables(&[2, 0]), 1, "after the last table");
}

#[test]
fn a_row_is_judged_as_one_field() {
    assert_eq!(tables(&[2, 1, 9, 0, 0]), 1, "when its four bytes are there");
    assert_eq!(tables(&[2, 1, 0, 0, 0, 0]), 8, "`to` below 1");
    assert_eq!(tables(&[2, 1, 0, 128, 0, 0]), 8, "`to` above 127");
    assert_eq!(tables(&[2, 1, 1, 1, 0, 0]), 8, "`from` not below `to`");
    assert_eq!(tables(&[2, 1, 2, 1, 0, 0]), 8);
    assert_eq!(
        tables(&[2, 0, 2, 1, 2, 0, 0, 1, 2, 0, 0]),
        8,
        "`to` not above the last"
    );
    assert_eq!(tables(&[2, 0, 2, 1, 3, 0, 0, 1, 2, 0, 0]), 8);
    assert_eq!(
        tables(&[2, 1, 0, 9, 0, 0]),
        1,
        "a lone row of number 9 is judged later"
    );
}

#[test]
fn tables_extra_bytes_come_before_the_whole() {
    assert_eq!(tables(&[2, 1, 0, 9, 0, 0, 0]), 8, "numbers are 1 to n");
    assert_eq!(tables(&[2, 1, 0, 9, 0, 0, 0, 77]), 10);
    assert_eq!(tables(&[2, 1, 0, 1, 0, 0, 1, 0, 1, 0, 0]), 8, "each once");
}

#[test]
fn the_whole_is_judged_by_element() {
    // Rows of type 0, then of type 1; type 0 is the root.
    let rows = |zero: &[[u8; 2]], one: &[[u8; 2]]| {
        let table = |rows: &[[u8; 2]]| {
            let rows = rows.iter().flat_map(|&[from, to]| [from, to, 0, 0]);
            std::iter::once(0).chain(rows).collect::<Vec<_>>()
        };
        let (mut first, mut second) = (table(zero), table(one));
        first[0] = zero.len() as u8;
        second[0] = one.len() as u8;
        tables(&[&[2], &first[..], &second].concat())
    };
    assert_eq!(rows(&[[0, 1]], &[[1, 2], [1, 3]]), 0);
    assert_eq!(rows(&[[0, 1]], &[[0, 2]]), 8, "a second root");
    assert_eq!(
        rows(&[[0, 1]], &[[1, 2], [1, 3], [2, 4]]),
        8,
        "2 is closed when 4 begins"
    );
    assert_eq!(rows(&[[0, 1]], &[[1, 2], [1, 3], [3, 4], [1, 5]]), 0);
    assert_eq!(rows(&[], &[[0, 1]]), 7, "the root type");
    assert_eq!(rows(&[[0, 1], [1, 2]], &[]), 7, "an edge");
    assert_eq!(
        rows(&[[0, 1], [1, 2]], &[[0, 3]]),
        7,
        "7 at 2 before 8 at 3"
    );
    assert_eq!(
        rows(&[[0, 1], [0, 2]], &[]),
        8,
        "the parent before the edge"
    );
    assert_eq!(
        rows(&[[0, 1], [1, 2]], &[[1, 9]]),
        8,
        "numbers before all that"
    );
}

#[test]
fn query_codes_are_5_out_of_their_place() {
    for code in [0x00, 0x08, 0x10, 0x11, 0x12, 0x13, 0x14, 0x15, 0x16, 0xFF] {
        assert_eq!(query(&[code]), 5);
        assert_eq!(query(&[4, 1, code]), 5);
        assert_eq!(query(&[7, 1, 0x11, code]), 5);
    }
    for code in [0x00, 0x01, 0x02, 0x03, 0x07, 0x08, 0x10, 0x16, 0xFF] {
        assert_eq!(query(&[7, 1, code]), 5);
        assert_eq!(query(&[7, 1, 0x13, code]), 5);
        assert_eq!(query(&[7, 1, 0x14, 0x12, 0, 0, code]), 5);
    }
}

#[test]
fn query_types_and_ends() {
    assert_eq!(query(&[2, 1]), 0);
    assert_eq!(query(&[2, 2]), 6);
    assert_eq!(query(&[2]), 1);
    assert_eq!(query(&[4, 1]), 1);
    assert_eq!(query(&[7, 1, 0x12, 9]), 1);
    assert_eq!(query(&[7, 1, 0x12, 0xFF, 0xFF]), 0);
    assert_eq!(query(&[1, 0xFF]), 10, "whatever follows");
    assert_eq!(query(&[7, 1, 0x15, 0x12, 0, 0, 0x13, 0x11, 3]), 0);
}

#[test]
fn program_counts_steps_up_to_24() {
    let full = rel(&[&[24], &[2, 0, 0].repeat(24)[..]].concat());
    let answer = calls::read_program(&two_types(), &full);
    assert_eq!((answer.number, answer.count), (0, 24));
    assert_eq!(program(&[0]), 4);
    assert_eq!(program(&[25]), 4);
    assert_eq!(program(&[255]), 4);
}

#[test]
fn program_fields_are_judged_in_order() {
    assert_eq!(program(&[1, 0]), 5);
    assert_eq!(program(&[1, 10]), 5);
    assert_eq!(program(&[1, 2]), 1);
    assert_eq!(program(&[1, 2, 1]), 10, "x before y is there");
    assert_eq!(program(&[1, 2, 0]), 1);
    assert_eq!(program(&[1, 2, 0, 1]), 10);
    assert_eq!(program(&[2, 2, 0, 0, 4, 1]), 9);
    assert_eq!(program(&[2, 2, 0, 0, 4, 0, 1]), 9);
    assert_eq!(program(&[2, 2, 0, 0, 6, 1]), 9);
    assert_eq!(program(&[2, 2, 0, 0, 6, 0, 1]), 10, "an unused y");
    assert_eq!(program(&[2, 2, 0, 0, 7, 0, 1]), 10);
    assert_eq!(program(&[2, 2, 0, 0, 7, 0, 0]), 0);
}

#[test]
fn program_masks_are_one_field() {
    assert_eq!(program(&[1, 1, 0xFF]), 1);
    assert_eq!(program(&[1, 1, 0, 4]), 6);
    assert_eq!(program(&[1, 1, 1, 0]), 6);
    assert_eq!(program(&[1, 1, 0, 3]), 0);
    assert_eq!(program(&[1, 3, 0xFF]), 1);
    assert_eq!(program(&[1, 3, 0xFF, 0xFF]), 0);
}

#[test]
fn program_ends_are_1_and_10() {
    assert_eq!(program(&[]), 1);
    assert_eq!(program(&[2, 2, 0, 0]), 1);
    assert_eq!(program(&[1, 2, 0, 0, 2]), 10);
}

#[test]
fn a_refused_check_announces_nothing() {
    let checked = calls::check(&two_types(), &rel(&[1, 2, 0, 0, 2]));
    assert_eq!(checked.number, 10);
    assert!(checked.steps.iter().flatten().all(|&kinds| kinds == 0));
}
