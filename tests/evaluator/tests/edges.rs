//! What docs/RULES.md says of bounds that are just kept or passed (18.8 to
//! 18.12), of text number 0 (18.13), of rooms and of rows.

mod common;

use common::*;
use evaluator::{calls, plan};

fn steps_of(path: &[u8]) -> Result<usize, u8> {
    let mut out = [0; 78];
    let answer = calls::translate(&loop_graph(), &qry(path), &mut out);
    if answer.number == 0 {
        Ok(out[5].into())
    } else {
        Err(answer.number)
    }
}

fn shredded(gra: &[u8], tre: &[u8]) -> Vec<u8> {
    let plan = plan::shred(gra, tre).ok();
    plan.expect("the document is accepted").lent.remove(0).bytes
}

#[test]
fn double_slashes_take_seven_steps_each_and_one() {
    assert_eq!(steps_of(&double_slashes(3)), Ok(22));
    assert_eq!(steps_of(&double_slashes(4)), Err(11));
}

#[test]
fn a_query_of_24_nodes_takes_25_steps_with_a_not() {
    let counted = |path: &[u8]| calls::read_query(&loop_graph(), &qry(path)).count;
    let filtered = |qualifier: &[u8]| [&[7], &slashes(19)[..], qualifier].concat();
    // Qualifiers of four nodes, without a not and with one, then one of three.
    let or = filtered(&[0x15, 0x12, 0, 0, 0x11, 1]);
    assert_eq!((counted(&or), steps_of(&or)), (24, Ok(24)));
    let not_or = filtered(&[0x13, 0x15, 0x12, 0, 0, 0x12, 0, 0]);
    assert_eq!((counted(&not_or), steps_of(&not_or)), (24, Err(11)));
    let not = filtered(&[0x13, 0x11, 1]);
    assert_eq!((counted(&not), steps_of(&not)), (23, Ok(24)));
}

#[test]
fn the_query_reader_leaves_11_to_the_translator() {
    let path = qry(&double_slashes(4));
    assert_eq!(calls::read_query(&loop_graph(), &path).count, 9);
}

#[test]
fn a_query_of_24_nodes_is_read_and_a_25th_is_4() {
    let read = |path: &[u8]| calls::read_query(&loop_graph(), &qry(path));
    let full = [&[7], &slashes(21)[..], &[0x11, 1]].concat();
    assert_eq!((read(&full).number, read(&full).count), (0, 24));
    let over = slashes(25);
    assert_eq!(read(&over).number, 4);
    // The last node of `over` is a child test of two bytes.
    let up_to_it = &over[..over.len() - 2];
    assert_eq!(read(up_to_it).number, 4, "where the bytes have ended");
    assert_eq!(
        read(&[up_to_it, &[0xFF]].concat()).number,
        4,
        "whatever its code"
    );
    let mut early = over.clone();
    early[20] = 0xFF;
    assert_eq!(read(&early).number, 5, "a bad code before it comes first");
}

#[test]
fn a_chain_of_127_is_accepted_and_a_128th_is_4() {
    let read = |tre: &[u8]| calls::read_document(&loop_graph(), tre);
    assert_eq!(
        (read(&chain(127)).number, read(&chain(127)).count),
        (0, 127)
    );
    assert_eq!(read(&chain(128)).number, 4);
    assert_eq!((read(&star(126)).number, read(&star(126)).count), (0, 127));
    assert_eq!(read(&star(127)).number, 4);
}

#[test]
fn a_128th_element_is_4_on_its_code() {
    let opens = [1, 0, 0, 0].repeat(127);
    let read = |more: &[u8]| {
        let tokens = [&opens[..], more].concat();
        calls::read_document(&loop_graph(), &tre(&tokens)).number
    };
    assert_eq!(read(&[1]), 4);
    assert_eq!(read(&[1, 9]), 4);
    assert_eq!(read(&[]), 1);
}

#[test]
fn a_step_0_with_an_operand_is_9() {
    for op in [4, 5, 6, 7, 8, 9] {
        let rel = rel(&[1, op, 0, 0]);
        assert_eq!(calls::read_program(&loop_graph(), &rel).number, 9);
    }
}

#[test]
fn a_mask_of_0_yields_no_rows() {
    yields_no_rows([1, 0, 0]);
}

#[test]
fn text_0_yields_no_rows() {
    yields_no_rows([3, 0, 0]);
}

/// A step alone, over elements that all have text number 0.
fn yields_no_rows(step: [u8; 3]) {
    let (gra, edg) = (loop_graph(), shredded(&loop_graph(), &chain(3)));
    let program = rel(&[&[1], &step[..]].concat());
    let (mut out, mut work) = ([7; 4], [7; 2048]);
    let answer = calls::run(&gra, &edg, &program, &mut out, &mut work);
    assert_eq!((answer.number, answer.count), (0, 0));
    assert_eq!((out, work), ([7; 4], [0; 2048]));
}

#[test]
fn a_row_is_one_bit_of_its_steps_room() {
    let edg = shredded(&loop_graph(), &chain(127));
    // TABLE of all, then its closure.
    let program = rel(&[2, 1, 0, 1, 6, 0, 0]);
    let (mut out, mut work) = ([0xFF; 130], [0xFF; 5000]);
    let answer = calls::run(&loop_graph(), &edg, &program, &mut out, &mut work);
    assert_eq!((answer.number, answer.count), (0, 127));
    assert!(out[..127].iter().copied().eq(1..=127));
    assert_eq!(out[127..], [0xFF; 3]);
    for v in 0..128usize {
        for w in 0..128usize {
            let bit = |step: usize| work[2048 * step + 16 * v + w / 8] >> (w % 8) & 1 == 1;
            assert_eq!(bit(0), w == v + 1);
            assert_eq!(bit(1), w > v);
        }
    }
    assert!(work[4096..].iter().all(|&byte| byte == 0xFF));
}

#[test]
fn a_closure_may_go_round() {
    // SELF, TABLE, UNION of the two, and the difference of their closure and SELF.
    let edg = shredded(&loop_graph(), &chain(3));
    let program = rel(&[5, 2, 0, 0, 1, 0, 1, 5, 0, 1, 6, 2, 0, 8, 3, 0]);
    let (mut out, mut work) = ([0; 4], [0; 5 * 2048]);
    let answer = calls::run(&loop_graph(), &edg, &program, &mut out, &mut work);
    assert_eq!((answer.number, answer.count), (0, 3));
    assert_eq!(out[..3], [1, 2, 3]);
}

#[test]
fn text_0_is_no_text() {
    // Element 2 has text 7, elements 1 and 3 have none.
    let tokens = [1, 0, 0, 0, 1, 0, 0, 7, 2, 1, 0, 0, 0, 2, 2];
    let edg = shredded(&loop_graph(), &tre(&tokens));
    let selected = |path: &[u8]| {
        let (mut out, mut work) = ([0; 4], [0; 12 * 2048]);
        let answer = calls::select(&loop_graph(), &edg, &qry(path), &mut out, &mut work);
        assert_eq!(answer.number, 0);
        out[..answer.count as usize].to_vec()
    };
    // .[text()=0], then .//.[q] with text()=0 and text()=7, and with not of them.
    assert_eq!(selected(&[7, 1, 0x12, 0, 0]), []);
    assert_eq!(selected(&[5, 1, 7, 1, 0x12, 0, 0]), []);
    assert_eq!(selected(&[5, 1, 7, 1, 0x12, 0, 7]), [2]);
    assert_eq!(selected(&[5, 1, 7, 1, 0x13, 0x12, 0, 0]), [0, 1, 2, 3]);
    assert_eq!(selected(&[5, 1, 7, 1, 0x13, 0x12, 0, 7]), [0, 1, 3]);
}

#[test]
fn text_0_is_read_counted_and_translated() {
    // .[text()=0], and SELF, TEXT and the JOIN of the two.
    let (gra, path) = (loop_graph(), qry(&[7, 1, 0x12, 0, 0]));
    let program = rel(&[3, 2, 0, 0, 3, 0, 0, 4, 0, 1]);
    let answer = calls::read_query(&gra, &path);
    assert_eq!((answer.number, answer.count), (0, 3));
    let answer = calls::read_program(&gra, &program);
    assert_eq!((answer.number, answer.count), (0, 3));
    let mut out = [7; 15];
    let answer = calls::translate(&gra, &path, &mut out);
    assert_eq!((answer.number, answer.count), (0, 15));
    assert_eq!(out[..], program);
}

#[test]
fn the_runner_asks_for_n_and_one_bytes_and_2048_a_step() {
    let edg = shredded(&loop_graph(), &chain(3));
    let program = rel(&[2, 2, 0, 0, 6, 0, 0]);
    for (out_room, work_room, number) in [
        (4, 4096, 0),
        (5, 5000, 0),
        (3, 4096, 12),
        (4, 4095, 12),
        (0, 0, 12),
    ] {
        let (mut out, mut work) = (vec![0xAA; out_room], vec![0xAA; work_room]);
        let answer = calls::run(&loop_graph(), &edg, &program, &mut out, &mut work);
        assert_eq!(answer.number, number);
        if number != 0 {
            assert_eq!(answer.count, 0);
            assert!(out.iter().chain(&work).all(|&byte| byte == 0xAA));
        }
    }
}

#[test]
fn writers_ask_for_the_length_they_write() {
    let (gra, tre, qry) = (loop_graph(), chain(3), qry(&[5, 1, 3]));
    let edg = shredded(&gra, &tre);
    for room in 0..40 {
        let shred = |out: &mut [u8]| calls::shred(&gra, &tre, out);
        writes_in(room, 19, shred);
        let rebuild = |out: &mut [u8]| calls::rebuild(&gra, &edg, out);
        writes_in(room, 20, rebuild);
        let translate = |out: &mut [u8]| calls::translate(&gra, &qry, out);
        writes_in(room, 30, translate);
    }
}

/// A file of `length` bytes is written where there is room, and nothing else.
fn writes_in(room: usize, length: usize, write: impl Fn(&mut [u8]) -> calls::Answer) {
    let written = if room < length { 0 } else { length };
    for filling in [0x00, 0xFF] {
        let mut out = vec![filling; room];
        let answer = write(&mut out);
        let number = if room < length { 12 } else { 0 };
        assert_eq!((answer.number, answer.count as usize), (number, written));
        assert!(out[written..].iter().all(|&byte| byte == filling));
    }
}

#[test]
fn eleven_comes_after_all_reading_and_twelve_last() {
    let (gra, edg) = (loop_graph(), shredded(&loop_graph(), &chain(3)));
    let long = qry(&double_slashes(4));
    let select =
        |gra: &[u8], edg: &[u8], qry: &[u8]| calls::select(gra, edg, qry, &mut [], &mut []).number;
    assert_eq!(select(&gra, &edg, &long), 11);
    assert_eq!(select(&gra, &edg[..9], &long), 1);
    assert_eq!(select(&gra, &edg, &[&long[..], &[0]].concat()), 10);
    assert_eq!(select(&gra, &edg, &qry(&[1])), 12);
    assert_eq!(calls::list(&gra, &edg, &long, &mut [], &mut []).number, 11);
    assert_eq!(calls::translate(&gra, &long, &mut []).number, 11);
    assert_eq!(calls::translate(&gra, &qry(&[1]), &mut []).number, 12);
}

#[test]
fn each_file_is_read_to_its_end_before_the_next() {
    let run =
        |gra: &[u8], edg: &[u8], rel: &[u8]| calls::run(gra, edg, rel, &mut [], &mut []).number;
    let gra = loop_graph();
    let edg = shredded(&gra, &chain(3));
    let longer = |file: &[u8]| [file, &[0]].concat();
    assert_eq!(run(&longer(&gra), b"XXX", b"YYY"), 10);
    assert_eq!(run(&gra, &longer(&edg), b"YYY"), 10);
    assert_eq!(run(&gra, &edg, b"YYY"), 2);
    assert_eq!(run(&gra, &edg, b""), 1);
    assert_eq!(run(&gra, &edg, &rel(&[1, 2, 0, 0])), 12);
}

#[test]
fn kinds_that_are_not_live_are_in_no_pair() {
    // Type 0 is the root and alone; types 1 and 2 hold each other.
    let gra = gra(0, &[0, 4, 2]);
    let program = rel(&[4, 2, 0, 0, 3, 0, 9, 1, 0, 7, 6, 2, 0]);
    let checked = calls::check(&gra, &program);
    assert_eq!(checked.number, 0);
    for (step, pairs) in checked.steps.iter().enumerate() {
        for (kind, &kinds) in pairs.iter().enumerate() {
            let expected = match (step, kind) {
                (0, 0) | (1, 0) => 1,
                (0, 16) => 1 << 16,
                (2, 16) | (3, 16) => 1,
                _ => 0,
            };
            assert_eq!(kinds, expected, "step {step} kind {kind}");
        }
    }
}

#[test]
fn text_0_announces_no_pair() {
    // Types 0, the root, and 1 hold each other; type 2 is not live.
    let gra = gra(0, &[2, 1, 4]);
    // TEXT with 0, with a lower byte alone and with a higher one alone.
    let program = rel(&[3, 3, 0, 0, 3, 0, 1, 3, 1, 0]);
    let checked = calls::check(&gra, &program);
    assert_eq!(checked.number, 0);
    let none = [0; 17];
    let mut live_types = none;
    live_types[..2].copy_from_slice(&[1, 2]);
    assert_eq!(checked.steps[..3], [none, live_types, live_types]);
}

/// The rooms that `include/trammelbud.h` calls enough for every input.
#[test]
fn the_longest_of_each_file() {
    // Sixteen types that may all stand in type 15, the root.
    let mut masks = [0; 16];
    masks[15] = 0xFFFF;
    let gra = gra(15, &masks);
    let inner = [1, 15, 255, 255, 2].repeat(126);
    let tre = tre(&[&[1, 15, 255, 255], &inner[..], &[2]].concat());
    let edg = shredded(&gra, &tre);
    assert_eq!((edg.len(), tre.len()), (530, 640));
    let (mut text, mut work) = ([0; 1677], [0; 8 * 2048]);
    let all = qry(&[5, 1, 1]);
    assert_eq!(
        calls::list(&gra, &edg, &all, &mut text[1..], &mut work).number,
        12
    );
    let answer = calls::list(&gra, &edg, &all, &mut text, &mut work);
    assert_eq!((answer.number, answer.count), (0, 1563));
    // A path of 24 nodes, filtered by text.
    let longest = qry(&[&[7], &slashes(19)[..], &[0x15, 0x12, 0, 0, 0x11, 1]].concat());
    assert_eq!(calls::translate(&gra, &longest, &mut [0; 78]).count, 78);
}
