//! Writes the example of docs/RULES.md, section 18, to files.
//!
//! `example FOLDER` writes the graph, the document, its tables, the fourteen
//! queries with a list of them, and the program and the listing of the fifth.
//! `example --corpus FOLDER` writes what the fuzzer starts from, in the layout
//! that its harness reads.

use evaluator::document::Document;
use evaluator::graph::Graph;
use evaluator::{example, plan, tables, tree};
use std::io::Result;
use std::path::Path;
use std::process::ExitCode;
use std::{env, fs};

fn main() -> ExitCode {
    let words: Vec<String> = env::args().skip(1).collect();
    let words: Vec<&str> = words.iter().map(String::as_str).collect();
    let written = match words[..] {
        ["--corpus", folder] => write_corpus(Path::new(folder)),
        [folder] => write_example(Path::new(folder)),
        _ => {
            eprintln!("example [--corpus] FOLDER");
            return ExitCode::from(2);
        }
    };
    if let Err(error) = written {
        eprintln!("example: {error}");
        return ExitCode::FAILURE;
    }
    ExitCode::SUCCESS
}

fn write_example(folder: &Path) -> Result<()> {
    let queries = folder.join("queries");
    fs::create_dir_all(&queries)?;
    let (gra, edg) = (example::gra(), example::edg());
    fs::write(folder.join("graph.gra"), &gra)?;
    fs::write(folder.join("document.tre"), example::tre())?;
    fs::write(folder.join("tables.edg"), &edg)?;
    let mut index = String::new();
    for (number, asked) in (1..).zip(example::queries()) {
        let name = format!("c{number:02}.qry");
        fs::write(queries.join(&name), &asked.qry)?;
        index += &format!("{name}  {:29}{:?}\n", asked.text, asked.selects);
    }
    fs::write(queries.join("index.txt"), index)?;
    let fifth = &example::queries()[4].qry;
    fs::write(folder.join("query.qry"), fifth)?;
    fs::write(folder.join("program.rel"), program(&gra, fifth))?;
    fs::write(folder.join("listing.txt"), listing(&gra, &edg, fifth))
}

fn listing(gra: &[u8], edg: &[u8], qry: &[u8]) -> Vec<u8> {
    let plan = plan::list(gra, edg, qry).ok();
    let [text, _work] = lent(plan);
    text
}

/// What an accepted call writes.
fn lent<const N: usize>(plan: Option<plan::Plan>) -> [Vec<u8>; N] {
    let plan = plan.expect("what is written here is sound");
    let written: Vec<Vec<u8>> = plan.lent.into_iter().map(|writing| writing.bytes).collect();
    written.try_into().expect("each call has its buffers")
}

/// The example with each query and its program, and larger things than are in
/// it: the two shapes of the largest document with a query of many steps, and a
/// query of too many.
fn write_corpus(folder: &Path) -> Result<()> {
    fs::create_dir_all(folder)?;
    let (gra, tre) = (example::gra(), example::tre());
    for (number, asked) in (1..).zip(example::queries()) {
        let rel = program(&gra, &asked.qry);
        let seed = seed(&gra, &tre, &asked.qry, &rel);
        fs::write(folder.join(format!("c{number:02}")), seed)?;
    }
    // One type that may stand in itself, and .//.//.//. asked of it.
    let gra = b"GRA\x00\x01\x01\x00\x00\x01";
    let qry = b"QRY\x00\x01\x05\x05\x05\x01\x01\x01\x01";
    let rel = program(gra, qry);
    let chain = tree::write(&largest(|number| number - 1));
    fs::write(folder.join("chain"), seed(gra, &chain, qry, &rel))?;
    let star = tree::write(&largest(|number| usize::from(number > 1)));
    fs::write(folder.join("star"), seed(gra, &star, qry, &rel))?;
    let qry = b"QRY\x00\x01\x05\x05\x05\x05\x01\x01\x01\x01\x01";
    fs::write(folder.join("steps"), seed(gra, &star, qry, &rel))
}

fn program(gra: &[u8], qry: &[u8]) -> Vec<u8> {
    let [rel] = lent(plan::translate(gra, qry).ok());
    rel
}

/// A document of 127 elements of type 0, each with its parent.
fn largest(parent: impl Fn(usize) -> usize) -> Document {
    let mut document = Document::empty();
    for number in 1..=evaluator::bounds::MOST_ELEMENTS {
        document.add(parent(number), 0, 0);
    }
    document
}

/// The layout that `tests/fuzz/input.h` tells: a byte for the rooms, the lengths
/// of five files, and the files.
fn seed(gra: &[u8], tre: &[u8], qry: &[u8], rel: &[u8]) -> Vec<u8> {
    let graph = Graph::read(gra).expect("the graph is sound");
    let document = tree::read(&graph, tre).expect("the document is sound");
    let edg = tables::write(&graph, &document);
    let files = [gra, tre, &edg, qry, rel];
    let lengths = files.map(|file| (file.len() as u16).to_be_bytes());
    [&[0][..], &lengths.concat(), &files.concat()].concat()
}
