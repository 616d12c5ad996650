//! Holds the listing program to the evaluator: `listings PROGRAM`.
//!
//! The program is started in a folder for each case, with the three files that
//! the case has, and what it prints is compared with the listing that the
//! evaluator gives. A file that a case leaves out is missing from its folder.

use evaluator::{calls, example};
use std::io::{Error, ErrorKind, Result};
use std::path::{Path, PathBuf};
use std::process::{Command, ExitCode};
use std::{env, fs};

const NAMES: [&str; 3] = ["graph.gra", "tables.edg", "query.qry"];

/// The graph, the tables and the query, where they are there.
type Files = [Option<Vec<u8>>; 3];

struct Case {
    name: String,
    files: Files,
}

fn main() -> ExitCode {
    let words: Vec<String> = env::args().skip(1).collect();
    if words.len() != 1 {
        eprintln!("listings PROGRAM");
        return ExitCode::from(2);
    }
    match run(Path::new(&words[0])) {
        Ok(0) => ExitCode::SUCCESS,
        Ok(_) => ExitCode::FAILURE,
        Err(error) => {
            eprintln!("listings: {error}");
            ExitCode::FAILURE
        }
    }
}

/// How many cases differ.
fn run(program: &Path) -> Result<usize> {
    let program = program.canonicalize()?;
    let folder = env::temp_dir().join(format!("listings-{}", std::process::id()));
    let cases = cases();
    let mut differ = 0;
    for case in &cases {
        let printed = printed_by(&program, &folder, &case.files)?;
        let wanted = listing(&case.files);
        if printed != wanted {
            differ += 1;
            println!(
                "listing of {}: {:?}, and not {:?}",
                case.name,
                text(&printed),
                text(&wanted)
            );
        }
    }
    fs::remove_dir_all(&folder)?;
    println!("{} listings compared, {differ} differences", cases.len());
    Ok(differ)
}

fn text(bytes: &[u8]) -> String {
    String::from_utf8_lossy(bytes).into_owned()
}

fn printed_by(program: &PathBuf, folder: &Path, files: &Files) -> Result<Vec<u8>> {
    fs::create_dir_all(folder)?;
    for (name, file) in NAMES.iter().zip(files) {
        let path = folder.join(name);
        match file {
            Some(bytes) => fs::write(path, bytes)?,
            None if path.exists() => fs::remove_file(path)?,
            None => {}
        }
    }
    let ended = Command::new(program)
        .arg("not looked at")
        .current_dir(folder)
        .output()?;
    if !ended.status.success() || !ended.stderr.is_empty() {
        let why = format!("{} ended with {}", program.display(), ended.status);
        return Err(Error::new(ErrorKind::Other, why));
    }
    Ok(ended.stdout)
}

/// What has to be printed. A file that isn't there has no bytes.
fn listing(files: &Files) -> Vec<u8> {
    let [gra, edg, qry] = [0, 1, 2].map(|at| files[at].as_deref().unwrap_or_default());
    let mut text = vec![0; 4096];
    let mut work = vec![0; 24 * 2048];
    let answer = calls::list(gra, edg, qry, &mut text, &mut work);
    if answer.number != 0 {
        return format!("refused {}\n", answer.number).into_bytes();
    }
    text.truncate(answer.count as usize);
    text
}

fn cases() -> Vec<Case> {
    let mut cases = queries();
    cases.extend(missing());
    cases.extend(cut());
    cases.extend(longer());
    cases.extend(edges());
    cases.extend(texts());
    cases.extend(longest());
    cases
}

fn sound(qry: Vec<u8>) -> [Vec<u8>; 3] {
    [example::gra(), example::edg(), qry]
}

fn fifth() -> Vec<u8> {
    example::queries()[4].qry.clone()
}

fn case(name: String, files: [Vec<u8>; 3]) -> Case {
    Case {
        name,
        files: files.map(Some),
    }
}

/// The fourteen queries of the example.
fn queries() -> Vec<Case> {
    example::queries()
        .into_iter()
        .map(|asked| case(asked.text.to_string(), sound(asked.qry)))
        .collect()
}

/// Each set of the three files left out.
fn missing() -> Vec<Case> {
    (1..8)
        .map(|left_out: u8| {
            let mut files = sound(fifth()).map(Some);
            for (place, file) in files.iter_mut().enumerate() {
                if left_out >> place & 1 == 1 {
                    *file = None;
                }
            }
            Case {
                name: format!("files left out: {left_out:03b}"),
                files,
            }
        })
        .collect()
}

/// Each file cut at each length.
fn cut() -> Vec<Case> {
    let mut cases = Vec::new();
    for place in 0..3 {
        for length in 0..sound(fifth())[place].len() {
            let mut files = sound(fifth());
            files[place].truncate(length);
            cases.push(case(format!("{} cut at {length}", NAMES[place]), files));
        }
    }
    cases
}

/// Files of 100,000 bytes are judged as the whole of them would be.
fn longer() -> Vec<Case> {
    let mut cases = Vec::new();
    for place in 0..3 {
        for filling in [0, 1, 2, 4, 5, 0xFF] {
            let mut grown = sound(fifth());
            grown[place].resize(100_000, filling);
            cases.push(case(
                format!("{} filled up with {filling}", NAMES[place]),
                grown,
            ));
            let mut headed = sound(fifth());
            headed[place].truncate(5);
            headed[place].resize(100_000, filling);
            cases.push(case(
                format!("{} of {filling} behind its header", NAMES[place]),
                headed,
            ));
        }
    }
    cases
}

/// Queries about as long as may be: three // are 22 steps, four are 29, and a
/// `not` makes 25 of 24 nodes.
fn edges() -> Vec<Case> {
    let slashes = |count: usize| [vec![5; count], [2, 2].repeat(count + 1)].concat();
    let not = [vec![4; 10], vec![7, 1, 0x13, 0x12, 0, 7], vec![1; 10]].concat();
    vec![
        asked("three //", &slashes(3)),
        asked("four //", &slashes(4)),
        asked("24 nodes with one not", &not),
    ]
}

/// Some of the example's elements have text number 0, which is no text's.
fn texts() -> Vec<Case> {
    vec![
        asked(".//.[text()=0]", &[5, 1, 7, 1, 0x12, 0, 0]),
        asked(".//.[not(text()=0)]", &[5, 1, 7, 1, 0x13, 0x12, 0, 0]),
    ]
}

/// A path, asked of the example's document.
fn asked(name: &str, path: &[u8]) -> Case {
    let qry = [&b"QRY\0\x01"[..], path].concat();
    case(name.to_string(), sound(qry))
}

/// The longest listing there is: 127 elements with types of two digits and text
/// numbers of five, all of them selected, and the document node.
fn longest() -> Vec<Case> {
    let gra = [&b"GRA\0\x01\x10\x0F"[..], &[0xFF; 32]].concat();
    let rows: Vec<u8> = (2..=127).flat_map(|to| [to - 1, to, 0xFF, 0xFF]).collect();
    let edg = [
        &b"EDG\0\x01\x10"[..],
        &[0; 10],
        &[126],
        &rows,
        &[0; 4],
        &[1, 0, 1, 0xFF, 0xFF],
    ]
    .concat();
    let qry = b"QRY\0\x01\x05\x01\x01".to_vec();
    vec![case("the longest".to_string(), [gra, edg, qry])]
}
