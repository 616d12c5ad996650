//! Computes what the program `call_vectors` has to print.
//!
//! `vectors FOLDER` takes the crate's folder: its file `args` has the cases,
//! its folder `data` their files. What is printed for a case is told in
//! `tests/vectors/calls.txt`.

use evaluator::calls::{self, Answer, Checked};
use std::fmt::Write;
use std::path::Path;
use std::process::ExitCode;
use std::{env, fs, io};

/// Words of a case in `args`: its name, three files, the rooms of two buffers.
const WORDS: usize = 6;

fn main() -> ExitCode {
    let words: Vec<String> = env::args().skip(1).collect();
    if words.len() != 1 {
        eprintln!("vectors FOLDER");
        return ExitCode::from(2);
    }
    match printed(Path::new(&words[0])) {
        Ok(text) => {
            print!("{text}");
            ExitCode::SUCCESS
        }
        Err(error) => {
            eprintln!("vectors: {error}");
            ExitCode::FAILURE
        }
    }
}

fn printed(folder: &Path) -> io::Result<String> {
    let arguments = fs::read_to_string(folder.join("args"))?;
    let words: Vec<&str> = arguments.lines().collect();
    let mut text = String::new();
    for case in words.chunks_exact(WORDS) {
        let files = [case[1], case[2], case[3]].map(|name| load(&folder.join("data").join(name)));
        let rooms = [case[4], case[5]].map(|room| room.parse().expect("a room is a number"));
        text += &shown(case[0], files, rooms);
    }
    Ok(text)
}

/// A file that is missing counts as empty.
fn load(path: &Path) -> Vec<u8> {
    fs::read(path).unwrap_or_default()
}

/// One case: the call that its name begins with is made, in buffers that were
/// filled with the pattern.
fn shown(name: &str, [gra, second, third]: [Vec<u8>; 3], rooms: [usize; 2]) -> String {
    let [mut out, mut work] = rooms.map(|room| (0..room).map(pattern).collect::<Vec<u8>>());
    let call = name.split('-').next().expect("a name begins with a call's");
    let answer = match call {
        "shred" => calls::shred(&gra, &second, &mut out),
        "rebuild" => calls::rebuild(&gra, &second, &mut out),
        "translate" => calls::translate(&gra, &second, &mut out),
        "run" => calls::run(&gra, &second, &third, &mut out, &mut work),
        "select" => calls::select(&gra, &second, &third, &mut out, &mut work),
        "list" => calls::list(&gra, &second, &third, &mut out, &mut work),
        "check" => return shown_check(name, &calls::check(&gra, &second)),
        _ => panic!("{name} begins with no call's name"),
    };
    let mut text = shown_answer(name, answer) + &shown_out(&out);
    if matches!(call, "run" | "select" | "list") {
        text += &shown_work(&work);
    }
    text
}

/// What a lent buffer holds at a place before the call.
fn pattern(place: usize) -> u8 {
    ((7 * place + 3) % 256) as u8
}

fn state(buffer: &[u8]) -> &'static str {
    let came = (0..buffer.len()).map(pattern);
    if came.eq(buffer.iter().copied()) {
        "same"
    } else {
        "changed"
    }
}

/// The bytes as the digits of a number to the base 251, behind a digit 1, modulo
/// a prime.
fn sum(buffer: &[u8]) -> u64 {
    const MODULUS: u128 = (1 << 56) - 5;
    let sum = buffer.iter().fold(1, |sum: u128, &byte| {
        (251 * sum + u128::from(byte)) % MODULUS
    });
    sum as u64
}

fn shown_answer(name: &str, answer: Answer) -> String {
    format!("{name} {} {}\n", answer.number, answer.count)
}

fn shown_out(out: &[u8]) -> String {
    let bytes: String = out.iter().map(|byte| format!("{byte:02x}")).collect();
    format!("out {} {bytes}\n", state(out))
}

fn shown_work(work: &[u8]) -> String {
    format!("work {} {:014x}\n", state(work), sum(work))
}

/// The masks that aren't 0, each with its step and its kind.
fn shown_check(name: &str, checked: &Checked) -> String {
    let mut text = format!("{name} {}\npairs", checked.number);
    for (step, announced) in checked.steps.iter().enumerate() {
        for (kind, mask) in announced.iter().enumerate().filter(|(_, &mask)| mask != 0) {
            write!(text, " {step}:{kind}:{mask:x}").expect("a string takes all");
        }
    }
    text + "\n"
}
