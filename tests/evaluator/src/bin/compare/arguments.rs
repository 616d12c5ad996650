//! What the command line asks for.

use crate::call::Call;

pub const USAGE: &str = "\
compare [--calls N] [--seed S] [--only CALL,CALL...]
    compares N generated calls of the library with the evaluator; a call is
    named as in the C interface, without its tb_
compare --self-test [--seed S]
    checks that the comparison notices answers that are wrong on purpose";

pub struct Arguments {
    pub calls: u64,
    pub seed: u64,
    pub only: Vec<Call>,
    pub self_test: bool,
}

impl Arguments {
    /// Nothing where a word isn't understood.
    pub fn read(mut words: impl Iterator<Item = String>) -> Option<Arguments> {
        let mut arguments = Arguments {
            calls: 250_000,
            seed: 1,
            only: Call::ALL.to_vec(),
            self_test: false,
        };
        while let Some(word) = words.next() {
            match &word[..] {
                "--calls" => arguments.calls = words.next()?.parse().ok()?,
                "--seed" => arguments.seed = words.next()?.parse().ok()?,
                "--only" => {
                    arguments.only = words
                        .next()?
                        .split(',')
                        .map(Call::named)
                        .collect::<Option<_>>()?;
                }
                "--self-test" => arguments.self_test = true,
                _ => return None,
            }
        }
        Some(arguments)
    }
}
