//! What the files of an accepted case stand for.

use crate::case::Case;
use evaluator::document::Document;
use evaluator::graph::Graph;
use evaluator::program::{self, Step};
use evaluator::query::Query;
use evaluator::refusal::{File, Refusal};
use evaluator::text::NO_TEXT;
use evaluator::{tables, tree};

pub struct Contents {
    pub graph: Graph,
    /// From its own file or from tables.
    pub document: Option<Document>,
    pub query: Option<Query>,
    pub program: Option<Vec<Step>>,
}

impl Contents {
    pub fn of(case: &Case) -> Contents {
        let graph = sound(Graph::read(&case.files[0]));
        let (mut document, mut query, mut program) = (None, None, None);
        for (file, bytes) in case.call.files().iter().zip(&case.files) {
            match file {
                File::Graph => {}
                File::Document => document = Some(sound(tree::read(&graph, bytes))),
                File::Tables => document = Some(sound(tables::read(&graph, bytes))),
                File::Query => query = Some(sound(Query::read(&graph, bytes))),
                File::Program => program = Some(sound(program::read(&graph, bytes))),
            }
        }
        Contents {
            graph,
            document,
            query,
            program,
        }
    }

    /// The document's elements without text.
    pub fn textless(&self) -> Vec<usize> {
        let textless = |document: &Document| {
            let elements = document.numbers().skip(1);
            elements
                .filter(|&element| document.node(element).text == NO_TEXT)
                .collect()
        };
        self.document.as_ref().map_or(Vec::new(), textless)
    }

    /// The program's steps that are TEXT 0.
    pub fn text_0_steps(&self) -> Vec<usize> {
        let steps = self.program.iter().flatten().enumerate();
        steps
            .filter(|(_, step)| **step == Step::Text(NO_TEXT))
            .map(|(number, _)| number)
            .collect()
    }
}

fn sound<T>(read: Result<T, Refusal>) -> T {
    read.expect("the case was accepted")
}
