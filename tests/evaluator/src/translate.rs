//! Queries to programs, fixed to the step.

use crate::bounds::MOST_STEPS;
use crate::graph::Graph;
use crate::kinds::{Kinds, DOCUMENT};
use crate::program::Step;
use crate::query::{Path, Qualifier, Query};
use crate::refusal::{Cause, Refusal};

pub fn translate(graph: &Graph, query: &Query) -> Result<Vec<Step>, Refusal> {
    let mut translator = Translator {
        graph,
        steps: Vec::new(),
    };
    translator.path(&query.path, Kinds::only(DOCUMENT));
    if translator.steps.len() > MOST_STEPS {
        return Err(Refusal::after_reading(Cause::Steps));
    }
    Ok(translator.steps)
}

struct Translator<'a> {
    graph: &'a Graph,
    steps: Vec<Step>,
}

impl Translator<'_> {
    /// Adds a step and answers its number.
    fn add(&mut self, step: Step) -> usize {
        self.steps.push(step);
        self.steps.len() - 1
    }

    /// Translates a path under its context kinds. Answers the step that has
    /// its rows, and the kinds out.
    fn path(&mut self, path: &Path, context: Kinds) -> (usize, Kinds) {
        match path {
            Path::Own => (self.add(Step::Own), context),
            Path::Child(kind) => {
                let children = self.graph.children_of_any(context);
                self.table(children.in_both(Kinds::only(*kind)))
            }
            Path::AnyChild => self.table(self.graph.children_of_any(context)),
            Path::Then(p, q) => {
                let (left, middle) = self.path(p, context);
                let (right, out) = self.path(q, middle);
                (self.add(Step::Join(left, right)), out)
            }
            Path::Deep(p, q) => self.deep(p, q, context),
            Path::Union(p, q) => {
                let (left, out) = self.path(p, context);
                let (right, more) = self.path(q, context);
                (self.add(Step::Union(left, right)), out.and_also(more))
            }
            Path::Where(p, q) => {
                let (left, out) = self.path(p, context);
                let right = self.qualifier(q, out);
                (self.add(Step::Join(left, right)), out)
            }
        }
    }

    fn table(&mut self, out: Kinds) -> (usize, Kinds) {
        (self.add(Step::Table(out.types())), out)
    }

    fn deep(&mut self, p: &Path, q: &Path, context: Kinds) -> (usize, Kinds) {
        let (left, middle) = self.path(p, context);
        let below = self.graph.below(middle);
        let table = self.add(Step::Table(below.types()));
        let lfp = self.add(Step::Lfp(table));
        let own = self.add(Step::Own);
        let down = self.add(Step::Union(lfp, own));
        let reached = self.add(Step::Join(left, down));
        let (right, out) = self.path(q, middle.and_also(below));
        (self.add(Step::Join(reached, right)), out)
    }

    /// Translates a qualifier under its context kinds. Answers the step that
    /// has (v, v) for each node v where it holds.
    fn qualifier(&mut self, qualifier: &Qualifier, context: Kinds) -> usize {
        match qualifier {
            Qualifier::Some(path) => {
                let (rows, _) = self.path(path, context);
                self.add(Step::Has(rows))
            }
            Qualifier::Text(number) => self.add(Step::Text(*number)),
            Qualifier::Not(q) => {
                let holds = self.qualifier(q, context);
                let own = self.add(Step::Own);
                self.add(Step::Diff(own, holds))
            }
            Qualifier::And(p, q) => {
                let left = self.qualifier(p, context);
                let right = self.qualifier(q, context);
                self.add(Step::And(left, right))
            }
            Qualifier::Or(p, q) => {
                let left = self.qualifier(p, context);
                let right = self.qualifier(q, context);
                self.add(Step::Union(left, right))
            }
        }
    }
}
