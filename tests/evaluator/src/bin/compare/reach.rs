//! What the accepted cases of a run held: a comparison that never met a deep
//! chain or the ninth operation would say nothing of them.

use crate::call::Call;
use crate::case::{Case, Outcome};
use crate::contents::Contents;
use evaluator::bounds::{MOST_ELEMENTS, MOST_NODES, MOST_QUERY_NODES, MOST_STEPS};
use evaluator::document::{Document, ROOT};
use evaluator::graph::Graph;
use evaluator::kinds::Kinds;
use evaluator::program::{self, op, Step};
use evaluator::query::{code, Path, Qualifier, Query};
use evaluator::refusal::File;
use evaluator::text::NO_TEXT;

/// How often each thing was met, in the order of its first mention here.
pub struct Reach {
    met: Vec<(&'static str, u64)>,
}

impl Reach {
    /// With everything that the calls compared can meet.
    pub fn of(calls: &[Call]) -> Reach {
        let takes = |file: File| calls.iter().any(|call| call.files().contains(&file));
        let mut names: Vec<&'static str> = Vec::new();
        let mut name = |more: &[&'static str]| names.extend(more);
        name(&GRAPHS);
        if takes(File::Document) || takes(File::Tables) {
            name(&DOCUMENTS);
        }
        if takes(File::Query) {
            name(&["query of 24 nodes"]);
            name(&CODES.map(|(_, code)| code));
        }
        if takes(File::Program) {
            name(&["program of 24 steps"]);
            name(&OPERATIONS.map(|(_, operation)| operation));
        }
        if calls.contains(&Call::Translate) {
            name(&["translation to 24 steps"]);
        }
        if calls.contains(&Call::Run) || calls.contains(&Call::Select) {
            name(&SELECTIONS);
        }
        for (by, text_0) in TEXT_0 {
            if by.iter().any(|call| calls.contains(call)) {
                name(&[text_0]);
            }
        }
        Reach {
            met: names.into_iter().map(|name| (name, 0)).collect(),
        }
    }

    pub fn met(&self) -> &[(&'static str, u64)] {
        &self.met
    }

    pub fn never(&self) -> impl Iterator<Item = &'static str> + '_ {
        let unmet = self.met.iter().filter(|(_, times)| *times == 0);
        unmet.map(|(name, _)| *name)
    }

    /// Looks into an accepted case.
    pub fn look(&mut self, case: &Case, outcome: &Outcome) {
        let contents = Contents::of(case);
        self.graph(&contents.graph);
        if let Some(document) = &contents.document {
            self.document(document);
        }
        if let Some(query) = &contents.query {
            self.query(query);
        }
        if let Some(steps) = &contents.program {
            self.program(steps);
        }
        self.text_0(case.call, &contents);
        match case.call {
            Call::Translate => self.note(
                outcome.lent[0][5] == MOST_STEPS as u8,
                "translation to 24 steps",
            ),
            Call::Run | Call::Select => self.selection(&outcome.lent[0][..outcome.count as usize]),
            _ => {}
        }
    }

    fn note(&mut self, holds: bool, name: &str) {
        if !holds {
            return;
        }
        if let Some((_, times)) = self.met.iter_mut().find(|(known, _)| *known == name) {
            *times += 1;
        }
    }

    fn graph(&mut self, graph: &Graph) {
        let [full, cyclic, dead] = GRAPHS;
        self.note(graph.types() == 16, full);
        let goes_round = |kind: u8| graph.below(Kinds::only(kind)).has(kind);
        self.note(graph.live().iter().any(goes_round), cyclic);
        self.note(graph.live().0.count_ones() <= graph.types().into(), dead);
    }

    fn document(&mut self, document: &Document) {
        let [one, chain, star, types, none, last] = DOCUMENTS;
        let elements = || {
            document
                .numbers()
                .skip(1)
                .map(|number| document.node(number))
        };
        let most_children = elements().map(|node| node.children.len()).max();
        let full = document.elements() == MOST_ELEMENTS;
        self.note(document.elements() == 1, one);
        self.note(full && most_children == Some(1), chain);
        self.note(full && most_children == Some(MOST_ELEMENTS - 1), star);
        let kinds = elements().fold(0, |kinds, node| kinds | Kinds::only(node.kind).types());
        self.note(kinds == 0xFFFF, types);
        self.note(elements().any(|node| node.text == NO_TEXT), none);
        self.note(elements().any(|node| node.text == 0xFFFF), last);
    }

    fn query(&mut self, query: &Query) {
        self.note(query.nodes == MOST_QUERY_NODES, "query of 24 nodes");
        let codes = Nodes::of(query).codes;
        for (code, name) in CODES {
            self.note(codes.contains(&code), name);
        }
    }

    fn program(&mut self, steps: &[Step]) {
        self.note(steps.len() == MOST_STEPS, "program of 24 steps");
        let bytes = program::write(steps);
        for (operation, name) in OPERATIONS {
            self.note(bytes[6..].chunks(3).any(|step| step[0] == operation), name);
        }
    }

    fn selection(&mut self, nodes: &[u8]) {
        let [none, all, root, last] = SELECTIONS;
        self.note(nodes.is_empty(), none);
        self.note(nodes.len() == MOST_NODES, all);
        self.note(nodes.contains(&(ROOT as u8)), root);
        self.note(nodes.contains(&(MOST_ELEMENTS as u8)), last);
    }

    fn text_0(&mut self, call: Call, contents: &Contents) {
        let [checked, run, asked, denied] = TEXT_0.map(|(_, name)| name);
        let made = !contents.text_0_steps().is_empty();
        let textless = !contents.textless().is_empty();
        self.note(call == Call::Check && made, checked);
        self.note(call == Call::Run && made && textless, run);
        // A query that stands beside a document is asked of it.
        let asks = |wanted: fn(&Qualifier) -> bool| {
            let query = contents.query.iter();
            query.flat_map(|it| Nodes::of(it).qualifiers).any(wanted)
        };
        self.note(textless && asks(is_text_0), asked);
        self.note(textless && asks(is_not_text_0), denied);
    }
}

const GRAPHS: [&str; 3] = [
    "graph of 16 types",
    "graph with a cycle",
    "graph with a type that isn't live",
];

const DOCUMENTS: [&str; 6] = [
    "document of one element",
    "chain of 127 elements",
    "star of 127 elements",
    "document with 16 types",
    "text number 0",
    "text number 65535",
];

const SELECTIONS: [&str; 4] = [
    "no node selected",
    "128 nodes selected",
    "node 0 selected",
    "node 127 selected",
];

/// Where it shows that 0 is no text's number, with the calls that can meet it.
const TEXT_0: [(&[Call], &str); 4] = [
    (&[Call::Check], "TEXT 0 checked"),
    (&[Call::Run], "TEXT 0 run over elements without text"),
    (&ASKING, "text()=0 asked of elements without text"),
    (&ASKING, "not(text()=0) asked of elements without text"),
];

const ASKING: [Call; 2] = [Call::Select, Call::List];

const CODES: [(u8, &str); 12] = [
    (code::OWN, "query with self"),
    (code::CHILD, "query with a child of a type"),
    (code::ANY_CHILD, "query with any child"),
    (code::THEN, "query with /"),
    (code::DEEP, "query with //"),
    (code::UNION, "query with a union"),
    (code::WHERE, "query with a qualifier"),
    (code::SOME, "qualifier with a path"),
    (code::TEXT, "qualifier with a text test"),
    (code::NOT, "qualifier with not"),
    (code::AND, "qualifier with and"),
    (code::OR, "qualifier with or"),
];

const OPERATIONS: [(u8, &str); 9] = [
    (op::TABLE, "program with TABLE"),
    (op::OWN, "program with SELF"),
    (op::TEXT, "program with TEXT"),
    (op::JOIN, "program with JOIN"),
    (op::UNION, "program with UNION"),
    (op::LFP, "program with LFP"),
    (op::HAS, "program with HAS"),
    (op::DIFF, "program with DIFF"),
    (op::AND, "program with AND"),
];

/// What stands in a query.
struct Nodes<'a> {
    codes: Vec<u8>,
    qualifiers: Vec<&'a Qualifier>,
}

impl<'a> Nodes<'a> {
    fn of(query: &'a Query) -> Nodes<'a> {
        let mut nodes = Nodes {
            codes: Vec::new(),
            qualifiers: Vec::new(),
        };
        nodes.path(&query.path);
        nodes
    }

    fn path(&mut self, path: &'a Path) {
        let (own, parts): (u8, [Option<&'a Path>; 2]) = match path {
            Path::Own => (code::OWN, [None, None]),
            Path::Child(_) => (code::CHILD, [None, None]),
            Path::AnyChild => (code::ANY_CHILD, [None, None]),
            Path::Then(p, q) => (code::THEN, [Some(p), Some(q)]),
            Path::Deep(p, q) => (code::DEEP, [Some(p), Some(q)]),
            Path::Union(p, q) => (code::UNION, [Some(p), Some(q)]),
            Path::Where(p, q) => {
                self.qualifier(q);
                (code::WHERE, [Some(p), None])
            }
        };
        self.codes.push(own);
        for part in parts.into_iter().flatten() {
            self.path(part);
        }
    }

    fn qualifier(&mut self, qualifier: &'a Qualifier) {
        let (own, parts): (u8, [Option<&'a Qualifier>; 2]) = match qualifier {
            Qualifier::Some(path) => {
                self.path(path);
                (code::SOME, [None, None])
            }
            Qualifier::Text(_) => (code::TEXT, [None, None]),
            Qualifier::Not(q) => (code::NOT, [Some(q), None]),
            Qualifier::And(p, q) => (code::AND, [Some(p), Some(q)]),
            Qualifier::Or(p, q) => (code::OR, [Some(p), Some(q)]),
        };
        self.codes.push(own);
        self.qualifiers.push(qualifier);
        for part in parts.into_iter().flatten() {
            self.qualifier(part);
        }
    }
}

fn is_text_0(qualifier: &Qualifier) -> bool {
    matches!(qualifier, Qualifier::Text(NO_TEXT))
}

fn is_not_text_0(qualifier: &Qualifier) -> bool {
    matches!(qualifier, Qualifier::Not(q) if is_text_0(q))
}
