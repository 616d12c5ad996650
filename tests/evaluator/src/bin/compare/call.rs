//! The twelve calls, and what each can answer.

use evaluator::refusal::File;

#[derive(Clone, Copy, PartialEq, Eq, Debug)]
pub enum Call {
    ReadGraph,
    ReadDocument,
    ReadTables,
    ReadQuery,
    ReadProgram,
    Shred,
    Rebuild,
    Translate,
    Check,
    Run,
    Select,
    List,
}

impl Call {
    pub const ALL: [Call; 12] = [
        Call::ReadGraph,
        Call::ReadDocument,
        Call::ReadTables,
        Call::ReadQuery,
        Call::ReadProgram,
        Call::Shred,
        Call::Rebuild,
        Call::Translate,
        Call::Check,
        Call::Run,
        Call::Select,
        Call::List,
    ];

    pub fn named(name: &str) -> Option<Call> {
        Call::ALL.into_iter().find(|call| call.name() == name)
    }

    pub fn name(self) -> &'static str {
        match self {
            Call::ReadGraph => "read_graph",
            Call::ReadDocument => "read_document",
            Call::ReadTables => "read_tables",
            Call::ReadQuery => "read_query",
            Call::ReadProgram => "read_program",
            Call::Shred => "shred",
            Call::Rebuild => "rebuild",
            Call::Translate => "translate",
            Call::Check => "check",
            Call::Run => "run",
            Call::Select => "select",
            Call::List => "list",
        }
    }

    /// The files it takes, in order.
    pub fn files(self) -> &'static [File] {
        match self {
            Call::ReadGraph => &[File::Graph],
            Call::ReadDocument | Call::Shred => &[File::Graph, File::Document],
            Call::ReadTables | Call::Rebuild => &[File::Graph, File::Tables],
            Call::ReadQuery | Call::Translate => &[File::Graph, File::Query],
            Call::ReadProgram | Call::Check => &[File::Graph, File::Program],
            Call::Run => &[File::Graph, File::Tables, File::Program],
            Call::Select | Call::List => &[File::Graph, File::Tables, File::Query],
        }
    }

    /// The buffers lent to it, in order.
    pub fn buffers(self) -> &'static [&'static str] {
        match self {
            Call::Shred | Call::Rebuild | Call::Translate => &["out"],
            Call::Run | Call::Select => &["out", "work"],
            Call::List => &["text", "work"],
            _ => &[],
        }
    }

    /// Every number it can give, with the file that it speaks of.
    pub fn numbers(self) -> Vec<(Option<File>, u8)> {
        let mut numbers = vec![(None, 0)];
        for &file in self.files() {
            numbers.extend(refusals(file).iter().map(|&number| (Some(file), number)));
        }
        if matches!(self, Call::Translate | Call::Select | Call::List) {
            numbers.push((None, 11));
        }
        if !self.buffers().is_empty() {
            numbers.push((None, 12));
        }
        numbers
    }
}

/// What a file can be turned away for.
fn refusals(file: File) -> &'static [u8] {
    match file {
        File::Graph => &[1, 2, 3, 4, 6, 10],
        File::Document => &[1, 2, 3, 4, 5, 6, 7, 10],
        File::Tables => &[1, 2, 3, 4, 7, 8, 10],
        File::Query => &[1, 2, 3, 4, 5, 6, 10],
        File::Program => &[1, 2, 3, 4, 5, 6, 9, 10],
    }
}
