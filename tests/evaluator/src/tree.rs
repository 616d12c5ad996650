//! The file TRE: a document as opens and closes.

use crate::bounds::MOST_ELEMENTS;
use crate::cursor::{opening, Cursor};
use crate::document::{Document, ROOT};
use crate::graph::Graph;
use crate::refusal::{Cause, File, Refusal};

pub const OPEN: u8 = 0x01;
pub const CLOSE: u8 = 0x02;

pub fn read(graph: &Graph, bytes: &[u8]) -> Result<Document, Refusal> {
    let mut reader = Reader {
        graph,
        file: Cursor::open(File::Document, bytes)?,
        document: Document::empty(),
    };
    match reader.file.byte()? {
        OPEN => reader.element(ROOT)?,
        CLOSE => return Err(reader.file.refuse(Cause::Edge)),
        _ => return Err(reader.file.refuse(Cause::Code)),
    }
    reader.file.end()?;
    Ok(reader.document)
}

struct Reader<'a> {
    graph: &'a Graph,
    file: Cursor<'a>,
    document: Document,
}

impl Reader<'_> {
    /// Reads an element whose open's code has been taken, to its close.
    fn element(&mut self, parent: usize) -> Result<(), Refusal> {
        if self.document.elements() == MOST_ELEMENTS {
            return Err(self.file.refuse(Cause::Bound));
        }
        let kind = self.file.type_below(self.graph.types())?;
        if !self.document.allows(self.graph, parent, kind) {
            return Err(self.file.refuse(Cause::Edge));
        }
        let text = self.file.number()?;
        let element = self.document.add(parent, kind, text);
        loop {
            match self.file.byte()? {
                OPEN => self.element(element)?,
                CLOSE => return Ok(()),
                _ => return Err(self.file.refuse(Cause::Code)),
            }
        }
    }
}

pub fn write(document: &Document) -> Vec<u8> {
    let mut bytes = opening(File::Document);
    write_children(document, ROOT, &mut bytes);
    bytes
}

fn write_children(document: &Document, parent: usize, bytes: &mut Vec<u8>) {
    for &child in &document.node(parent).children {
        let node = document.node(child);
        bytes.extend([OPEN, node.kind]);
        bytes.extend(node.text.to_be_bytes());
        write_children(document, child, bytes);
        bytes.push(CLOSE);
    }
}
