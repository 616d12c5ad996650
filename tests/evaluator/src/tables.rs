//! The file EDG: a document as one table of rows for each type.

use crate::bounds::MOST_ELEMENTS;
use crate::cursor::{opening, Cursor};
use crate::document::{Document, ROOT};
use crate::graph::Graph;
use crate::refusal::{Cause, File, Refusal};

struct Row {
    kind: u8,
    from: usize,
    to: usize,
    text: u16,
}

pub fn read(graph: &Graph, bytes: &[u8]) -> Result<Document, Refusal> {
    let mut rows = read_rows(graph, bytes)?;
    rows.sort_by_key(|row| row.to);
    if (1..).zip(&rows).any(|(number, row)| row.to != number) {
        return Err(refuse(Cause::Row));
    }
    assemble(graph, &rows)
}

/// The rows as they stand, each sound by itself.
fn read_rows(graph: &Graph, bytes: &[u8]) -> Result<Vec<Row>, Refusal> {
    let mut file = Cursor::open(File::Tables, bytes)?;
    // A graph's k keeps its bound, so a k beyond it differs from the graph's.
    if file.byte()? != graph.types() {
        return Err(refuse(Cause::Bound));
    }
    let mut rows = Vec::new();
    for kind in 0..graph.types() {
        read_table(&mut file, kind, &mut rows)?;
    }
    if rows.is_empty() {
        return Err(refuse(Cause::Bound));
    }
    file.end()?;
    Ok(rows)
}

fn read_table(file: &mut Cursor, kind: u8, rows: &mut Vec<Row>) -> Result<(), Refusal> {
    let count = file.byte()?;
    if rows.len() + usize::from(count) > MOST_ELEMENTS {
        return Err(refuse(Cause::Bound));
    }
    // No number is below 1, so 0 can stand before the first.
    let mut last = 0;
    for _ in 0..count {
        let [from, to, high, low] = file.field()?;
        let row = Row {
            kind,
            from: from.into(),
            to: to.into(),
            text: u16::from_be_bytes([high, low]),
        };
        if row.to > MOST_ELEMENTS || row.to <= last || row.from >= row.to {
            return Err(refuse(Cause::Row));
        }
        last = row.to;
        rows.push(row);
    }
    Ok(())
}

/// Makes the tree of rows that are numbered 1 to n in order.
fn assemble(graph: &Graph, rows: &[Row]) -> Result<Document, Refusal> {
    let mut document = Document::empty();
    for row in rows {
        if !parent_fits(rows, row) {
            return Err(refuse(Cause::Row));
        }
        if !document.allows(graph, row.from, row.kind) {
            return Err(refuse(Cause::Edge));
        }
        document.add(row.from, row.kind, row.text);
    }
    Ok(document)
}

/// The parent rule: element 1 has parent 0, and any other element has the one
/// before it as its parent or one of those that this one is in.
fn parent_fits(rows: &[Row], row: &Row) -> bool {
    if row.to == 1 {
        return row.from == ROOT;
    }
    let mut at = row.to - 1;
    while at != ROOT && at != row.from {
        at = rows[at - 1].from;
    }
    at != ROOT
}

fn refuse(cause: Cause) -> Refusal {
    Refusal {
        cause,
        file: Some(File::Tables),
    }
}

pub fn write(graph: &Graph, document: &Document) -> Vec<u8> {
    let mut tables = vec![Vec::new(); graph.types().into()];
    for parent in document.numbers() {
        for &child in &document.node(parent).children {
            let node = document.node(child);
            tables[usize::from(node.kind)].push((child as u8, parent as u8, node.text));
        }
    }
    let mut bytes = opening(File::Tables);
    bytes.push(graph.types());
    for mut table in tables {
        table.sort();
        bytes.push(table.len() as u8);
        for (to, from, text) in table {
            bytes.extend([from, to]);
            bytes.extend(text.to_be_bytes());
        }
    }
    bytes
}
