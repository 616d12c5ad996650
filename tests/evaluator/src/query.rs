//! Queries, and the file QRY.

use crate::bounds::MOST_QUERY_NODES;
use crate::cursor::Cursor;
use crate::graph::Graph;
use crate::refusal::{Cause, File, Refusal};

/// The codes of docs/RULES.md (4.2, 4.3), by the names of what they stand for.
pub mod code {
    pub const OWN: u8 = 0x01;
    pub const CHILD: u8 = 0x02;
    pub const ANY_CHILD: u8 = 0x03;
    pub const THEN: u8 = 0x04;
    pub const DEEP: u8 = 0x05;
    pub const UNION: u8 = 0x06;
    pub const WHERE: u8 = 0x07;
    pub const SOME: u8 = 0x11;
    pub const TEXT: u8 = 0x12;
    pub const NOT: u8 = 0x13;
    pub const AND: u8 = 0x14;
    pub const OR: u8 = 0x15;
}

pub enum Path {
    /// The context node itself.
    Own,
    Child(u8),
    AnyChild,
    /// p/q
    Then(Box<Path>, Box<Path>),
    /// p//q
    Deep(Box<Path>, Box<Path>),
    Union(Box<Path>, Box<Path>),
    /// p[q]
    Where(Box<Path>, Box<Qualifier>),
}

pub enum Qualifier {
    /// Some node is reached.
    Some(Path),
    /// The node's text is the one with this number.
    Text(u16),
    Not(Box<Qualifier>),
    And(Box<Qualifier>, Box<Qualifier>),
    Or(Box<Qualifier>, Box<Qualifier>),
}

pub struct Query {
    pub path: Path,
    /// How many nodes its file has.
    pub nodes: usize,
}

impl Query {
    pub fn read(graph: &Graph, bytes: &[u8]) -> Result<Query, Refusal> {
        let mut reader = Reader {
            file: Cursor::open(File::Query, bytes)?,
            types: graph.types(),
            nodes: 0,
        };
        let path = reader.path()?;
        reader.file.end()?;
        Ok(Query {
            path,
            nodes: reader.nodes,
        })
    }
}

struct Reader<'a> {
    file: Cursor<'a>,
    types: u8,
    nodes: usize,
}

impl Reader<'_> {
    fn path(&mut self) -> Result<Path, Refusal> {
        Ok(match self.code()? {
            code::OWN => Path::Own,
            code::CHILD => Path::Child(self.file.type_below(self.types)?),
            code::ANY_CHILD => Path::AnyChild,
            code::THEN => Path::Then(Box::new(self.path()?), Box::new(self.path()?)),
            code::DEEP => Path::Deep(Box::new(self.path()?), Box::new(self.path()?)),
            code::UNION => Path::Union(Box::new(self.path()?), Box::new(self.path()?)),
            code::WHERE => Path::Where(Box::new(self.path()?), Box::new(self.qualifier()?)),
            _ => return Err(self.file.refuse(Cause::Code)),
        })
    }

    fn qualifier(&mut self) -> Result<Qualifier, Refusal> {
        Ok(match self.code()? {
            code::SOME => Qualifier::Some(self.path()?),
            code::TEXT => Qualifier::Text(self.file.number()?),
            code::NOT => Qualifier::Not(Box::new(self.qualifier()?)),
            code::AND => Qualifier::And(Box::new(self.qualifier()?), Box::new(self.qualifier()?)),
            code::OR => Qualifier::Or(Box::new(self.qualifier()?), Box::new(self.qualifier()?)),
            _ => return Err(self.file.refuse(Cause::Code)),
        })
    }

    /// The code of one more node. A node too many is refused before a byte of
    /// it is asked for.
    fn code(&mut self) -> Result<u8, Refusal> {
        if self.nodes == MOST_QUERY_NODES {
            return Err(self.file.refuse(Cause::Bound));
        }
        self.nodes += 1;
        self.file.byte()
    }
}
