//! Why a call turns its input away.

/// The causes of docs/RULES.md, section 15, by their numbers.
#[derive(Clone, Copy, PartialEq, Eq, Debug)]
#[repr(u8)]
pub enum Cause {
    /// The file stops too early, inside a field or between two.
    Ended = 1,
    /// Its first three letters are not its mark.
    Mark = 2,
    /// Its version is another than 1.
    Version = 3,
    /// More than there may be, none where one has to be, or tables for another k
    /// than the graph's.
    Bound = 4,
    /// A code that means nothing where it stands.
    Code = 5,
    /// A type, the root or a bit of a mask is past the graph's last type.
    Type = 6,
    /// Element 1 is not of the root type, an element may not be its parent's
    /// child, or the document begins with a close.
    Edge = 7,
    /// A row of the tables has a wrong number or a wrong parent.
    Row = 8,
    /// A step reads its own result or a later one's.
    Operand = 9,
    /// The file goes on past its end, or has an x or y other than 0 where the
    /// operation uses none.
    Extra = 10,
    /// The query would take more than 24 steps.
    Steps = 11,
    /// A lent buffer is too short.
    Room = 12,
}

/// The five files.
#[derive(Clone, Copy, PartialEq, Eq, Debug)]
pub enum File {
    Graph,
    Document,
    Tables,
    Query,
    Program,
}

impl File {
    pub fn mark(self) -> [u8; 3] {
        match self {
            File::Graph => *b"GRA",
            File::Document => *b"TRE",
            File::Tables => *b"EDG",
            File::Query => *b"QRY",
            File::Program => *b"REL",
        }
    }
}

/// A cause, and the file it was met in. Causes 11 and 12 come after the
/// reading and belong to no file.
#[derive(Clone, Copy, PartialEq, Eq, Debug)]
pub struct Refusal {
    pub cause: Cause,
    pub file: Option<File>,
}

impl Refusal {
    pub fn after_reading(cause: Cause) -> Refusal {
        Refusal { cause, file: None }
    }
}
