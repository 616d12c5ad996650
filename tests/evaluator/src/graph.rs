//! The graph of types, and the file GRA.

use crate::bounds::MOST_TYPES;
use crate::cursor::Cursor;
use crate::kinds::{Kinds, DOCUMENT};
use crate::refusal::{Cause, File, Refusal};

pub struct Graph {
    root: u8,
    /// One mask of child types for each type.
    masks: Vec<u16>,
}

impl Graph {
    pub fn read(bytes: &[u8]) -> Result<Graph, Refusal> {
        let mut file = Cursor::open(File::Graph, bytes)?;
        let types = file.byte()?;
        if !(1..=MOST_TYPES).contains(&types) {
            return Err(file.refuse(Cause::Bound));
        }
        let root = file.type_below(types)?;
        let masks = (0..types)
            .map(|_| file.mask_below(types))
            .collect::<Result<_, _>>()?;
        file.end()?;
        Ok(Graph { root, masks })
    }

    /// How many types there are, k.
    pub fn types(&self) -> u8 {
        self.masks.len() as u8
    }

    /// The child kinds of one kind. The document node has the root type alone.
    pub fn children(&self, kind: u8) -> Kinds {
        if kind == DOCUMENT {
            Kinds::only(self.root)
        } else {
            Kinds(self.masks[usize::from(kind)].into())
        }
    }

    pub fn children_of_any(&self, kinds: Kinds) -> Kinds {
        kinds
            .iter()
            .fold(Kinds::NONE, |all, kind| all.and_also(self.children(kind)))
    }

    /// Every kind reachable from one of `kinds` by one or more edges.
    pub fn below(&self, kinds: Kinds) -> Kinds {
        let mut found = self.children_of_any(kinds);
        loop {
            let more = found.and_also(self.children_of_any(found));
            if more == found {
                return found;
            }
            found = more;
        }
    }

    /// The kinds that a node of an accepted document can have.
    pub fn live(&self) -> Kinds {
        let document = Kinds::only(DOCUMENT);
        document.and_also(self.below(document))
    }
}
