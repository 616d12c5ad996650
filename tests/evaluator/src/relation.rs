//! Sets of pairs of small numbers, and what the operations do with them.

use crate::bits;
use crate::bounds::MOST_NODES;

/// For each v, the set of all w with (v, w) in the relation.
#[derive(Clone, PartialEq, Eq)]
pub struct Relation {
    rows: [u128; MOST_NODES],
}

impl Relation {
    pub fn empty() -> Relation {
        Relation {
            rows: [0; MOST_NODES],
        }
    }

    /// (v, v) for each member.
    pub fn identity(members: impl Iterator<Item = usize>) -> Relation {
        let mut identity = Relation::empty();
        for member in members {
            identity.add(member, member);
        }
        identity
    }

    pub fn add(&mut self, v: usize, w: usize) {
        self.rows[v] |= bits::only(w);
    }

    /// Every w with (v, w).
    pub fn from(&self, v: usize) -> u128 {
        self.rows[v]
    }

    /// (v, w) where some u has (v, u) here and (u, w) there.
    pub fn join(&self, there: &Relation) -> Relation {
        self.by_row(|v| bits::ones(self.from(v)).fold(0, |found, u| found | there.from(u)))
    }

    pub fn union(&self, other: &Relation) -> Relation {
        self.by_row(|v| self.from(v) | other.from(v))
    }

    pub fn intersection(&self, other: &Relation) -> Relation {
        self.by_row(|v| self.from(v) & other.from(v))
    }

    pub fn difference(&self, other: &Relation) -> Relation {
        self.by_row(|v| self.from(v) & !other.from(v))
    }

    /// (v, w) where w is come to from v by one or more steps of the relation:
    /// from each v, go on from every node met until no new one is.
    pub fn closure(&self) -> Relation {
        self.by_row(|v| {
            let mut met = self.from(v);
            let mut fresh = met;
            while fresh != 0 {
                let next = bits::ones(fresh).fold(0, |found, u| found | self.from(u));
                fresh = next & !met;
                met |= fresh;
            }
            met
        })
    }

    /// (v, v) where some row is from v.
    pub fn has(&self) -> Relation {
        Relation::identity((0..MOST_NODES).filter(|&v| self.from(v) != 0))
    }

    /// The rows as a run leaves them: 16 bytes for each v, whose bits, the lowest
    /// of the first byte first, are those of w from 0 to 127.
    pub fn bytes(&self) -> impl Iterator<Item = [u8; 16]> + '_ {
        self.rows.iter().map(|row| row.to_le_bytes())
    }

    fn by_row(&self, row: impl Fn(usize) -> u128) -> Relation {
        Relation {
            rows: std::array::from_fn(row),
        }
    }
}
