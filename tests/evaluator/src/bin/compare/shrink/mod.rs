//! Making a case smaller while the difference that it shows remains.

mod parts;

use crate::case::Case;
use evaluator::bounds::MOST_ELEMENTS;

/// Cases tried at most: a library that is wrong everywhere still ends soon.
const TRIALS: usize = 20_000;

pub fn shrink(case: Case, differs: impl Fn(&Case) -> bool) -> Case {
    let mut search = Search {
        best: case,
        differs,
        trials: 0,
    };
    while search.round() {}
    search.best
}

struct Search<D> {
    best: Case,
    differs: D,
    trials: usize,
}

impl<D: Fn(&Case) -> bool> Search<D> {
    /// Goes once through all that can be made smaller. Says whether anything
    /// was, and there is reason to go on.
    fn round(&mut self) -> bool {
        let mut smaller = false;
        for buffer in 0..self.best.lent.len() {
            smaller |= self.shorten_buffer(buffer);
            smaller |= self.clear_buffer(buffer);
        }
        for file in 0..self.best.files.len() {
            smaller |= self.delete_parts(file);
            smaller |= self.delete_bytes(file);
            smaller |= self.lower_bytes(file);
        }
        smaller && self.trials < TRIALS
    }

    /// Keeps a changed case if it still differs.
    fn attempt(&mut self, change: impl FnOnce(&mut Case)) -> bool {
        if self.trials == TRIALS {
            return false;
        }
        self.trials += 1;
        let mut changed = self.best.clone();
        change(&mut changed);
        let kept = (self.differs)(&changed);
        if kept {
            self.best = changed;
        }
        kept
    }

    /// By ever smaller lengths, so that a room comes down to the one needed.
    fn shorten_buffer(&mut self, buffer: usize) -> bool {
        let mut shorter = false;
        let mut less = self.best.lent[buffer].len();
        while less > 0 {
            let length = self.best.lent[buffer].len();
            if less > length || !self.attempt(|case| case.lent[buffer].truncate(length - less)) {
                less /= 2;
            } else {
                shorter = true;
            }
        }
        shorter
    }

    fn clear_buffer(&mut self, buffer: usize) -> bool {
        self.best.lent[buffer].iter().any(|&byte| byte != 0)
            && self.attempt(|case| case.lent[buffer].fill(0))
    }

    /// Nodes, steps and elements, the last first: nothing is numbered by it.
    fn delete_parts(&mut self, file: usize) -> bool {
        let kind = self.best.call.files()[file];
        let mut fewer = false;
        for part in (0..MOST_ELEMENTS).rev() {
            if let Some(bytes) = parts::without(kind, &self.best.files[file], part) {
                fewer |= self.attempt(|case| case.files[file] = bytes);
            }
        }
        fewer
    }

    /// Long stretches first, then every short one.
    fn delete_bytes(&mut self, file: usize) -> bool {
        let mut shorter = false;
        let mut length = self.best.files[file].len();
        while length > 0 {
            let mut at = 0;
            while at + length <= self.best.files[file].len() {
                if self.attempt(|case| drop(case.files[file].drain(at..at + length))) {
                    shorter = true;
                } else {
                    at += (length + 3) / 4;
                }
            }
            length = if length > 16 { length / 2 } else { length - 1 };
        }
        shorter
    }

    fn lower_bytes(&mut self, file: usize) -> bool {
        let mut lower = false;
        for at in 0..self.best.files[file].len() {
            let byte = self.best.files[file][at];
            for simpler in [0, 1, byte / 2, byte.saturating_sub(1)] {
                if simpler < byte && self.attempt(|case| case.files[file][at] = simpler) {
                    lower = true;
                    break;
                }
            }
        }
        lower
    }
}
