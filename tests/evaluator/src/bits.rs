//! Sets of small numbers as the bits of a word.

/// The members of a set, ascending.
pub fn ones(set: u128) -> impl Iterator<Item = usize> {
    let mut left = set;
    std::iter::from_fn(move || {
        if left == 0 {
            return None;
        }
        let lowest = left.trailing_zeros() as usize;
        left &= left - 1;
        Some(lowest)
    })
}

/// The set with one member.
pub fn only(member: usize) -> u128 {
    1 << member
}
