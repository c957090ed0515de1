//! Time and work (clause 1.3). Both are counts, and neither is taken for the other.

use core::fmt;

/// A count of slots, or a slot's number: time on the line.
///
/// ```compile_fail
/// use justrave::{Slots, Transfers};
/// let time: Slots = Transfers(3); // work is not time
/// ```
#[derive(Clone, Copy, Debug, Default, PartialEq, Eq, PartialOrd, Ord, Hash)]
pub struct Slots(pub u64);

/// A count of transfers: work for the line.
#[derive(Clone, Copy, Debug, Default, PartialEq, Eq, PartialOrd, Ord, Hash)]
pub struct Transfers(pub u64);

impl fmt::Display for Slots {
    fn fmt(&self, to: &mut fmt::Formatter<'_>) -> fmt::Result {
        self.0.fmt(to)
    }
}

impl fmt::Display for Transfers {
    fn fmt(&self, to: &mut fmt::Formatter<'_>) -> fmt::Result {
        self.0.fmt(to)
    }
}
