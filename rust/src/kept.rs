//! Words that a unit keeps, and those that it finds after an update (clause 15.6).

use crate::sys;

/// The layout whose words [`carry_over`](crate::Arbiter::carry_over) takes. Like all that is said here of old words it stays what it is,
/// whatever becomes of the present layout.
pub const OLD_LAYOUT: u64 = 2;

/// The most places that words of the old layout had room for.
pub const OLD_PLACES: usize = 16;

/// How many words of the old layout had room for so many places, 1 to [`OLD_PLACES`].
pub const fn old_words(places: usize) -> usize {
    3 + 6 * places
}

/// The number of the layout in which the linked library keeps a state's words. Words that are kept are for the layout in which they
/// were written, and as many words can be those of another layout: keep this number beside them. A unit that was updated looks at it. Where
/// it is the same, [`from_words`](crate::Arbiter::from_words) takes the words as they are; where it is [`OLD_LAYOUT`],
/// [`carry_over`](crate::Arbiter::carry_over) takes them. Where it is any other, or the words are refused, the unit starts anew.
///
/// ```
/// assert_eq!(justrave::layout(), 3);
/// ```
pub fn layout() -> u64 {
    // SAFETY: the function takes nothing and touches no memory.
    unsafe { sys::justrave_layout() }
}
