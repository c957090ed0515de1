//! Why a call was turned down (clause 1.5).

use core::fmt;

/// What caused a refusal.
#[derive(Clone, Copy, Debug, PartialEq, Eq, Hash)]
pub enum Cause {
    /// What the call was given: a table's bytes or numbers, a slot number, a place, a count, who follows whom, a log, a buffer, or too many
    /// old words or too few.
    Input,
    /// The state that the call was made on, or that was carried over.
    State,
}

/// Why a call was turned down. A call that is turned down has changed nothing, but for a [`restart`](crate::Arbiter::restart), which
/// then leaves no state.
///
/// ```
/// use justrave::{Arbiter, Cause, Refusal, Slots};
///
/// // place 1's finish figure is 7, and its need asks for 6
/// let hasty = [4, 2, 1, 8, 1, 4, 1, 4, 1, 6];
/// let refusal = Arbiter::start(&hasty, Slots(0)).unwrap_err();
/// assert_eq!(refusal, Refusal { number: 7, place: Some(1), cause: Cause::Input });
/// assert_eq!(refusal.to_string(), "refused 7 at place 1, by the input: a finish figure is above its need's slots");
/// ```
#[derive(Clone, Copy, Debug, PartialEq, Eq, Hash)]
pub struct Refusal {
    /// Its number: 1 to 17 (clauses 12.1 to 12.17) or 21 to 23 (clauses 12.21 to 12.23). 255 (clause 12.255) comes of old words that do not
    /// fit ([`carry_over`](crate::Arbiter::carry_over)); from any other call it says that the library that was linked has states or tables
    /// of another length than this crate was written for.
    pub number: u8,
    /// The place at fault, where the number names one (3, 4, 5, 7, 16, 17).
    pub place: Option<usize>,
    /// What caused it.
    pub cause: Cause,
}

impl Refusal {
    /// What an outcome of the library means (clause 15.4): 0 is accepted, a number stands in the low 8 bits, and above them a place plus 1.
    pub(crate) fn check(outcome: u64) -> Result<(), Refusal> {
        if outcome == 0 {
            return Ok(());
        }
        let number = (outcome & 0xFF) as u8;
        Err(Refusal { number, place: (outcome >> 8).checked_sub(1).map(|place| place as usize), cause: cause(number) })
    }

    /// The refusal in a few words.
    pub fn meaning(&self) -> &'static str {
        match self.number {
            1 => "D is outside its limits",
            2 => "the number of places is outside its limits or above the room, or a row past the last place is not 0",
            3 => "a rate is outside its limits",
            4 => "a burst is outside its limits",
            5 => "a need is outside its limits",
            6 => "the rates sum to more than D",
            7 => "a finish figure is above its need's slots",
            8 => "the bytes end inside or before a number",
            9 => "a number is too large or not in its shortest form",
            10 => "bytes are left after the last place",
            11 => "there is no such place",
            12 => "the first slot number is above its limit",
            13 => "the log is too long",
            14 => "the buffer is too short for the table's bytes",
            15 => "no order of the requestors passes",
            16 => "places follow one another in a circle",
            17 => "a need is larger than its burst",
            21 => "the backlog would pass its limit",
            22 => "the slot number would pass its limit",
            23 => "the state breaks a rule",
            255 => "old words of a wrong length or for too many places, or library and wrapper do not fit together",
            _ => "library and wrapper do not fit together",
        }
    }
}

/// Numbers 21 to 29 are kept for the state, any other is the input's.
fn cause(number: u8) -> Cause {
    match number {
        21..=29 => Cause::State,
        _ => Cause::Input,
    }
}

impl fmt::Display for Refusal {
    fn fmt(&self, to: &mut fmt::Formatter<'_>) -> fmt::Result {
        write!(to, "refused {}", self.number)?;
        if let Some(place) = self.place {
            write!(to, " at place {place}")?;
        }
        let by = match self.cause {
            Cause::Input => "input",
            Cause::State => "state",
        };
        write!(to, ", by the {by}: {}", self.meaning())
    }
}

impl core::error::Error for Refusal {}
