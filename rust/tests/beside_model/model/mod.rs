//! A second arbiter in plain Rust, written from the specification and from nothing else: the product's answers are held to it, and its time
//! is measured beside the product's. All numbers are u64. A table has room for as many places as there may be, or as are said.

mod bytes;
mod calls;
mod carry;
mod chain;
mod order;
mod table;

pub use bytes::number_bytes;
pub use calls::{Account, State};
pub use carry::OLD_PLACES;
pub use order::order;
pub use table::{Requestor, Table};

pub const MAX_PLACES: usize = 64;
/// Two to the power 62.
pub const MAX_SLOT: u64 = 4_611_686_018_427_387_904;
pub const MAX_BACKLOG: u64 = 65_535;
pub const MAX_LOG: usize = 65_536;
pub const IDLE: u8 = 255;

/// The number of a refusal (section 12), and the place where it names one.
#[derive(Clone, Copy, Debug, PartialEq, Eq)]
pub struct Fault {
    pub number: u8,
    pub place: Option<usize>,
}

/// A check without a place: passed, or refused with this number.
fn pass(passed: bool, number: u8) -> Result<(), Fault> {
    pass_at(passed, number, None)
}

/// A check that may name a place.
fn pass_at(passed: bool, number: u8, place: Option<usize>) -> Result<(), Fault> {
    if passed {
        Ok(())
    } else {
        Err(Fault { number, place })
    }
}
