//! The arbiter of a dosing unit's field line.
//!
//! Time on the line is cut into **slots**, and a slot carries at most one **transfer**. The arbiter says, slot by slot, whose
//! transfer goes next. Each requestor has a place, 0 the most urgent, with a rate, a burst and a need; the table of them is
//! given as bytes or as numbers ([`Table`]). What the arbiter answers is proved; this crate is the safe door to it for Rust, and holds no
//! rule of its own. Clauses that are named here are those of `docs/SPECIFICATION.md`.
//! Where nobody knows which requestor should have which place, [`order()`] finds places for all of them. Where one waits for
//! another's grant, [`Arbiter::chain`] tells how long that takes at most.
//!
//! ```
//! use justrave::{Arbiter, SlotAnswer, Slots, Transfers};
//!
//! // D = 4 and two places: rate 1, burst 8, one transfer within 4 slots; rate 1, burst 4, one within 7
//! let table = [4, 2, 1, 8, 1, 4, 1, 4, 1, 7];
//! let mut line = Arbiter::start(&table, Slots(0))?;
//!
//! line.post(1, Transfers(1))?;
//! assert_eq!(line.slot()?, SlotAnswer::Granted(Slots(0), 1));
//! assert_eq!(line.slot()?, SlotAnswer::Idle(Slots(1)));
//! # Ok::<(), justrave::Refusal>(())
//! ```
//!
//! A call that is turned down changes nothing ([`Arbiter::restart`] alone then leaves no state) and says why with a number, with the
//! place where one place is at fault, and with what caused it, the call's own input or the state ([`Refusal`]; clause 1.5).
//!
//! # Linking
//!
//! The library is `libjustrave.a`, which `make library` proves and builds. The build script looks for it in the
//! repository's `target/staticlib`, or in the folder that the environment variable `JUSTRAVE_LIB_DIR` names.
//!
//! No heap is used and no standard library: an [`Arbiter`] is [`Arbiter::STATE_WORDS`] words of its owner's memory, which the library
//! works on in place. How many those are is for the owner to say: an `Arbiter<5>` has room for five places, an `Arbiter` for as many as
//! there may be, [`Table::PLACES`]. Words can be kept over a power cut, and over an update of the unit too: keep [`layout`]'s number with
//! them.

#![no_std]
#![warn(missing_docs)]

#[cfg(not(target_pointer_width = "64"))]
compile_error!("justrave is built for machines whose sizes have 64 bits");

mod arbiter;
mod kept;
mod order;
mod refusal;
pub mod sys;
mod table;
mod units;

pub use arbiter::{Account, Arbiter, Figures, SlotAnswer, Standing};
pub use kept::{layout, old_words, OLD_LAYOUT, OLD_PLACES};
pub use order::order;
pub use refusal::{Cause, Refusal};
pub use table::{Requestor, Table};
pub use units::{Slots, Transfers};
