//! Places for requestors whose priorities nobody knows (clauses 8.1 to 8.3).

use crate::{sys, Refusal};

/// Finds places with which a start takes these requestors. `table` is a table's bytes, and may list up to
/// [`Table::PLACES`](crate::Table::PLACES) of them in any order. The bytes of the table that was found are written to the buffer's start,
/// and the rest of the buffer is left alone. What is told is how many they are: as many as were read.
///
/// ```
/// use justrave::{Arbiter, Slots};
///
/// // D = 4; a probe with rate 1 and burst 4 that needs one transfer within 7 slots, and a pump with rate 1, burst 8 and one within 4
/// let listed = [4, 2, 1, 4, 1, 7, 1, 8, 1, 4];
/// assert_eq!(Arbiter::start(&listed, Slots(0)).unwrap_err().number, 7);
///
/// // below the probe the pump would take 6 slots; the probe can wait for the pump
/// let mut buffer = [0; Arbiter::TABLE_ROOM];
/// let length = justrave::order(&listed, &mut buffer)?;
/// assert_eq!(buffer[..length], [4, 2, 1, 8, 1, 4, 1, 4, 1, 7]);
/// assert!(Arbiter::start(&buffer[..length], Slots(0)).is_ok());
/// # Ok::<(), justrave::Refusal>(())
/// ```
///
/// Where several orders would do, the list decides. The lowest priority goes to the last requestor in it that can bear all others above
/// it: its finish figure is then within its need's slots. It leaves the list, in which the others stay as they stood, and the next higher
/// priority is given away in the same way. A table that a start takes comes back as it is.
///
/// # Errors
///
/// For the bytes, number by number, 8, 9 and 1 to 5, and 17 behind each place's last number, where a place is one of the list; then 10 and
/// 6; 15 where no order passes; and 14 where the buffer is too short (clause 13.6). It is never 7.
///
/// ```
/// use justrave::{Cause, Refusal};
///
/// // the probe now needs its transfer within 6 slots: below the pump it would take 7, and above it the pump would take 6
/// let hasty = [4, 2, 1, 4, 1, 6, 1, 8, 1, 4];
/// let refusal = justrave::order(&hasty, &mut [0; 10]).unwrap_err();
/// assert_eq!(refusal, Refusal { number: 15, place: None, cause: Cause::Input });
/// assert_eq!(refusal.to_string(), "refused 15, by the input: no order of the requestors passes");
/// ```
pub fn order(table: &[u8], buffer: &mut [u8]) -> Result<usize, Refusal> {
    let mut answer = [0; 1];
    // SAFETY: all three have their lengths behind them; the table is only read, the buffer is borrowed exclusively, and the answer is
    // a local.
    let outcome = unsafe {
        sys::justrave_order(
            table.as_ptr(),
            table.len(),
            buffer.as_mut_ptr(),
            buffer.len(),
            answer.as_mut_ptr(),
            answer.len(),
        )
    };
    Refusal::check(outcome).map(|()| answer[0] as usize)
}
