//! A table given as numbers (clauses 2.1 to 2.6).

use core::slice;

use crate::{Slots, Transfers};

/// The largest number of places.
pub(crate) const MAX_PLACES: usize = 64;

/// One requestor's row. A place past the last one has a row that is all 0, which [`Default`] gives.
#[derive(Clone, Copy, Debug, Default, PartialEq, Eq, Hash)]
pub struct Requestor {
    /// Its share of the slots: `rate` of them in every `denominator`. 1 to the denominator.
    pub rate: u32,
    /// What it may save up while it is quiet, in parts of a transfer. The denominator to 16,777,216.
    pub burst: u32,
    /// How many transfers, waiting together, are to be granted within the slots that `within` says. 1 to 255, and no more than the burst
    /// holds: so many times the denominator is at most the burst.
    pub need: Transfers,
    /// The slots within which the transfers of `need` are to be granted. 1 to 1,073,741,824.
    pub within: Slots,
}

/// A table: the requestors of a line, the most urgent first.
///
/// ```
/// use justrave::{Arbiter, Requestor, Slots, Table, Transfers};
///
/// let pump = Requestor { rate: 1, burst: 8, need: Transfers(1), within: Slots(4) };
/// let probe = Requestor { rate: 1, burst: 4, need: Transfers(1), within: Slots(7) };
/// let table = Table::of(4, &[pump, probe]);
/// let line = Arbiter::start_table(&table, Slots(0))?;
///
/// // its bytes, to be kept or sent
/// let mut buffer = [0; Arbiter::TABLE_ROOM];
/// let length = line.write_table(&mut buffer)?;
/// assert_eq!(buffer[..length], [4, 2, 1, 8, 1, 4, 1, 4, 1, 7]);
/// # Ok::<(), justrave::Refusal>(())
/// ```
///
/// It has room for `ROOM` places, [`Table::PLACES`] where nothing is said, and so has an [`Arbiter`](crate::Arbiter) that is started from
/// it. A unit whose places never change can have exactly as much room as it has places:
///
/// ```
/// use justrave::{Arbiter, Requestor, Slots, Table, Transfers};
///
/// const PUMP: Requestor = Requestor { rate: 1, burst: 8, need: Transfers(1), within: Slots(4) };
/// const PROBE: Requestor = Requestor { rate: 1, burst: 4, need: Transfers(1), within: Slots(7) };
/// const TABLE: Table<2> = Table { denominator: 4, count: 2, requestors: [PUMP, PROBE] };
///
/// let line: Arbiter<2> = Arbiter::start_table(&TABLE, Slots(0))?;
/// assert_eq!(line.words().len(), 15);
/// # Ok::<(), justrave::Refusal>(())
/// ```
#[derive(Clone, Copy, Debug, PartialEq, Eq, Hash)]
pub struct Table<const ROOM: usize = MAX_PLACES> {
    /// D: what a transfer costs in credit. 1 to 65,535.
    pub denominator: u32,
    /// N: how many of the requestors there are. 1 to the room that there is.
    pub count: u32,
    /// Place after place. Those past `count` must be all 0.
    pub requestors: [Requestor; ROOM],
}

/// A table's numbers in the order in which the library takes them (clause 15.1).
#[repr(C)]
pub(crate) struct Numbers<const ROOM: usize> {
    denominator: u32,
    count: u32,
    rows: [[u32; 4]; ROOM],
}

/// The largest room, and a table with it.
impl Table {
    /// The largest number of places.
    pub const PLACES: usize = MAX_PLACES;

    /// The table of these requestors, from place 0 on, with room for [`Table::PLACES`]. If they are more, the count still says how many
    /// they were, and no start takes it.
    pub fn of(denominator: u32, requestors: &[Requestor]) -> Table {
        Table::in_room(denominator, requestors)
    }
}

impl<const ROOM: usize> Table<ROOM> {
    /// How many numbers the library takes for a table: D, N and four to each place that there is room for.
    pub const NUMBERS: usize = {
        assert!(1 <= ROOM && ROOM <= MAX_PLACES, "a table has room for 1 to Table::PLACES places");
        size_of::<Numbers<ROOM>>() / size_of::<u32>()
    };

    /// [`Table::of`] with room for `ROOM` places.
    ///
    /// ```
    /// use justrave::{Arbiter, Requestor, Slots, Table, Transfers};
    ///
    /// let pump = Requestor { rate: 1, burst: 8, need: Transfers(1), within: Slots(4) };
    /// let table = Table::<3>::in_room(4, &[pump, pump]);
    /// assert_eq!((table.count, table.requestors[2]), (2, Requestor::default()));
    ///
    /// let crowd = Table::<3>::in_room(4, &[pump; 4]);
    /// assert_eq!(Arbiter::start_table(&crowd, Slots(0)).unwrap_err().number, 2);
    /// ```
    pub fn in_room(denominator: u32, requestors: &[Requestor]) -> Table<ROOM> {
        let mut table = Table { denominator, count: narrow(requestors.len() as u64), ..Table::default() };
        for (place, &requestor) in table.requestors.iter_mut().zip(requestors) {
            *place = requestor;
        }
        table
    }

    /// The numbers as the library takes them.
    pub(crate) fn numbers(&self) -> Numbers<ROOM> {
        let rows =
            self.requestors.each_ref().map(|row| [row.rate, row.burst, narrow(row.need.0), narrow(row.within.0)]);
        Numbers { denominator: self.denominator, count: self.count, rows }
    }
}

/// Every number is 0: no start takes it.
impl<const ROOM: usize> Default for Table<ROOM> {
    fn default() -> Table<ROOM> {
        Table { denominator: 0, count: 0, requestors: [Requestor::default(); ROOM] }
    }
}

impl<const ROOM: usize> Numbers<ROOM> {
    pub(crate) fn as_slice(&self) -> &[u32] {
        // SAFETY: a struct of `repr(C)` that holds u32 and arrays of them and nothing else is as many u32 in a row as its size says. All
        // of it is borrowed for as long as the slice is.
        unsafe { slice::from_raw_parts((self as *const Self).cast(), Table::<ROOM>::NUMBERS) }
    }
}

/// The number, or the largest of 32 bits in its place: no limit of a table is as large, so that both are refused alike.
fn narrow(number: u64) -> u32 {
    u32::try_from(number).unwrap_or(u32::MAX)
}
