//! The arbiter and its calls.

use core::{fmt, slice};

use crate::table::MAX_PLACES;
use crate::{sys, Refusal, Slots, Table, Transfers};

/// The byte that says: it follows nobody.
const NOBODY: u8 = 255;
/// A place that no state has room for.
const ABSENT: usize = 254;

/// An arbiter's state: its table, its credits and backlogs, and the number of the slot that comes next.
///
/// It owns its words, and they are plain data. Two arbiters are equal when all of this is equal, and a clone goes its own way.
///
/// ```
/// use justrave::{Arbiter, Slots, Transfers};
///
/// let mut one = Arbiter::start(&[4, 1, 1, 8, 1, 4], Slots(0))?;
/// let other = one.clone();
/// one.post(0, Transfers(2))?;
/// assert_ne!(one, other);
/// # Ok::<(), justrave::Refusal>(())
/// ```
///
/// # Room
///
/// An arbiter has room for `ROOM` places, [`Table::PLACES`] where nothing is said. A line with fewer places can do with less, and pays in
/// memory and in time for the places that there is room for. A table with more places than that is refused 2; but for this the room
/// changes no answer (clause 15.2).
///
/// ```
/// use justrave::{Arbiter, Slots};
///
/// let one_place = [4, 1, 1, 8, 1, 4];
/// let two_places = [4, 2, 1, 8, 1, 4, 1, 4, 1, 7];
/// assert!(Arbiter::<1>::start_in_room(&one_place, Slots(0)).is_ok());
/// assert_eq!(Arbiter::<1>::start_in_room(&two_places, Slots(0)).unwrap_err().number, 2);
/// assert_eq!((size_of::<Arbiter<1>>(), size_of::<Arbiter>()), (72, 3096));
/// ```
///
/// There is no arbiter without room for a place, and none with room for more than [`Table::PLACES`]:
///
/// ```compile_fail,E0080
/// let line = justrave::Arbiter::<0>::start_in_room(&[4, 1, 1, 8, 1, 4], justrave::Slots(0));
/// ```
///
/// ```compile_fail,E0080
/// let line = justrave::Arbiter::<65>::start_in_room(&[4, 1, 1, 8, 1, 4], justrave::Slots(0));
/// ```
#[derive(Clone, PartialEq, Eq)]
#[repr(C)]
pub struct Arbiter<const ROOM: usize = MAX_PLACES> {
    head: [u64; 3],
    places: [[u64; 6]; ROOM],
}

/// How an accepted slot ended (clause 5.6). Both ways tell the slot's stamp.
#[derive(Clone, Copy, Debug, PartialEq, Eq, Hash)]
pub enum SlotAnswer {
    /// The line is this place's for the slot.
    Granted(Slots, usize),
    /// Nobody may send.
    Idle(Slots),
}

/// What the table promises a place, in slots.
#[derive(Clone, Copy, Debug, PartialEq, Eq, Hash)]
pub struct Figures {
    /// The wait, rounded up to whole slots (clause 7.2): at most so many slots in a row go to the places above.
    pub wait: Slots,
    /// The finish figure: where at least as many transfers wait as were asked about, so many are granted within these slots. It is the
    /// wait before it is rounded plus the time of the transfers at the place's rate, and only the sum is rounded up (clauses 7.3 and 10.5).
    pub finish: Slots,
}

/// What a place has saved up, and what waits there (clause 11.3).
#[derive(Clone, Copy, Debug, PartialEq, Eq, Hash)]
pub struct Account {
    /// Its credit. A transfer costs the table's denominator.
    pub credit: u64,
    /// Its transfers waiting.
    pub backlog: Transfers,
}

/// Where a line stands (clause 11.3).
#[derive(Clone, Copy, Debug, PartialEq, Eq, Hash)]
pub struct Standing {
    /// The number of the slot that comes next.
    pub slot: Slots,
    /// How many places its table has.
    pub places: usize,
}

/// What does not depend on the room, and a start with the largest.
impl Arbiter {
    /// The longest log, and so the most slots of one [`run`](Arbiter::run).
    pub const MAX_LOG: usize = 65_536;
    /// The highest slot number. No slot is done at it.
    pub const MAX_SLOT: Slots = Slots(1 << 62);
    /// What a log holds for an idle slot.
    pub const LOG_IDLE: u8 = 255;
    /// Room for the bytes of any table: at most 5 for each of its numbers.
    pub const TABLE_ROOM: usize = 5 * Table::<MAX_PLACES>::NUMBERS;

    /// Reads a table's bytes and stands at slot number `first`: every credit is its burst, and nothing waits. The arbiter has room
    /// for [`Table::PLACES`]; [`start_in_room`](Arbiter::start_in_room) makes one with room for fewer.
    ///
    /// # Errors
    ///
    /// For the bytes, number by number, 8, 9 and 1 to 5, and 17 behind each place's last number; then 10, 6, 7; and then 12 for the slot
    /// number (clause 13.3).
    ///
    /// ```
    /// use justrave::{Arbiter, Slots};
    ///
    /// assert!(Arbiter::start(&[4, 1, 1, 8, 1, 4], Slots(0)).is_ok());
    /// assert_eq!(Arbiter::start(&[4, 1, 1], Slots(0)).unwrap_err().number, 8);
    /// ```
    pub fn start(table: &[u8], first: Slots) -> Result<Arbiter, Refusal> {
        Arbiter::start_in_room(table, first)
    }
}

impl<const ROOM: usize> Arbiter<ROOM> {
    /// How many words a state has: 3, and 6 for each place that there is room for.
    pub const STATE_WORDS: usize = {
        assert!(1 <= ROOM && ROOM <= MAX_PLACES, "an arbiter has room for 1 to Table::PLACES places");
        size_of::<Self>() / size_of::<u64>()
    };

    /// Words that are no state: every call on them but a start is refused 23.
    const CLEARED: Self = Arbiter { head: [0; 3], places: [[0; 6]; ROOM] };

    /// [`start`](Arbiter::start) with room for `ROOM` places.
    ///
    /// # Errors
    ///
    /// Those of [`start`](Arbiter::start), and 2 where the table has more places than there is room for.
    ///
    /// ```
    /// use justrave::{Arbiter, Refusal, Slots};
    ///
    /// /// A line of two places, and never more.
    /// fn line_of(table: &[u8]) -> Result<Arbiter<2>, Refusal> {
    ///     Arbiter::start_in_room(table, Slots(0))
    /// }
    /// assert!(line_of(&[4, 2, 1, 8, 1, 4, 1, 4, 1, 7]).is_ok());
    /// assert_eq!(line_of(&[4, 3]).unwrap_err().number, 2);
    /// ```
    pub fn start_in_room(table: &[u8], first: Slots) -> Result<Arbiter<ROOM>, Refusal> {
        let mut made = Self::CLEARED;
        made.restart(table, first)?;
        Ok(made)
    }

    /// Starts a table given as numbers, and stands at slot number `first` as a start from its bytes does. The arbiter has the room
    /// that the table has.
    ///
    /// # Errors
    ///
    /// For the table 1 and 2; for each place 3, 4, 5 and 17, before the next place is looked at; then 6 and 7, and for the slot number 12
    /// (clause 13.3).
    ///
    /// ```
    /// use justrave::{Arbiter, Requestor, Slots, Table, Transfers};
    ///
    /// let pump = Requestor { rate: 1, burst: 8, need: Transfers(1), within: Slots(4) };
    /// let bytes = [4, 1, 1, 8, 1, 4];
    /// assert_eq!(Arbiter::start_table(&Table::of(4, &[pump]), Slots(0)), Arbiter::start(&bytes, Slots(0)));
    ///
    /// let hasty = Requestor { within: Slots(3), ..pump };
    /// let refusal = Arbiter::start_table(&Table::of(4, &[pump, hasty]), Slots(0)).unwrap_err();
    /// assert_eq!((refusal.number, refusal.place), (7, Some(1)));
    ///
    /// // a burst of 8 holds two transfers
    /// let greedy = Requestor { need: Transfers(3), within: Slots(12), ..pump };
    /// let refusal = Arbiter::start_table(&Table::of(4, &[greedy]), Slots(0)).unwrap_err();
    /// assert_eq!((refusal.number, refusal.place), (17, Some(0)));
    /// ```
    pub fn start_table(table: &Table<ROOM>, first: Slots) -> Result<Arbiter<ROOM>, Refusal> {
        let mut made = Self::CLEARED;
        made.restart_table(table, first)?;
        Ok(made)
    }

    /// A start from a table's bytes in this arbiter's own memory: what it was is gone, and no state is copied.
    ///
    /// # Errors
    ///
    /// Those of [`start_in_room`](Arbiter::start_in_room). Unlike any other call that is refused, it does not leave the state as it was:
    /// every word is 0 (clause 1.6), and every call but a restart is refused 23. Start another arbiter where the old state may still be
    /// wanted.
    ///
    /// ```
    /// use justrave::{Arbiter, Slots, Transfers};
    ///
    /// let mut line = Arbiter::start(&[4, 1, 1, 8, 1, 4], Slots(0))?;
    /// line.post(0, Transfers(2))?;
    /// line.restart(&[4, 2, 1, 8, 1, 4, 1, 4, 1, 7], Slots(70))?;
    /// assert_eq!(line, Arbiter::start(&[4, 2, 1, 8, 1, 4, 1, 4, 1, 7], Slots(70))?);
    ///
    /// assert_eq!(line.restart(&[4, 1, 1], Slots(0)).unwrap_err().number, 8);
    /// assert_eq!(line.slot().unwrap_err().number, 23);
    /// # Ok::<(), justrave::Refusal>(())
    /// ```
    pub fn restart(&mut self, table: &[u8], first: Slots) -> Result<(), Refusal> {
        let words = self.words_mut();
        // SAFETY: both slices have their lengths behind them, and the words are borrowed exclusively.
        let outcome =
            unsafe { sys::justrave_start(table.as_ptr(), table.len(), first.0, words.as_mut_ptr(), words.len()) };
        Refusal::check(outcome)
    }

    /// A start from a table given as numbers in this arbiter's own memory.
    ///
    /// # Errors
    ///
    /// Those of [`start_table`](Arbiter::start_table); every word is then 0, as [`restart`](Arbiter::restart) says.
    ///
    /// ```
    /// use justrave::{Arbiter, Requestor, Slots, Table, Transfers};
    ///
    /// let pump = Requestor { rate: 1, burst: 8, need: Transfers(1), within: Slots(4) };
    /// let table = Table { denominator: 4, count: 1, requestors: [pump] };
    /// let mut line = Arbiter::start_table(&table, Slots(0))?;
    /// line.slot()?;
    /// line.restart_table(&table, Slots(0))?;
    /// assert_eq!(line.standing()?.slot, Slots(0));
    /// # Ok::<(), justrave::Refusal>(())
    /// ```
    pub fn restart_table(&mut self, table: &Table<ROOM>, first: Slots) -> Result<(), Refusal> {
        let numbers = table.numbers();
        let (numbers, words) = (numbers.as_slice(), self.words_mut());
        // SAFETY: both slices have their lengths behind them; the numbers are a local's, and the words are borrowed exclusively.
        let outcome = unsafe {
            sys::justrave_start_numbers(numbers.as_ptr(), numbers.len(), first.0, words.as_mut_ptr(), words.len())
        };
        Refusal::check(outcome)
    }

    /// Adds transfers (0 is allowed) to those that wait at a place (clause 5.1).
    ///
    /// # Errors
    ///
    /// 23, 11, and 21 where more than 65,535 would wait (clause 13.7).
    ///
    /// ```
    /// use justrave::{Arbiter, Cause, Slots, Transfers};
    ///
    /// let mut line = Arbiter::start(&[4, 1, 1, 8, 1, 4], Slots(0))?;
    /// line.post(0, Transfers(65_535))?;
    /// let refusal = line.post(0, Transfers(1)).unwrap_err();
    /// assert_eq!((refusal.number, refusal.cause), (21, Cause::State));
    /// # Ok::<(), justrave::Refusal>(())
    /// ```
    pub fn post(&mut self, place: usize, count: Transfers) -> Result<(), Refusal> {
        let words = self.words_mut();
        // SAFETY: the words have their length behind them, and are borrowed exclusively.
        let outcome = unsafe { sys::justrave_post(words.as_mut_ptr(), words.len(), place, count.0) };
        Refusal::check(outcome)
    }

    /// Does one slot, and tells whose it is (clauses 5.2 to 5.6).
    ///
    /// # Errors
    ///
    /// 23, and 22 at the last slot number (clause 13.8). A refused slot uses no stamp up.
    ///
    /// ```
    /// use justrave::{Arbiter, SlotAnswer, Slots, Transfers};
    ///
    /// let mut line = Arbiter::start(&[4, 1, 1, 8, 1, 4], Slots(70))?;
    /// line.post(0, Transfers(1))?;
    /// assert_eq!(line.slot()?, SlotAnswer::Granted(Slots(70), 0));
    /// assert_eq!(line.slot()?, SlotAnswer::Idle(Slots(71)));
    /// # Ok::<(), justrave::Refusal>(())
    /// ```
    pub fn slot(&mut self) -> Result<SlotAnswer, Refusal> {
        let (words, mut answer) = (self.words_mut(), [0; 2]);
        // SAFETY: both have their lengths behind them; the words are borrowed exclusively, and the answer is a local.
        let outcome = unsafe { sys::justrave_slot(words.as_mut_ptr(), words.len(), answer.as_mut_ptr(), answer.len()) };
        Refusal::check(outcome)?;
        let [stamp, granted] = answer;
        Ok(match granted.checked_sub(1) {
            Some(place) => SlotAnswer::Granted(Slots(stamp), place as usize),
            None => SlotAnswer::Idle(Slots(stamp)),
        })
    }

    /// Does as many slots as the log has bytes, and writes for each the place that was granted, or [`Arbiter::LOG_IDLE`] (clause 6.1).
    ///
    /// # Errors
    ///
    /// 23, 13, and 22 where the slot number would pass its limit (clause 13.9). The log is then what it was.
    ///
    /// ```
    /// use justrave::{Arbiter, Slots, Transfers};
    ///
    /// let mut line = Arbiter::start(&[4, 2, 1, 8, 1, 4, 1, 4, 1, 7], Slots(0))?;
    /// line.post(0, Transfers(3))?;
    /// line.post(1, Transfers(3))?;
    /// let mut log = [0; 9];
    /// line.run(&mut log)?;
    /// assert_eq!(log, [0, 0, 1, 0, 1, 255, 255, 1, 255]);
    /// # Ok::<(), justrave::Refusal>(())
    /// ```
    pub fn run(&mut self, log: &mut [u8]) -> Result<(), Refusal> {
        let words = self.words_mut();
        // SAFETY: both slices have their lengths behind them, and two exclusive borrows do not overlap.
        let outcome = unsafe { sys::justrave_run(words.as_mut_ptr(), words.len(), log.as_mut_ptr(), log.len()) };
        Refusal::check(outcome)
    }

    /// How many slots in a row can go to the places above at most, and within how many slots `transfers` are granted to the place
    /// once at least so many wait there (clause 7.4). They may be more than its burst holds.
    ///
    /// # Errors
    ///
    /// 23, 11, and 5 where `transfers` is not 1 to 255 (clause 13.11).
    ///
    /// ```
    /// use justrave::{Arbiter, Figures, Slots, Transfers};
    ///
    /// let line = Arbiter::start(&[4, 2, 1, 8, 1, 4, 1, 4, 1, 7], Slots(0))?;
    /// assert_eq!(line.figures(1, Transfers(1))?, Figures { wait: Slots(3), finish: Slots(7) });
    /// # Ok::<(), justrave::Refusal>(())
    /// ```
    pub fn figures(&self, place: usize, transfers: Transfers) -> Result<Figures, Refusal> {
        let (words, mut answer) = (self.words(), [0; 2]);
        // SAFETY: both have their lengths behind them; the words are only read, and the answer is a local beside them.
        let outcome = unsafe {
            sys::justrave_figures(words.as_ptr(), words.len(), place, transfers.0, answer.as_mut_ptr(), answer.len())
        };
        Refusal::check(outcome)?;
        let [wait, finish] = answer.map(Slots);
        Ok(Figures { wait, finish })
    }

    /// How long it takes at most until a place is granted that waits for another one's grant, which may wait for a third, and so on.
    /// `follows` says which place each place follows, if any; what it says past the table's last place makes no difference.
    ///
    /// The chain of a place is this place, the one that it follows, and so on to one that follows nobody. Let one transfer be posted to
    /// that first link, and to each next link one between the grant to the link that it follows and the slot after it, each where nothing
    /// waits yet. Then the place is granted within the chain figure, counted in slots from the first post on, whatever else is posted.
    /// The figure is each link's finish figure for one transfer, all added up (clauses 9.2 and 9.4).
    ///
    /// # Errors
    ///
    /// 23; 11 where the place is not there, or any that is followed; 16 where places follow one another in a circle, with the lowest
    /// place that is on one (clauses 9.3 and 13.12). A place that follows itself is on a circle too. Both look at all places of the table,
    /// not at the chain alone.
    ///
    /// ```
    /// use justrave::{Arbiter, Slots};
    ///
    /// let line = Arbiter::<2>::start_in_room(&[4, 2, 1, 8, 1, 4, 1, 4, 1, 7], Slots(0))?;
    /// assert_eq!(line.chain(0, &[None, None])?, Slots(4));
    /// assert_eq!(line.chain(1, &[None, Some(0)])?, Slots(4 + 7));
    ///
    /// let refusal = line.chain(1, &[Some(1), Some(0)]).unwrap_err();
    /// assert_eq!((refusal.number, refusal.place), (16, Some(0)));
    /// # Ok::<(), justrave::Refusal>(())
    /// ```
    ///
    /// There is one entry for each place that there is room for, and no call with more or fewer:
    ///
    /// ```compile_fail,E0308
    /// # let line = justrave::Arbiter::<2>::start_in_room(&[4, 1, 1, 8, 1, 4], justrave::Slots(0)).unwrap();
    /// let figure = line.chain(0, &[None]);
    /// ```
    pub fn chain(&self, place: usize, follows: &[Option<usize>; ROOM]) -> Result<Slots, Refusal> {
        let (words, names, mut answer) = (self.words(), follows.map(name_of), [0; 1]);
        // SAFETY: all three have their lengths behind them; the words are only read, and names and answer are locals beside them.
        let outcome = unsafe {
            sys::justrave_chain(
                words.as_ptr(),
                words.len(),
                place,
                names.as_ptr(),
                names.len(),
                answer.as_mut_ptr(),
                answer.len(),
            )
        };
        Refusal::check(outcome).map(|()| Slots(answer[0]))
    }

    /// How far a place is ahead of its rate over a log (clause 6.3): D times its grants, less its rate times the log's length. Below 0 it
    /// has fallen behind. The log need not be this arbiter's; bytes that are no place of the table count for nobody.
    ///
    /// # Errors
    ///
    /// 23, 11, 13 (clause 13.10).
    ///
    /// ```
    /// use justrave::{Arbiter, Slots};
    ///
    /// let line = Arbiter::start(&[4, 2, 1, 8, 1, 4, 1, 4, 1, 7], Slots(0))?;
    /// assert_eq!(line.lead(1, &[0, 0, 1, 0, 1, 255, 255, 1, 255])?, 3);
    /// assert_eq!(line.lead(1, &[0, 0])?, -2);
    /// # Ok::<(), justrave::Refusal>(())
    /// ```
    pub fn lead(&self, place: usize, log: &[u8]) -> Result<i64, Refusal> {
        let (words, mut answer) = (self.words(), [0; 1]);
        // SAFETY: all three have their lengths behind them; words and log are only read, and the answer is a local beside them.
        let outcome = unsafe {
            sys::justrave_lead(
                words.as_ptr(),
                words.len(),
                place,
                log.as_ptr(),
                log.len(),
                answer.as_mut_ptr(),
                answer.len(),
            )
        };
        Refusal::check(outcome).map(|()| answer[0])
    }

    /// Writes the table's bytes to the buffer's start and tells how many they are; the rest of the buffer is left alone (clause 3.5).
    /// [`Arbiter::TABLE_ROOM`] bytes are always enough.
    ///
    /// # Errors
    ///
    /// 23; 17 and 7, only where no start of today takes the table, as in a state that was started before 17 was tested; and 14 where the
    /// buffer is too short (clause 13.4).
    ///
    /// ```
    /// use justrave::{Arbiter, Slots};
    ///
    /// let table = [4, 2, 1, 8, 1, 4, 1, 4, 1, 7];
    /// let line = Arbiter::start(&table, Slots(0))?;
    /// let mut buffer = [0; Arbiter::TABLE_ROOM];
    /// let length = line.write_table(&mut buffer)?;
    /// assert_eq!(buffer[..length], table);
    /// # Ok::<(), justrave::Refusal>(())
    /// ```
    pub fn write_table(&self, buffer: &mut [u8]) -> Result<usize, Refusal> {
        let (words, mut answer) = (self.words(), [0; 1]);
        // SAFETY: all three have their lengths behind them; the words are only read, the buffer is borrowed exclusively, and the answer
        // is a local.
        let outcome = unsafe {
            sys::justrave_write(
                words.as_ptr(),
                words.len(),
                buffer.as_mut_ptr(),
                buffer.len(),
                answer.as_mut_ptr(),
                answer.len(),
            )
        };
        Refusal::check(outcome).map(|()| answer[0] as usize)
    }

    /// The credit of a place, and how many transfers wait there (clause 11.3).
    ///
    /// # Errors
    ///
    /// 23, 11 (clause 13.13).
    ///
    /// ```
    /// use justrave::{Account, Arbiter, Slots, Transfers};
    ///
    /// let mut line = Arbiter::start(&[4, 1, 1, 8, 1, 4], Slots(0))?;
    /// line.post(0, Transfers(3))?;
    /// line.slot()?;
    /// assert_eq!(line.account(0)?, Account { credit: 5, backlog: Transfers(2) });
    /// assert_eq!(line.account(1).unwrap_err().number, 11);
    /// # Ok::<(), justrave::Refusal>(())
    /// ```
    pub fn account(&self, place: usize) -> Result<Account, Refusal> {
        let (words, mut answer) = (self.words(), [0; 2]);
        // SAFETY: both have their lengths behind them; the words are only read, and the answer is a local beside them.
        let outcome =
            unsafe { sys::justrave_account(words.as_ptr(), words.len(), place, answer.as_mut_ptr(), answer.len()) };
        Refusal::check(outcome)?;
        let [credit, backlog] = answer;
        Ok(Account { credit, backlog: Transfers(backlog) })
    }

    /// The number of the slot that comes next, and how many places there are (clause 11.3).
    ///
    /// # Errors
    ///
    /// 23 (clause 13.13).
    ///
    /// ```
    /// use justrave::{Arbiter, Slots, Standing};
    ///
    /// let mut line = Arbiter::start(&[4, 1, 1, 8, 1, 4], Slots(70))?;
    /// line.slot()?;
    /// assert_eq!(line.standing()?, Standing { slot: Slots(71), places: 1 });
    /// # Ok::<(), justrave::Refusal>(())
    /// ```
    pub fn standing(&self) -> Result<Standing, Refusal> {
        let (words, mut answer) = (self.words(), [0; 2]);
        // SAFETY: both have their lengths behind them; the words are only read, and the answer is a local beside them.
        let outcome = unsafe { sys::justrave_standing(words.as_ptr(), words.len(), answer.as_mut_ptr(), answer.len()) };
        Refusal::check(outcome)?;
        let [slot, places] = answer;
        Ok(Standing { slot: Slots(slot), places: places as usize })
    }

    /// The words, [`STATE_WORDS`](Arbiter::STATE_WORDS) of them, to be kept somewhere, over a power cut for example. What each means is
    /// the library's own matter; keep [`layout`](crate::layout)'s number beside them, for the day on which the unit is updated
    /// (clause 15.6).
    pub fn words(&self) -> &[u64] {
        // SAFETY: a struct of `repr(C)` that holds arrays of u64 and nothing else is as many u64 in a row as its size says. All of it
        // is borrowed for as long as the slice is.
        unsafe { slice::from_raw_parts((self as *const Self).cast(), Self::STATE_WORDS) }
    }

    /// The same, for a call to write.
    fn words_mut(&mut self) -> &mut [u64] {
        // SAFETY: as in `words`; and any u64 may stand in any of them.
        unsafe { slice::from_raw_parts_mut((self as *mut Self).cast(), Self::STATE_WORDS) }
    }

    /// An arbiter from words that were kept; none where they are not as many as an arbiter with this room has. A whole state's words of
    /// a smaller room become as many by zeros behind them, and answer as they did. Nothing else is tested here: each call tests its state,
    /// and one that breaks a rule is refused 23; [`standing`](Arbiter::standing) tells that at once. The words are for the layout in which
    /// they were written: if [`layout`](crate::layout) is another now, they may be ones that [`carry_over`](Arbiter::carry_over) takes,
    /// which has an example of both, and if not start anew.
    ///
    /// ```
    /// use justrave::{Arbiter, Slots, Transfers};
    ///
    /// let mut line = Arbiter::start(&[4, 1, 1, 8, 1, 4], Slots(0))?;
    /// let (layout, kept) = (justrave::layout(), line.words().to_vec());
    /// line.post(0, Transfers(1))?;
    ///
    /// assert_eq!(layout, justrave::layout());
    /// let mut again: Arbiter = Arbiter::from_words(&kept).expect("as many words as there is room for");
    /// assert_eq!(again.slot()?, justrave::SlotAnswer::Idle(Slots(0)));
    ///
    /// let damaged = Arbiter::<1>::from_words(&[u64::MAX; 9]).expect("as many words as there is room for");
    /// assert_eq!(damaged.standing().unwrap_err().number, 23);
    /// assert_eq!(Arbiter::<2>::from_words(&[u64::MAX; 9]), None);
    /// # Ok::<(), justrave::Refusal>(())
    /// ```
    pub fn from_words(words: &[u64]) -> Option<Arbiter<ROOM>> {
        if words.len() != Self::STATE_WORDS {
            return None;
        }
        let mut made = Self::CLEARED;
        made.words_mut().copy_from_slice(words);
        Some(made)
    }

    /// An arbiter from words that were kept with the number [`OLD_LAYOUT`](crate::OLD_LAYOUT), by a unit that took at most
    /// [`OLD_PLACES`](crate::OLD_PLACES): with the same table, slot number, credits and backlogs, and nothing past its last place
    /// (clauses 11.4 and 11.5). Every call on it but [`write_table`](Arbiter::write_table) then answers as it would have answered before;
    /// only who follows whom, and a table to restart with, are given for this room. So does `write_table`, unless the table has a need
    /// above its burst, which a start took at that time: this is carried over, and refused by `write_table` alone. Keep
    /// [`layout`](crate::layout)'s number beside its words from then on.
    ///
    /// # Errors
    ///
    /// 255 where the words are not [`old_words`](crate::old_words) of a number of places that there was room for, or of more than there
    /// is room for here (clause 15.3). Then 23 where they break a rule; N above the places that they have room for breaks one.
    ///
    /// ```
    /// use justrave::{Arbiter, Refusal, Slots, Standing, Transfers};
    ///
    /// /// The line whose words were kept; none where they are of any other layout, damaged, or not for this room.
    /// fn kept_line(layout: u64, kept: &[u64]) -> Option<Arbiter<40>> {
    ///     if layout == justrave::OLD_LAYOUT {
    ///         return Arbiter::carry_over(kept).ok();
    ///     }
    ///     Arbiter::from_words(kept).filter(|line| layout == justrave::layout() && line.standing().is_ok())
    /// }
    ///
    /// /// A unit that was updated: it goes on where it stood, or starts anew.
    /// fn woken(layout: u64, kept: &[u64]) -> Result<Arbiter<40>, Refusal> {
    ///     kept_line(layout, kept).map_or_else(|| Arbiter::start_in_room(&[4, 1, 1, 8, 1, 4], Slots(0)), Ok)
    /// }
    ///
    /// // D = 4, one place, and slot 70 comes next; rate, burst, need and its slots; credit 5, and two transfers wait
    /// let old = [4, 1, 70, 1, 8, 1, 4, 5, 2];
    /// assert_eq!(old.len(), justrave::old_words(1));
    /// let line = woken(justrave::OLD_LAYOUT, &old)?;
    /// assert_eq!(line.standing()?, Standing { slot: Slots(70), places: 1 });
    /// assert_eq!(line.account(0)?.backlog, Transfers(2));
    /// assert_eq!(woken(justrave::layout(), line.words())?, line);
    ///
    /// let anew = |layout, kept: &[u64]| woken(layout, kept).map(|line| line.standing().unwrap().slot) == Ok(Slots(0));
    /// assert!(anew(justrave::layout(), &[u64::MAX; 9]) && anew(justrave::layout(), &[0; 387]) && anew(1, &old));
    ///
    /// let number = |words: &[u64]| Arbiter::<40>::carry_over(words).unwrap_err().number;
    /// assert_eq!(number(&[4, 1, 70, 1, 8, 1, 4, 9, 2]), 23); // credit above the burst
    /// assert_eq!(number(&[4, 2, 70, 1, 8, 1, 4, 5, 2]), 23); // N above the room
    /// assert_eq!(number(&old[..8]), 255);
    /// # Ok::<(), justrave::Refusal>(())
    /// ```
    pub fn carry_over(old: &[u64]) -> Result<Arbiter<ROOM>, Refusal> {
        let mut made = Self::CLEARED;
        let words = made.words_mut();
        // SAFETY: both slices have their lengths behind them; the old words are only read, and the others are a local's.
        let outcome = unsafe { sys::justrave_carry(old.as_ptr(), old.len(), words.as_mut_ptr(), words.len()) };
        Refusal::check(outcome).map(|()| made)
    }
}

/// Who is followed, as the library takes it. Every place from [`ABSENT`] on is absent alike: it is refused 11, and place 255, which would
/// have nobody's byte, is never taken for nobody.
fn name_of(followed: Option<usize>) -> u8 {
    followed.map_or(NOBODY, |place| place.min(ABSENT) as u8)
}

/// The words mean nothing to a reader.
impl<const ROOM: usize> fmt::Debug for Arbiter<ROOM> {
    fn fmt(&self, to: &mut fmt::Formatter<'_>) -> fmt::Result {
        to.debug_struct("Arbiter").finish_non_exhaustive()
    }
}
