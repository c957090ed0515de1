//! What a unit of the old limit kept, carried over (clause 11.4).

use super::{pass, Account, Fault, Requestor, State, Table};

/// The largest N of then.
pub const OLD_PLACES: usize = 16;

/// The words of then: D, N and the slot number, and behind them six for each place that there was room for.
const OLD_HEAD: usize = 3;
const OLD_PLACE: usize = 6;

impl<const PLACES: usize> State<PLACES> {
    /// The state whose old words these are, in this room. The limit of its N is the room that it had. 255, 23.
    pub fn carry(old: &[u64]) -> Result<State<PLACES>, Fault> {
        let room = (1..=OLD_PLACES.min(PLACES)).find(|room| OLD_HEAD + OLD_PLACE * room == old.len());
        let room = room.ok_or(Fault { number: 255, place: None })?;
        let state = State::of_old_words(old);
        pass(state.table.count <= room as u64, 23)?;
        state.check()?;
        Ok(state)
    }

    /// The places that there is room for beyond those of the words are empty.
    fn of_old_words(old: &[u64]) -> State<PLACES> {
        let table = Table { denominator: old[0], count: old[1], ..Table::default() };
        let mut state = State { table, slot: old[2], accounts: [Account::default(); PLACES] };
        for (place, words) in old[OLD_HEAD..].chunks_exact(OLD_PLACE).enumerate() {
            let words: [u64; OLD_PLACE] = words.try_into().expect("the words of a place");
            let [rate, burst, need, within, credit, backlog] = words;
            state.table.requestors[place] = Requestor { rate, burst, need, within };
            state.accounts[place] = Account { credit, backlog };
        }
        state
    }
}
