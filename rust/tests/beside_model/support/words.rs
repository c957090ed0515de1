//! The model's state as the library's words, with room for as many places as the model has: D, N and the slot number; then for each
//! place together rate, burst, need, within, credit and backlog. No other test knows where a field stands. The words of the old layout are
//! made by themselves, so that they stay what they are when the present ones change.

use crate::model::{Account, Requestor, State, Table};

const HEAD: usize = 3;
const PLACE: usize = 6;

pub fn words_of<const ROOM: usize>(state: &State<ROOM>) -> Vec<u64> {
    let head = [state.table.denominator, state.table.count, state.slot];
    let place = |(row, account): (&Requestor, &Account)| {
        [row.rate, row.burst, row.need, row.within, account.credit, account.backlog]
    };
    head.into_iter().chain(state.table.requestors.iter().zip(&state.accounts).flat_map(place)).collect()
}

/// How many of the words, from the first on, are those of the table's places and of what stands ahead of them. N may be damaged.
pub fn used_words(words: &[u64]) -> usize {
    let room = (words.len() - HEAD) / PLACE;
    HEAD + PLACE * words[1].min(room as u64) as usize
}

/// The same words in a larger room.
pub fn with_zeros_behind<const ROOM: usize>(words: &[u64]) -> Vec<u64> {
    let mut more = words.to_vec();
    more.resize(HEAD + PLACE * ROOM, 0);
    more
}

/// The words of the old layout: D, N, the slot number, and six words to each place.
pub fn old_words_of<const ROOM: usize>(state: &State<ROOM>) -> Vec<u64> {
    let mut words = vec![state.table.denominator, state.table.count, state.slot];
    for (row, account) in state.table.requestors.iter().zip(&state.accounts) {
        words.extend([row.rate, row.burst, row.need, row.within, account.credit, account.backlog]);
    }
    words
}

/// Of as many words as there are for the room.
pub fn state_of<const ROOM: usize>(words: &[u64]) -> State<ROOM> {
    assert_eq!(words.len(), HEAD + PLACE * ROOM);
    let place = |place: usize| &words[HEAD + PLACE * place..][..PLACE];
    let requestor = |at: usize| match *place(at) {
        [rate, burst, need, within, ..] => Requestor { rate, burst, need, within },
        _ => unreachable!("a place has {PLACE} words"),
    };
    let account = |at: usize| match *place(at) {
        [.., credit, backlog] => Account { credit, backlog },
        _ => unreachable!("a place has {PLACE} words"),
    };
    State {
        table: Table { denominator: words[0], count: words[1], requestors: std::array::from_fn(requestor) },
        slot: words[2],
        accounts: std::array::from_fn(account),
    }
}
