//! Generated states, with room for as many places as the caller says: sound ones that no start made, and damaged words.

use super::chance::Chance;
use super::tables;
use super::words::used_words;
use crate::model::{Account, State, Table, MAX_BACKLOG, MAX_PLACES, MAX_SLOT, OLD_PLACES};

/// A slot number, often near its limit.
pub fn first_slot(chance: &mut Chance) -> u64 {
    match chance.within(0, 3) {
        0 => 0,
        1 => chance.within(0, MAX_SLOT),
        2 => {
            let most = chance.pick(&[3, 40, 40]);
            MAX_SLOT - chance.within(0, most)
        }
        _ => chance.within(0, 1 << 33),
    }
}

/// A slot number for a start, one in ten at its limit or beyond it.
pub fn any_first(chance: &mut Chance) -> u64 {
    match chance.within(0, 9) {
        0 => chance.pick(&[MAX_SLOT, MAX_SLOT + 1, 1 << 63, u64::MAX]),
        _ => first_slot(chance),
    }
}

/// A sound state of this table that most likely no calls lead to: credits are moved downward in the table.
pub fn invented_on<const ROOM: usize>(chance: &mut Chance, table: Table<ROOM>) -> State<ROOM> {
    let mut state = State { table, slot: first_slot(chance), accounts: [Account::default(); ROOM] };
    let mut room = 0;
    for place in 0..table.count as usize {
        room += table.requestors[place].burst;
        let most = chance.pick(&[0, room, room.min(2 * table.denominator)]);
        state.accounts[place].credit = chance.within(0, most);
        room -= state.accounts[place].credit;
        state.accounts[place].backlog = backlog(chance);
    }
    state
}

/// The same with any accepted table, of which a need may be out of reach, or with one of which a need is above its burst.
pub fn invented<const ROOM: usize>(chance: &mut Chance) -> State<ROOM> {
    let table = if chance.one_in(4) { tables::greedy(chance) } else { tables::accepted(chance) };
    let mut state = invented_on(chance, table);
    if chance.one_in(3) {
        let place = chance.index(table.count as usize);
        state.table.requestors[place].within = chance.within(1, table.requestors[place].within);
    }
    state
}

/// A state with one credit raised until the credits up to its place come to the bursts up to it, or to one more; any credit above
/// it may stand in its way, and those below it may then be too many.
pub fn brimful<const ROOM: usize>(chance: &mut Chance) -> State<ROOM> {
    let mut state: State<ROOM> = invented(chance);
    let place = chance.index(state.table.count as usize);
    let bursts = state.table.bursts_above(place + 1);
    let above: u64 = state.accounts[..place].iter().map(|account| account.credit).sum();
    state.accounts[place].credit = bursts - above + chance.within(0, 1);
    state
}

fn backlog(chance: &mut Chance) -> u64 {
    let most = chance.pick(&[0, 1, 3, 40, MAX_BACKLOG]);
    MAX_BACKLOG.min(chance.within(0, most) + chance.pick(&[0, 0, 0, MAX_BACKLOG - 2]))
}

/// Changes up to three words, each to a number beside the old one or at an edge of a field. Mostly they are such as are in use: in a large
/// room few others are, and a change to one of these is always 23.
pub fn damage(chance: &mut Chance, words: &mut [u64]) {
    for _ in 0..chance.pick(&[1, 1, 1, 2, 3]) {
        let among = if chance.one_in(3) { words.len() } else { used_words(words) };
        let at = chance.index(among);
        words[at] = edge(chance, words[at]);
    }
}

/// Numbers near a word and far from it, one whose low 32 bits are the same among them.
pub fn beside(word: u64) -> [u64; 9] {
    let same_low_bits = word.wrapping_add(1 << 32);
    [word.wrapping_add(1), word.wrapping_sub(1), same_low_bits, word | 1 << 63, 0, 1, MAX_SLOT, MAX_SLOT + 1, u64::MAX]
}

fn edge(chance: &mut Chance, word: u64) -> u64 {
    let beside = [word.wrapping_add(1), word.wrapping_sub(1), word.wrapping_add(1 << 32), word | 1 << 63];
    let limits = [OLD_PLACES, OLD_PLACES + 1, MAX_PLACES, MAX_PLACES + 1].map(|places| places as u64);
    let edges = [0, 1, 4, 5, 6, 255, 256, 65_535, 65_536, 16_777_216, 16_777_217, 1 << 30, (1 << 30) + 1];
    let large = [u64::from(u32::MAX), 1 << 32, MAX_SLOT - 1, MAX_SLOT, MAX_SLOT + 1, 1 << 63, u64::MAX];
    match chance.within(0, 19) {
        0..=9 => chance.pick(&beside),
        10..=13 => chance.pick(&edges),
        14 => chance.pick(&limits),
        _ => chance.pick(&large),
    }
}
