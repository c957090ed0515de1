//! Generated tables, their bytes and their numbers: accepted ones, ones with numbers that are out of their limits, and damaged bytes. Each
//! has room for as many places as the caller says.

use justrave::{Slots, Transfers};

use super::chance::Chance;
use crate::model::{Requestor, Table, MAX_PLACES};

/// A table that is accepted.
pub fn accepted<const ROOM: usize>(chance: &mut Chance) -> Table<ROOM> {
    let mut table = Table { count: count(chance, ROOM), ..Table::default() };
    table.denominator = denominator(chance, table.count);
    let rates = rates(chance, table.denominator, table.count);
    for (row, rate) in table.requestors.iter_mut().zip(rates) {
        let (burst, need) = burst_and_need(chance, table.denominator);
        *row = Requestor { rate, burst, need, within: 1 };
    }
    for place in 0..table.count as usize {
        table.requestors[place].within = within(chance, table.finish(place, table.requestors[place].need));
    }
    table
}

/// A small table whose needs are as tight as they may be: its bounds bite within a hundred slots.
pub fn tight(chance: &mut Chance) -> Table {
    tight_up_to(chance, 5)
}

/// The same with up to so many places.
pub fn tight_up_to(chance: &mut Chance, most: u64) -> Table {
    let count = chance.within(1, most);
    tight_of(chance, count)
}

/// The same with exactly so many.
pub fn tight_of(chance: &mut Chance, count: u64) -> Table {
    let most = 24.max(2 * count);
    let mut table = Table { denominator: chance.within(count, most), count, ..Table::default() };
    let rates = rates(chance, table.denominator, count);
    for (row, rate) in table.requestors.iter_mut().zip(rates) {
        let need = chance.within(1, 3);
        let burst = chance.within(need * table.denominator, 3 * table.denominator);
        *row = Requestor { rate, burst, need, within: 1 };
    }
    for place in 0..count as usize {
        table.requestors[place].within = table.finish(place, table.requestors[place].need);
    }
    table
}

/// A list near the edge, of up to so many requestors in any order: those of a tight table, with a few slots more for each or one less
/// for one, so that no order passes, or one, or several. Two may be equal.
pub fn listed(chance: &mut Chance, most: u64) -> Table {
    let mut table = tight_up_to(chance, most);
    let more = chance.pick(&[0, 0, 1, 3, 30]);
    for row in &mut table.requestors[..table.count as usize] {
        row.within += chance.within(0, more);
    }
    let (one, other) = (chance.index(table.count as usize), chance.index(table.count as usize));
    if chance.one_in(4) {
        let rate = table.requestors[one].rate.min(table.requestors[other].rate);
        table.requestors[one].rate = rate;
        table.requestors[other] = table.requestors[one];
    }
    if chance.one_in(3) {
        let within = &mut table.requestors[one].within;
        *within = 1.max(*within - 1);
    }
    shuffled(chance, table)
}

/// The same requestors in any order.
pub fn shuffled(chance: &mut Chance, mut table: Table) -> Table {
    chance.shuffle(&mut table.requestors[..table.count as usize]);
    table
}

/// Bytes of lists of every kind: near the edge, accepted in some order, with numbers out of their limits, with too much of a rate,
/// with a need above its burst, and damaged; and those of `bytes`.
pub fn list_bytes(chance: &mut Chance) -> Vec<u8> {
    let most = chance.pick(&[2, 3, 6, MAX_PLACES as u64]);
    let list = match chance.within(0, 6) {
        0..=2 => listed(chance, most),
        3 => accepted(chance),
        4 => crowded(chance),
        5 => greedy(chance),
        _ => doubtful(chance),
    };
    let list = shuffled(chance, list);
    match chance.within(0, 5) {
        0 => damaged_bytes(chance, list.bytes()),
        1 => bytes(chance),
        _ => list.bytes(),
    }
}

/// Mostly a few; else any number that there is room for, and often that of the room itself.
fn count(chance: &mut Chance, room: usize) -> u64 {
    let most = match chance.within(0, 11) {
        0 => return room as u64,
        1 => room,
        _ => chance.pick(&[1, 2, 3, 4, 5, 8]).min(room),
    };
    chance.within(1, most as u64)
}

/// At least one for each place.
fn denominator(chance: &mut Chance, count: u64) -> u64 {
    let most = chance.pick(&[count, count + 3, 4 * count, 100, 1000, 65_535]);
    chance.within(count, most)
}

/// Each gets 1, and what is left of D is shared out by chance, all of it or a part.
fn rates(chance: &mut Chance, denominator: u64, count: u64) -> Vec<u64> {
    let mut rates = vec![1; count as usize];
    let mut left = denominator - count;
    if chance.one_in(3) {
        left = chance.within(0, left);
    }
    while left > 0 {
        let part = chance.within(1, left);
        rates[chance.index(count as usize)] += part;
        left -= part;
    }
    rates
}

fn burst(chance: &mut Chance, denominator: u64) -> u64 {
    let most = chance.pick(&[denominator, denominator + 3, 3 * denominator, 10 * denominator, 16_777_216]);
    chance.within(denominator, most)
}

/// A burst and a need's transfers that it holds, often just so many.
fn burst_and_need(chance: &mut Chance, denominator: u64) -> (u64, u64) {
    let burst = burst(chance, denominator);
    let most = chance.pick(&[1, 2, 5, 255, 255]).min(burst / denominator);
    let need = chance.within(1, most);
    (if chance.one_in(3) { need * denominator } else { burst }, need)
}

/// Slots for a need whose finish figure is given: often exactly so many.
fn within(chance: &mut Chance, finish: u64) -> u64 {
    let most = chance.pick(&[finish, finish, finish + 3, 1_073_741_824]);
    chance.within(finish, most)
}

/// A table with up to three numbers that are likely out of their limits. N keeps to the rows that are there.
pub fn doubtful<const ROOM: usize>(chance: &mut Chance) -> Table<ROOM> {
    let mut table = accepted(chance);
    for _ in 0..chance.within(1, 3) {
        change_number(chance, &mut table);
    }
    table
}

fn change_number<const ROOM: usize>(chance: &mut Chance, table: &mut Table<ROOM>) {
    let place = chance.index(table.count as usize);
    let most = 4_294_967_295;
    let d = table.denominator;
    let row = &mut table.requestors[place];
    match chance.within(0, 5) {
        0 => table.denominator = chance.pick(&[0, 1, d.saturating_sub(1), 65_535, 65_536, most]),
        1 | 2 => row.rate = chance.pick(&[0, 1, row.rate + 1, d, d + 1, most]),
        3 => row.burst = chance.pick(&[0, d.saturating_sub(1), d, 1.max(row.burst) - 1, 16_777_216, 16_777_217, most]),
        4 => row.need = chance.pick(&[0, row.need + 1, 255, 256, most]),
        _ => row.within = chance.pick(&[0, 1, row.within.saturating_sub(1), 1_073_741_824, 1_073_741_825, most]),
    }
}

/// A table's bytes with some damage.
pub fn damaged_bytes(chance: &mut Chance, mut bytes: Vec<u8>) -> Vec<u8> {
    let at = chance.index(bytes.len());
    match chance.within(0, 7) {
        0 => bytes.truncate(at),
        1 => bytes[at] ^= 1 << chance.index(8),
        2 => bytes[at] = chance.next() as u8,
        3 => bytes.insert(at, chance.next() as u8),
        4 => bytes.push(chance.next() as u8),
        5 => drop(bytes.remove(at)),
        6 => drop(bytes.splice(at..at, [0x80; 4])),
        _ => drop(bytes.splice(at..=at, long_form(chance))),
    }
    bytes
}

/// A number whose bytes are at an edge: long forms, five bytes, the largest number and those above.
fn long_form(chance: &mut Chance) -> Vec<u8> {
    let forms: [&[u8]; 7] = [
        &[0x84, 0x00],
        &[0x80, 0x80, 0x00],
        &[0xFF, 0xFF, 0xFF, 0xFF, 0x0F],
        &[0xFF, 0xFF, 0xFF, 0xFF, 0x10],
        &[0x80, 0x80, 0x80, 0x80, 0x80],
        &[0x81, 0x80, 0x80, 0x80, 0x80, 0x01],
        &[0x84, 0x80, 0x80, 0x80, 0x00],
    ];
    chance.pick(&forms).to_vec()
}

/// A table's bytes with any one of them changed to any other, with any one behind them, and cut off anywhere.
pub fn neighbours(table: &[u8]) -> Vec<Vec<u8>> {
    let mut all: Vec<Vec<u8>> = (0..=table.len()).map(|length| table[..length].to_vec()).collect();
    for byte in 0..=255 {
        all.push([table, &[byte]].concat());
        for at in 0..table.len() {
            let mut other = table.to_vec();
            other[at] = byte;
            all.push(other);
        }
    }
    all
}

/// Bytes of every kind: accepted, with numbers out of their limits, with a need above its burst, with another N, damaged, and without any
/// plan. N is often above a smaller room.
pub fn bytes(chance: &mut Chance) -> Vec<u8> {
    let table: Table = match chance.within(0, 5) {
        0..=2 => accepted(chance),
        3 => crowded(chance),
        4 => greedy(chance),
        _ => doubtful(chance),
    };
    match chance.within(0, 5) {
        0..=2 => table.bytes(),
        3 => other_count(chance, table),
        4 => damaged_bytes(chance, table.bytes()),
        _ => {
            let length = chance.index(80);
            chance.bytes(length)
        }
    }
}

/// A table with one rate that takes the sum just past D, if it has two places or more; the needs are not what is wrong with it.
fn crowded<const ROOM: usize>(chance: &mut Chance) -> Table<ROOM> {
    let mut table = accepted(chance);
    let spare = table.denominator - table.used().iter().map(|row| row.rate).sum::<u64>();
    let place = chance.index(table.count as usize);
    let row = &mut table.requestors[place];
    row.rate = table.denominator.min(row.rate + spare + 1);
    row.within = 1 << 30;
    table
}

/// A table with one need or two that their bursts do not hold, often by no more than one part of a transfer. All numbers are within their
/// limits, and the rates too; a finish figure may be above its slots.
pub fn greedy<const ROOM: usize>(chance: &mut Chance) -> Table<ROOM> {
    let mut table = accepted(chance);
    let denominator = table.denominator;
    for _ in 0..chance.pick(&[1, 1, 2]) {
        let place = chance.index(table.count as usize);
        let row = &mut table.requestors[place];
        let most = chance.pick(&[2, 3, 255]);
        row.need = chance.within(2, most);
        let too_little = row.need * denominator - 1;
        row.burst = chance.pick(&[too_little, too_little, (row.need - 1) * denominator, denominator]);
        row.within = chance.pick(&[row.within, 1 << 30]);
    }
    table
}

/// A table's bytes behind another N: too many rows, too few, or an N that is out of its limits.
fn other_count(chance: &mut Chance, table: Table) -> Vec<u8> {
    let digits = crate::model::number_bytes(table.denominator).len();
    let mut bytes = table.bytes();
    let most = MAX_PLACES as u8;
    bytes[digits] = chance.pick(&[0, 1, 2, most - 1, most, most + 1, 127, table.count as u8 + 1]);
    bytes
}

/// A table given as numbers, of every kind: accepted, with numbers out of their limits, with a need above its burst, with another N, and
/// with numbers past its last place. N has at most 32 bits, and so has every number but those of a need.
pub fn numbers<const ROOM: usize>(chance: &mut Chance) -> Table<ROOM> {
    let mut table = match chance.within(0, 6) {
        0..=2 => accepted(chance),
        3 => crowded(chance),
        4 => greedy(chance),
        _ => doubtful(chance),
    };
    for row in &mut table.requestors {
        row.rate = row.rate.min(4_294_967_295);
    }
    let (room, beyond) = (ROOM as u64, MAX_PLACES as u64 + 1);
    let counts = [0, 1, 2, room - 1, room, room + 1, beyond, 255, 256 + table.count, 4_294_967_295];
    match chance.within(0, 9) {
        0 => table.count = chance.pick(&counts),
        1 | 2 => put_past_the_last(chance, &mut table),
        _ => {}
    }
    table
}

/// Something other than 0 behind the last place, if there is room.
fn put_past_the_last<const ROOM: usize>(chance: &mut Chance, table: &mut Table<ROOM>) {
    let count = table.count as usize;
    if count < ROOM {
        let place = count + chance.index(ROOM - count);
        let number = chance.pick(&[1, 4, 255, 65_536, 4_294_967_295]);
        *number_at(table, 2 + 4 * place + chance.index(4)) = number;
    }
}

/// One of a table's numbers: D, N, then rate, burst, need and within of each place.
pub fn number_at<const ROOM: usize>(table: &mut Table<ROOM>, at: usize) -> &mut u64 {
    match at.checked_sub(2) {
        None if at == 0 => &mut table.denominator,
        None => &mut table.count,
        Some(after) => {
            let row = &mut table.requestors[after / 4];
            match after % 4 {
                0 => &mut row.rate,
                1 => &mut row.burst,
                2 => &mut row.need,
                _ => &mut row.within,
            }
        }
    }
}

/// The model's table as the wrapper takes it. N, and each number but those of a need, has at most 32 bits.
pub fn for_product<const ROOM: usize>(table: &Table<ROOM>) -> justrave::Table<ROOM> {
    let narrow = |number: u64| u32::try_from(number).expect("a number of 32 bits");
    let requestor = |row: Requestor| justrave::Requestor {
        rate: narrow(row.rate),
        burst: narrow(row.burst),
        need: Transfers(row.need),
        within: Slots(row.within),
    };
    justrave::Table {
        denominator: narrow(table.denominator),
        count: narrow(table.count),
        requestors: table.requestors.map(requestor),
    }
}
