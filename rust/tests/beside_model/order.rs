//! Requestors listed in any order (clauses 8.1 to 8.3), put in places by the product and by the model's rule, and where they are few held
//! to every order that there is.

use justrave::{sys, Arbiter, Slots};

use crate::model::{self, Requestor, Table, MAX_PLACES};
use crate::support::calls::{answer_of, turned_by_model, turned_by_product, Turned};
use crate::support::chance::{rounds, Chance};
use crate::support::tables;
use crate::support::tally::Tally;

/// What stands in lent memory before a call.
const UNTOUCHED: u8 = 0xA5;
const UNTOUCHED_WORD: u64 = 0xA5A5_A5A5_A5A5_A5A5;
/// A buffer for any table.
const ROOM: usize = Arbiter::TABLE_ROOM;

/// All that an order leaves behind: its refusal, the answer's word and the buffer.
#[derive(Debug, PartialEq)]
struct Output {
    outcome: Result<(), Turned>,
    answer: u64,
    buffer: Vec<u8>,
}

fn by_product(bytes: &[u8], room: usize) -> Output {
    let (mut buffer, mut answer) = (vec![UNTOUCHED; room], [UNTOUCHED_WORD]);
    let (to, length) = (answer.as_mut_ptr(), answer.len());
    // SAFETY: all three have their lengths behind them, and what is written is of this function.
    let outcome =
        unsafe { sys::justrave_order(bytes.as_ptr(), bytes.len(), buffer.as_mut_ptr(), buffer.len(), to, length) };
    Output { outcome: answer_of(outcome).map_err(turned_by_product), answer: answer[0], buffer }
}

/// Through the wrapper, which hands out no answer where it is refused.
fn by_wrapper(bytes: &[u8], room: usize) -> Output {
    let mut buffer = vec![UNTOUCHED; room];
    let told = justrave::order(bytes, &mut buffer).map_err(turned_by_product);
    Output { answer: told.map_or(UNTOUCHED_WORD, |length| length as u64), outcome: told.map(|_| ()), buffer }
}

fn by_model(bytes: &[u8], room: usize) -> Output {
    let mut buffer = vec![UNTOUCHED; room];
    let told = model::order(bytes, &mut buffer).map_err(turned_by_model);
    Output { answer: told.map_or(UNTOUCHED_WORD, |length| length as u64), outcome: told.map(|_| ()), buffer }
}

/// What both tell of some bytes and a buffer of this length: the ordered table's bytes, or the number of the refusal.
fn order(bytes: &[u8], room: usize, tally: &mut Tally) -> Result<Vec<u8>, u8> {
    let (product, model) = (by_product(bytes, room), by_model(bytes, room));
    assert_eq!(product, model, "order of {bytes:02X?} into {room} bytes: product (left) and model");
    assert_eq!(by_wrapper(bytes, room), model, "order of {bytes:02X?} into {room} bytes: wrapper (left) and model");
    tally.add("order", &product.outcome);
    let Output { outcome, answer, buffer } = product;
    outcome.map(|()| buffer[..answer as usize].to_vec()).map_err(|turned| turned.0)
}

/// What holds of an ordered table, whichever it is: a start takes it, it is of the same requestors, each as often, and its order is
/// one that comes back.
fn check_ordered(list: &Table, bytes: &[u8], tally: &mut Tally) {
    assert!(Arbiter::start(bytes, Slots(0)).is_ok(), "{list:?} was ordered as {bytes:02X?}");
    let ordered: Table = Table::read(bytes).expect("the model accepts what a start takes");
    assert_eq!((ordered.denominator, ordered.count), (list.denominator, list.count));
    assert_eq!(sorted(&ordered), sorted(list));
    assert_eq!(order(bytes, ROOM, tally), Ok(bytes.to_vec()), "an ordered table comes back");
}

/// The requestors in an order that only depends on their numbers.
fn sorted(table: &Table) -> Vec<[u64; 4]> {
    let numbers = |row: &Requestor| [row.rate, row.burst, row.need, row.within];
    let mut rows: Vec<_> = table.used().iter().map(numbers).collect();
    rows.sort_unstable();
    rows
}

/// Lists of every kind, in buffers that are just long enough, longer, and too short.
#[test]
fn lists_of_every_kind() {
    let (mut chance, mut tally) = (Chance::of("orders"), Tally::default());
    for _ in 0..rounds(40_000) {
        let bytes = tables::list_bytes(&mut chance);
        let length = bytes.len();
        let room = chance.pick(&[length, length, length.saturating_sub(1), length + 7, 0, ROOM, ROOM]);
        order(&bytes, room, &mut tally).ok();
    }
    tally.expect("order", &[0, 1, 2, 3, 4, 5, 6, 8, 9, 10, 14, 15, 17]);
}

/// All bytes of length 0 to 2; and the neighbours of table T, listed the wrong way round. So too with two transfers for the need at the end
/// of the list, which the burst just holds.
#[test]
fn every_short_input_and_every_neighbour_of_a_list() {
    let mut tally = Tally::default();
    for first in 0..=255 {
        order(&[first], ROOM, &mut tally).ok();
        for second in 0..=255 {
            order(&[first, second], ROOM, &mut tally).ok();
        }
    }
    let lists: [&[u8]; 2] = [&[4, 2, 1, 4, 1, 7, 1, 8, 1, 4], &[4, 2, 1, 4, 1, 7, 1, 8, 2, 8]];
    for neighbour in lists.into_iter().flat_map(tables::neighbours) {
        order(&neighbour, ROOM, &mut tally).ok();
    }
    tally.expect("order", &[0, 1, 2, 3, 4, 5, 6, 8, 9, 10, 15, 17]);
}

/// How many lists were met of each kind: a test that never met one has not tested it.
#[derive(Debug, Default)]
struct Met {
    /// No order passes.
    none: u64,
    one: u64,
    several: u64,
    /// Some order passes, but not the list's own.
    moved: u64,
    /// The same, and there are several to choose from.
    chosen: u64,
}

impl Met {
    fn add(&mut self, list: &Table, passing: &[Table]) {
        let moved = !passing.is_empty() && !passing.contains(list);
        self.none += u64::from(passing.is_empty());
        self.one += u64::from(passing.len() == 1);
        self.several += u64::from(passing.len() > 1);
        self.moved += u64::from(moved);
        self.chosen += u64::from(moved && passing.len() > 1);
    }
}

/// Lists of up to so many requestors, so many times, and every order of each.
fn beside_every_order(most: u64, many: u64) -> Met {
    let (mut chance, mut tally) = (Chance::of(&format!("every order of up to {most}")), Tally::default());
    let mut met = Met::default();
    for _ in 0..rounds(many) {
        let list = tables::listed(&mut chance, most);
        let passing = list.passing_orders();
        let told = order(&list.bytes(), ROOM, &mut tally);
        assert_eq!(told, passing.first().map(Table::bytes).ok_or(15), "{list:?}");
        if let Ok(bytes) = told {
            check_ordered(&list, &bytes, &mut tally);
        }
        met.add(&list, &passing);
    }
    tally.expect("order", &[0, 15]);
    println!("lists of up to {most}: {met:?}");
    met
}

/// 15 comes exactly where none of all orders passes, and else the answer is the one of them that the list decides on.
#[test]
fn a_few_requestors_beside_all_their_orders() {
    let few = beside_every_order(5, 5_000);
    assert!(few.none > 500 && few.one > 500 && few.several > 500 && few.moved > 500 && few.chosen > 100, "{few:?}");
    let more = beside_every_order(6, 300);
    assert!(more.none > 20 && more.one > 20 && more.several > 20 && more.moved > 20 && more.chosen > 5, "{more:?}");
}

/// A table that a start takes comes back, byte by byte; and however its requestors are listed, an order is found, often another one.
#[test]
fn tables_that_a_start_takes() {
    let (mut chance, mut tally) = (Chance::of("tables that a start takes"), Tally::default());
    let (mut moved, mut other, mut full) = (0, 0, 0);
    for _ in 0..rounds(3_000) {
        let most = chance.pick(&[6, MAX_PLACES as u64]);
        let table = match chance.within(0, 3) {
            0 | 1 => tables::accepted(&mut chance),
            2 => tables::tight_up_to(&mut chance, most),
            _ => tables::tight_of(&mut chance, most),
        };
        assert_eq!(order(&table.bytes(), ROOM, &mut tally), Ok(table.bytes()));
        let list = tables::shuffled(&mut chance, table);
        let bytes = order(&list.bytes(), ROOM, &mut tally).expect("an order passes");
        check_ordered(&list, &bytes, &mut tally);
        moved += u64::from(bytes != list.bytes());
        other += u64::from(bytes != table.bytes());
        full += u64::from(bytes != list.bytes() && list.count == MAX_PLACES as u64);
    }
    tally.expect("order", &[0]);
    println!("other places than in the list: {moved}, of {MAX_PLACES} requestors: {full}; than in the table: {other}");
    assert!(moved > 500 && other > 200 && full > 100);
}

/// 14 comes exactly where a buffer is shorter than the ordered table, which has as many bytes as the list. Any other refusal comes in any
/// buffer.
#[test]
fn buffers_of_every_length() {
    let (mut chance, mut tally) = (Chance::of("buffers"), Tally::default());
    for _ in 0..rounds(400) {
        let bytes = tables::list_bytes(&mut chance);
        let told = order(&bytes, ROOM, &mut tally);
        assert!(told.as_ref().map_or(true, |ordered| ordered.len() == bytes.len()));
        for room in 0..bytes.len() + 3 {
            let must = if told.is_ok() && room < bytes.len() { Err(14) } else { told.clone() };
            assert_eq!(order(&bytes, room, &mut tally), must, "{bytes:02X?} into {room} bytes");
        }
    }
    tally.expect("order", &[0, 1, 2, 3, 4, 5, 6, 8, 9, 10, 14, 15, 17]);
}
