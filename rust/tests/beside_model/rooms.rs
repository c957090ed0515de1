//! Clause 15.2: words with zeros put behind them, up to those of a larger room, are told the same by every call and stay the same with
//! zeros behind them. A start is the same in every room that its table fits, and in any other is refused 2.

use justrave::{Arbiter, Slots};

use crate::model::{Table, MAX_PLACES, OLD_PLACES};
use crate::support::calls::{self, turned_by_product};
use crate::support::chance::{rounds, Chance};
use crate::support::states::{any_first, damage, invented};
use crate::support::tables;
use crate::support::tally::Tally;
use crate::support::words::{state_of, with_zeros_behind, words_of};

/// Sound words and damaged ones, N beyond the smaller room among them.
fn calls_in_two_rooms<const ROOM: usize, const LARGER: usize>() {
    let (mut chance, mut tally) = (Chance::of(&format!("room for {ROOM} and for {LARGER}")), Tally::default());
    for _ in 0..rounds(2_000) {
        let mut words = words_of::<ROOM>(&invented(&mut chance));
        if chance.one_in(3) {
            damage(&mut chance, &mut words);
        }
        let mut line = Arbiter::<ROOM>::from_words(&words).expect("as many words as there is room for");
        let mut roomier = Arbiter::<LARGER>::from_words(&with_zeros_behind::<LARGER>(&words)).expect("as many words");
        for _ in 0..12 {
            let call = calls::any(&mut chance, &state_of::<ROOM>(line.words()));
            let (told, also) = (call.on_product(&mut line), call.on_product(&mut roomier));
            assert_eq!((&told.answer, &told.lent), (&also.answer, &also.lent), "{call:?} on {words:?}");
            assert_eq!(with_zeros_behind::<LARGER>(&told.words), also.words, "{call:?} on {words:?}");
            tally.add(call.name(), &told.answer);
        }
    }
    tally.expect_all_on_a_state();
}

#[test]
fn zeros_put_behind_change_no_answer() {
    calls_in_two_rooms::<1, 2>();
    calls_in_two_rooms::<1, MAX_PLACES>();
    calls_in_two_rooms::<4, 5>();
    calls_in_two_rooms::<4, MAX_PLACES>();
    calls_in_two_rooms::<5, OLD_PLACES>();
    calls_in_two_rooms::<OLD_PLACES, MAX_PLACES>();
    calls_in_two_rooms::<{ MAX_PLACES - 1 }, MAX_PLACES>();
}

/// A start from bytes and one from numbers, in a room and in the largest.
fn starts_in_two_rooms<const ROOM: usize>() {
    let mut chance = Chance::of(&format!("starts, room for {ROOM} and for {MAX_PLACES}"));
    let (mut fitted, mut crowded) = (0, 0);
    for _ in 0..rounds(2_500) {
        let table: Table = tables::accepted(&mut chance);
        let first = Slots(any_first(&mut chance));
        let rows = tables::for_product(&table);
        let rows = &rows.requestors[..table.count as usize];
        let fewer = justrave::Table::<ROOM>::in_room(table.denominator as u32, rows);
        let all = justrave::Table::of(table.denominator as u32, rows);
        let in_room = [Arbiter::<ROOM>::start_in_room(&table.bytes(), first), Arbiter::start_table(&fewer, first)];
        let in_largest = [Arbiter::start(&table.bytes(), first), Arbiter::start_table(&all, first)];
        for (told, also) in in_room.into_iter().zip(in_largest) {
            if table.count > ROOM as u64 {
                assert_eq!(told.map_err(turned_by_product), Err((2, None, false)));
                crowded += 1;
            } else {
                let words = told.map(|line| with_zeros_behind::<MAX_PLACES>(line.words()));
                assert_eq!(words, also.map(|line| line.words().to_vec()));
                fitted += 1;
            }
        }
    }
    assert!(fitted > 100 && (crowded > 10 || ROOM == MAX_PLACES), "{fitted} tables fitted, {crowded} did not");
}

#[test]
fn a_start_is_the_same_in_every_room_that_it_fits() {
    starts_in_two_rooms::<1>();
    starts_in_two_rooms::<2>();
    starts_in_two_rooms::<4>();
    starts_in_two_rooms::<5>();
    starts_in_two_rooms::<OLD_PLACES>();
    starts_in_two_rooms::<{ MAX_PLACES - 1 }>();
    starts_in_two_rooms::<MAX_PLACES>();
}
