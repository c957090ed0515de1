//! Words that a unit of the old limit kept. The exported function, the wrapper and the model make the same of them in every room
//! (clause 11.4), and a line that is carried over runs on as it would have (clause 11.5).

use justrave::{sys, Arbiter, Slots};

use crate::model::{State, Table, MAX_PLACES, MAX_SLOT, OLD_PLACES};
use crate::support::calls::{self, answer_of, turned_by_model, turned_by_product, Call, Turned};
use crate::support::chance::{rounds, Chance};
use crate::support::states::{any_first, beside, brimful, damage, first_slot, invented};
use crate::support::tables;
use crate::support::tally::Tally;
use crate::support::words::{old_words_of, with_zeros_behind, words_of};

/// The outcome through the exported function, and what it left of words that held something before.
fn by_product(old: &[u64], before: &[u64]) -> (Result<(), Turned>, Vec<u64>) {
    // lent is memory that can be written, so that a call shows that writes where it should only read
    let (mut lent, mut state) = (old.to_vec(), before.to_vec());
    // SAFETY: both have their lengths behind them, and are of this function.
    let outcome = unsafe { sys::justrave_carry(lent.as_mut_ptr(), lent.len(), state.as_mut_ptr(), state.len()) };
    assert_eq!(lent, old, "the old words are only read");
    (answer_of(outcome).map_err(turned_by_product), state)
}

/// What all three make of old words: the state, or a refusal. After 255 the words hold what they held before, and after 23 nothing but 0.
fn carry<const ROOM: usize>(old: &[u64], before: &[u64], tally: &mut Tally) -> Result<State<ROOM>, Turned> {
    let model = State::<ROOM>::carry(old).map_err(turned_by_model);
    let left = match &model {
        Ok(state) => words_of(state),
        Err((255, ..)) => before.to_vec(),
        Err(_) => vec![0; before.len()],
    };
    let product = by_product(old, before);
    assert_eq!(product, (model.map(|_| ()), left), "{old:?} into room for {ROOM}: product (left) and model");
    let wrapper = Arbiter::<ROOM>::carry_over(old).map(|line| line.words().to_vec()).map_err(turned_by_product);
    assert_eq!(wrapper, model.as_ref().map(words_of).map_err(|&turned| turned), "{old:?} into room for {ROOM}");
    tally.add("carry", &model);
    model
}

/// Anything may stand in the words that a state is made in: what is in no state, another state, or nothing.
fn any_before<const ROOM: usize>(chance: &mut Chance) -> Vec<u64> {
    match chance.within(0, 2) {
        0 => (0..Arbiter::<ROOM>::STATE_WORDS).map(|_| chance.next()).collect(),
        1 => words_of::<ROOM>(&invented(chance)),
        _ => vec![0; Arbiter::<ROOM>::STATE_WORDS],
    }
}

/// Sound words, words with the credits at their limit or one above it, and damaged ones. Where there is too little room all are 255.
fn every_kind_between<const OLD: usize, const ROOM: usize>() {
    let (mut chance, mut tally) = (Chance::of(&format!("carried from {OLD} to {ROOM}")), Tally::default());
    for _ in 0..rounds(500) {
        let state = if chance.one_in(3) { brimful(&mut chance) } else { invented(&mut chance) };
        let mut old = old_words_of::<OLD>(&state);
        if chance.one_in(3) {
            damage(&mut chance, &mut old);
        }
        let before = any_before::<ROOM>(&mut chance);
        carry::<ROOM>(&old, &before, &mut tally).ok();
    }
    tally.expect("carry", if OLD <= ROOM { &[0, 23] } else { &[255] });
}

/// Into every room from the smallest to the largest, those that are too small among them.
fn every_kind_from<const OLD: usize>() {
    every_kind_between::<OLD, 1>();
    every_kind_between::<OLD, 4>();
    every_kind_between::<OLD, 5>();
    every_kind_between::<OLD, { OLD_PLACES - 1 }>();
    every_kind_between::<OLD, OLD_PLACES>();
    every_kind_between::<OLD, { OLD_PLACES + 1 }>();
    every_kind_between::<OLD, 40>();
    every_kind_between::<OLD, { MAX_PLACES - 1 }>();
    every_kind_between::<OLD, MAX_PLACES>();
}

#[test]
fn old_words_of_every_kind() {
    every_kind_from::<1>();
    every_kind_from::<4>();
    every_kind_from::<5>();
    every_kind_from::<OLD_PLACES>();
}

/// Every word of one state by itself, at edges near it and far.
fn each_word_between<const OLD: usize, const ROOM: usize>() {
    let (mut chance, mut tally) = (Chance::of(&format!("each word from {OLD} to {ROOM}")), Tally::default());
    for _ in 0..rounds(20) {
        let sound = old_words_of::<OLD>(&invented(&mut chance));
        let before = any_before::<ROOM>(&mut chance);
        for (at, &word) in sound.iter().enumerate() {
            for other in beside(word) {
                let mut old = sound.clone();
                old[at] = other;
                carry::<ROOM>(&old, &before, &mut tally).ok();
            }
        }
    }
    tally.expect("carry", &[0, 23]);
}

#[test]
fn each_old_word_by_itself() {
    each_word_between::<1, MAX_PLACES>();
    each_word_between::<4, 5>();
    each_word_between::<5, MAX_PLACES>();
    each_word_between::<OLD_PLACES, OLD_PLACES>();
    each_word_between::<OLD_PLACES, MAX_PLACES>();
}

/// The words of a place, in their order.
const RATE: usize = 0;
const BURST: usize = 1;
const NEED: usize = 2;
const WITHIN: usize = 3;
const CREDIT: usize = 4;
const BACKLOG: usize = 5;

/// D, N and the slot number.
const D: usize = 0;
const N: usize = 1;
const SLOT: usize = 2;

/// Where a place's word stands.
const fn at(place: usize, word: usize) -> usize {
    3 + 6 * place + word
}

/// Table T in old words for so many places; slot 70 comes next, and three transfers wait at place 0.
fn old_t(room: usize) -> Vec<u64> {
    let mut words = vec![4, 2, 70, 1, 8, 1, 4, 5, 3, 1, 4, 1, 7, 3, 0];
    words.resize(at(room, 0), 0);
    words
}

/// Words of T that are changed together, and what comes of it: each limit from both sides.
const CHANGES: [(&[(usize, u64)], u64); 47] = [
    (&[(D, 0)], 23),
    (&[(D, 3)], 0),
    (&[(D, 65_535), (at(0, BURST), 65_535), (at(1, BURST), 65_535)], 0),
    (&[(D, 65_536), (at(0, BURST), 65_536), (at(1, BURST), 65_536)], 23),
    (&[(N, 0)], 23),
    (&[(N, 1)], 23),
    (&[(N, 3)], 23),
    (&[(N, u64::MAX)], 23),
    (&[(SLOT, MAX_SLOT)], 0),
    (&[(SLOT, MAX_SLOT + 1)], 23),
    (&[(SLOT, u64::MAX)], 23),
    (&[(at(0, RATE), 0)], 23),
    (&[(at(1, RATE), 0)], 23),
    (&[(at(0, RATE), 5)], 23),
    (&[(at(0, RATE), 3)], 0),
    (&[(at(1, RATE), 3)], 0),
    // the rates sum to 5
    (&[(at(1, RATE), 4)], 23),
    (&[(at(0, BURST), 3), (at(0, CREDIT), 0)], 23),
    (&[(at(1, BURST), 3)], 23),
    (&[(at(0, BURST), 16_777_216)], 0),
    (&[(at(0, BURST), 16_777_217)], 23),
    (&[(at(1, BURST), 16_777_217)], 23),
    (&[(at(0, NEED), 0)], 23),
    // above its burst, by one transfer and by as many as may be: no start takes it any more, and 23 does not look at it
    (&[(at(0, NEED), 3)], 0),
    (&[(at(0, NEED), 255)], 0),
    (&[(at(0, NEED), 256)], 23),
    (&[(at(1, NEED), 256)], 23),
    (&[(at(1, WITHIN), 0)], 23),
    // below the finish figure: no start takes it, and 23 does not look at it
    (&[(at(1, WITHIN), 1)], 0),
    (&[(at(1, WITHIN), 1 << 30)], 0),
    (&[(at(1, WITHIN), (1 << 30) + 1)], 23),
    (&[(at(0, BACKLOG), 65_535)], 0),
    (&[(at(0, BACKLOG), 65_536)], 23),
    (&[(at(1, BACKLOG), 65_535)], 0),
    (&[(at(1, BACKLOG), 65_536)], 23),
    (&[(at(0, CREDIT), 8), (at(1, CREDIT), 0)], 0),
    (&[(at(0, CREDIT), 9), (at(1, CREDIT), 0)], 23),
    (&[(at(0, CREDIT), 8), (at(1, CREDIT), 4)], 0),
    (&[(at(0, CREDIT), 8), (at(1, CREDIT), 5)], 23),
    (&[(at(0, CREDIT), 0), (at(1, CREDIT), 12)], 0),
    (&[(at(0, CREDIT), 0), (at(1, CREDIT), 13)], 23),
    (&[(at(1, CREDIT), u64::MAX)], 23),
    // their sum has more than 64 bits, and would be 8
    (&[(at(0, CREDIT), u64::MAX), (at(1, CREDIT), 9)], 23),
    (&[(at(0, CREDIT), 1), (at(1, CREDIT), u64::MAX)], 23),
    (&[(at(0, RATE), (1 << 32) + 1)], 23),
    (&[(at(1, BACKLOG), 1 << 32)], 23),
    (&[(D, (1 << 32) + 4)], 23),
];

/// Carries T over with these changes, into several rooms, and holds the outcome to the one that is known.
fn check_changed<const OLD: usize>(changes: &[(usize, u64)], must: u64) {
    let mut old = old_t(OLD);
    changes.iter().for_each(|&(at, word)| old[at] = word);
    for room in [OLD, OLD + 1, MAX_PLACES] {
        let before = vec![u64::MAX; at(room, 0)];
        let (outcome, left) = by_product(&old, &before);
        let must = if must == 0 { Ok(()) } else { Err((must as u8, None, true)) };
        assert_eq!(outcome, must, "{changes:?}, {OLD} places into {room}");
        assert_eq!(left.iter().all(|&word| word == 0), must.is_err(), "{changes:?}, {OLD} places into {room}");
    }
    carry::<OLD>(&old, &vec![u64::MAX; at(OLD, 0)], &mut Tally::default()).ok();
}

/// Each limit of an old state from both sides; and each word past its last place, next to it and at the end.
fn check_limits<const OLD: usize>() {
    CHANGES.iter().for_each(|(changes, must)| check_changed::<OLD>(changes, *must));
    for place in [2, OLD - 1] {
        for word in RATE..=BACKLOG {
            check_changed::<OLD>(&[(at(place, word), 1)], 23);
            check_changed::<OLD>(&[(at(place, word), 0)], 0);
        }
    }
}

#[test]
fn the_limits_of_an_old_state() {
    check_limits::<3>();
    check_limits::<4>();
    check_limits::<5>();
    check_limits::<OLD_PLACES>();
}

/// N is held to the room that the old words have, and not to the one that they are carried into: one above it is 23, with all else as
/// it must be.
fn check_count<const OLD: usize>() {
    let mut old = vec![64, OLD as u64, 70];
    old.extend([1, 64, 1, 4_096, 64, 1].repeat(OLD));
    for (count, must) in [(OLD, Ok(())), (OLD + 1, Err((23, None, true)))] {
        old[N] = count as u64;
        for room in OLD..=MAX_PLACES {
            let (outcome, left) = by_product(&old, &vec![u64::MAX; at(room, 0)]);
            assert_eq!(outcome, must, "N = {count}, {OLD} places into {room}");
            let carried: &[u64] = if must.is_ok() { &old } else { &[] };
            let (front, behind) = left.split_at(carried.len());
            assert!(front == carried && behind.iter().all(|&word| word == 0), "N = {count}, {OLD} places into {room}");
        }
        carry::<MAX_PLACES>(&old, &[u64::MAX; at(MAX_PLACES, 0)], &mut Tally::default()).ok();
    }
}

#[test]
fn n_above_the_old_room() {
    check_count::<1>();
    check_count::<4>();
    check_count::<5>();
    check_count::<{ OLD_PLACES - 1 }>();
    check_count::<OLD_PLACES>();
}

/// A start that is carried over is the start of its table in the larger room.
fn starts_between<const OLD: usize, const ROOM: usize>() {
    let (mut chance, mut tally) = (Chance::of(&format!("starts from {OLD} to {ROOM}")), Tally::default());
    for _ in 0..rounds(300) {
        let (table, first) = (tables::accepted::<OLD>(&mut chance), first_slot(&mut chance));
        let old = old_words_of(&State::start_numbers(&table, first).expect("the table is accepted"));
        let before = any_before::<ROOM>(&mut chance);
        let carried = carry::<ROOM>(&old, &before, &mut tally).expect("the state is sound");
        let started = Arbiter::<ROOM>::start_in_room(&table.bytes(), Slots(first)).expect("the table is accepted");
        assert_eq!(words_of(&carried), started.words(), "{table:?} at {first}");
    }
}

#[test]
fn a_start_that_is_carried_over() {
    starts_between::<1, MAX_PLACES>();
    starts_between::<5, 40>();
    starts_between::<OLD_PLACES, OLD_PLACES>();
    starts_between::<OLD_PLACES, MAX_PLACES>();
}

/// A line under the old limit, in the product and in the model; and the same line after it was carried over.
struct Lines<const OLD: usize, const ROOM: usize> {
    old: Arbiter<OLD>,
    model: State<OLD>,
    carried: Arbiter<ROOM>,
}

impl<const OLD: usize, const ROOM: usize> Lines<OLD, ROOM> {
    /// A table that runs for a while under the old limit, and is carried over in the midst of it.
    fn begin(chance: &mut Chance, tally: &mut Tally) -> Lines<OLD, ROOM> {
        let table: Table<OLD> = tables::accepted(chance);
        let first = Slots(any_first(chance).min(MAX_SLOT));
        let mut old = Arbiter::start_in_room(&table.bytes(), first).expect("the table is accepted");
        let mut model = State::start(&table.bytes(), first.0).expect("the table is accepted");
        for _ in 0..chance.pick(&[0, 10, 60, 200]) {
            let call = calls::any(chance, &model);
            assert_eq!(call.on_product(&mut old), call.on_model(&mut model), "{call:?} under the old limit");
        }
        let before = any_before::<ROOM>(chance);
        carry::<ROOM>(&old_words_of(&model), &before, tally).expect("the state is sound");
        let carried = Arbiter::carry_over(&old_words_of(&model)).expect("the state is sound");
        Lines { old, model, carried }
    }

    /// One call on all three tells the same, and leaves the same words with zeros behind them.
    fn make(&mut self, call: &Call, tally: &mut Tally) {
        let (old, model) = (call.on_product(&mut self.old), call.on_model(&mut self.model));
        let carried = call.on_product(&mut self.carried);
        assert_eq!(old, model, "{call:?} in room for {OLD}: product (left) and model");
        assert_eq!((&carried.answer, &carried.lent), (&model.answer, &model.lent), "{call:?}: carried over (left)");
        assert_eq!(carried.words, with_zeros_behind::<ROOM>(&model.words), "{call:?}: carried over (left)");
        tally.add(call.name(), &model.answer);
    }
}

/// Lines of old tables go on for some hundred slots each, if so many are left.
fn run_on_between<const OLD: usize, const ROOM: usize>(tally: &mut Tally) {
    let mut chance = Chance::of(&format!("running on from {OLD} to {ROOM}"));
    let (mut slots, lines) = (0, rounds(40));
    for _ in 0..lines {
        let mut all = Lines::<OLD, ROOM>::begin(&mut chance, tally);
        let first = all.model.slot;
        for _ in 0..200 {
            all.make(&calls::any(&mut chance, &all.model), tally);
        }
        slots += all.model.slot - first;
    }
    println!("{slots} slots of {lines} lines");
    // with other seeds the lines of one place come to less than 200 slots each: some begin close to the last slot number
    assert!(slots > 100 * lines, "only {slots} slots of {lines} lines");
}

#[test]
fn a_line_that_is_carried_over_runs_on_alike() {
    let mut tally = Tally::default();
    run_on_between::<1, 1>(&mut tally);
    run_on_between::<1, MAX_PLACES>(&mut tally);
    run_on_between::<4, 5>(&mut tally);
    run_on_between::<4, MAX_PLACES>(&mut tally);
    run_on_between::<5, 40>(&mut tally);
    run_on_between::<OLD_PLACES, OLD_PLACES>(&mut tally);
    run_on_between::<OLD_PLACES, { OLD_PLACES + 1 }>(&mut tally);
    run_on_between::<OLD_PLACES, MAX_PLACES>(&mut tally);
    tally.expect_all_but_23();
    tally.expect("write", &[0, 14]);
}
