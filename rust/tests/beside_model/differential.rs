//! Product and model on generated inputs: each call must tell the same, leave the same state, and write the same lent bytes. Every test
//! is made with room for 1, 4, 5, 16 and 64 places, and the model has as much room.

use justrave::{Arbiter, Refusal, Slots};

use crate::model::{Fault, State, Table, IDLE, MAX_LOG, MAX_PLACES, OLD_PLACES};
use crate::support::calls::{turned_by_model, turned_by_product, Call};
use crate::support::chance::{rounds, Chance};
use crate::support::pair::Pair;
use crate::support::states::{any_first, beside, brimful, damage, first_slot, invented};
use crate::support::tables;
use crate::support::tally::Tally;
use crate::support::words::{state_of, words_of};

/// Each of these functions is a test in every room.
macro_rules! in_every_room {
    ($($test:ident)*) => {
        $(mod $test {
            #[test]
            fn room_for_1() {
                super::$test::<1>();
            }

            #[test]
            fn room_for_4() {
                super::$test::<4>();
            }

            #[test]
            fn room_for_5() {
                super::$test::<5>();
            }

            #[test]
            fn room_for_16() {
                super::$test::<16>();
            }

            #[test]
            fn room_for_64() {
                super::$test::<64>();
            }
        })*
    };
}

in_every_room! {
    starts_from_bytes_of_every_kind
    starts_from_numbers_of_every_kind
    each_number_by_itself
    every_short_input_and_every_neighbour_of_a_table
    restarts
    lists_of_calls_from_a_start
    states_that_no_start_made
    credits_at_their_limit
    damaged_words
    each_word_by_itself
    long_runs
}

/// How often a test goes round in this room. In a larger one than the old limit allowed a round takes longer.
fn rounds_in<const ROOM: usize>(usual: u64) -> u64 {
    rounds(if ROOM > OLD_PLACES { usual.div_ceil(2) } else { usual })
}

/// Chance for a test, and its tally.
fn begin<const ROOM: usize>(test: &str) -> (Chance, Tally) {
    (Chance::of(&format!("{test}, room for {ROOM}")), Tally::default())
}

/// Starts both, and holds the two starts against each other.
fn start<const ROOM: usize>(bytes: &[u8], first: u64, tally: &mut Tally) -> Option<Pair<ROOM>> {
    let product = Arbiter::<ROOM>::start_in_room(bytes, Slots(first)).map_err(turned_by_product);
    let model = State::start(bytes, first).map_err(turned_by_model);
    let words = |arbiter: &Arbiter<ROOM>| arbiter.words().to_vec();
    assert_eq!(product.as_ref().map(words), model.as_ref().map(words_of), "start of {bytes:02X?} at {first}");
    tally.add("start", &product);
    Some(Pair { product: product.ok()?, model: model.ok()? })
}

/// The same for a table given as numbers.
fn start_numbers<const ROOM: usize>(table: &Table<ROOM>, first: u64, tally: &mut Tally) {
    let product = Arbiter::start_table(&tables::for_product(table), Slots(first)).map_err(turned_by_product);
    let model = State::start_numbers(table, first).map_err(turned_by_model);
    let words = |arbiter: &Arbiter<ROOM>| arbiter.words().to_vec();
    assert_eq!(product.as_ref().map(words), model.as_ref().map(words_of), "start of {table:?} at {first}");
    tally.add("start_numbers", &product);
}

/// What starts of a kind come to. With room for one place no rates sum to more than D.
fn expect_of_starts<const ROOM: usize>(tally: &Tally, call: &str, numbers: &[u8]) {
    let possible: Vec<u8> = numbers.iter().copied().filter(|&number| number != 6 || ROOM > 1).collect();
    tally.expect(call, &possible);
}

/// The tables have up to as many places as there may be, whatever the room.
fn starts_from_bytes_of_every_kind<const ROOM: usize>() {
    let (mut chance, mut tally) = begin::<ROOM>("starts");
    for _ in 0..rounds_in::<ROOM>(40_000) {
        let bytes = tables::bytes(&mut chance);
        start::<ROOM>(&bytes, any_first(&mut chance), &mut tally);
    }
    expect_of_starts::<ROOM>(&tally, "start", &[0, 1, 2, 3, 4, 5, 6, 7, 8, 9, 10, 12, 17]);
}

fn starts_from_numbers_of_every_kind<const ROOM: usize>() {
    let (mut chance, mut tally) = begin::<ROOM>("starts from numbers");
    for _ in 0..rounds_in::<ROOM>(40_000) {
        let table = tables::numbers::<ROOM>(&mut chance);
        start_numbers(&table, any_first(&mut chance), &mut tally);
    }
    expect_of_starts::<ROOM>(&tally, "start_numbers", &[0, 1, 2, 3, 4, 5, 6, 7, 12, 17]);
}

/// Every number of one table by itself, beside what it was, at the limits of each field and beyond them; those of a need, which the
/// wrapper takes with 64 bits, also at one whose low 32 bits are the old ones.
fn each_number_by_itself<const ROOM: usize>() {
    let (mut chance, mut tally) = begin::<ROOM>("each number");
    for _ in 0..rounds_in::<ROOM>(20) {
        let accepted = tables::accepted::<ROOM>(&mut chance);
        for at in 0..justrave::Table::<ROOM>::NUMBERS {
            for other in other_numbers(accepted, at) {
                let mut table = accepted;
                *tables::number_at(&mut table, at) = other;
                start_numbers(&table, 0, &mut tally);
            }
        }
    }
    expect_of_starts::<ROOM>(&tally, "start_numbers", &[0, 1, 2, 3, 4, 5, 6, 7, 17]);
}

fn other_numbers<const ROOM: usize>(mut table: Table<ROOM>, at: usize) -> Vec<u64> {
    let number = *tables::number_at(&mut table, at);
    let edges = [0, 1, 255, 256, 65_535, 65_536, 16_777_216, 16_777_217, 1 << 30, (1 << 30) + 1, 4_294_967_295];
    let rooms = [ROOM, ROOM + 1, MAX_PLACES, MAX_PLACES + 1].map(|places| places as u64);
    let of_a_need = at > 1 && at % 4 < 2;
    let wide = of_a_need.then_some(number + (1 << 32));
    [number + 1, number.saturating_sub(1), table.denominator, table.denominator + 1]
        .into_iter()
        .chain(edges)
        .chain(rooms)
        .chain(wide)
        .collect()
}

/// All bytes of length 0 to 2; and the neighbours of table T, or of its first place where there is room for one. So too with two transfers
/// for its first need, which the burst just holds.
fn every_short_input_and_every_neighbour_of_a_table<const ROOM: usize>() {
    let mut tally = Tally::default();
    for first in 0..=255 {
        start::<ROOM>(&[first], 0, &mut tally);
        for second in 0..=255 {
            start::<ROOM>(&[first, second], 0, &mut tally);
        }
    }
    let tables: [&[u8]; 2] = if ROOM == 1 {
        [&[4, 1, 1, 8, 1, 4], &[4, 1, 1, 8, 2, 8]]
    } else {
        [&[4, 2, 1, 8, 1, 4, 1, 4, 1, 7], &[4, 2, 1, 8, 2, 8, 1, 4, 1, 7]]
    };
    for neighbour in tables.into_iter().flat_map(tables::neighbours) {
        start::<ROOM>(&neighbour, 0, &mut tally);
    }
    expect_of_starts::<ROOM>(&tally, "start", &[0, 1, 2, 3, 4, 5, 6, 7, 8, 9, 10, 17]);
}

/// Starts in an arbiter's own memory, whatever it holds before: a state after some calls, cleared words, or damaged ones.
fn restarts<const ROOM: usize>() {
    let (mut chance, mut tally) = begin::<ROOM>("restarts");
    let mut line = Pair::<ROOM>::of(invented(&mut chance)).product;
    for _ in 0..rounds_in::<ROOM>(5_000) {
        let first = any_first(&mut chance);
        let bytes = tables::bytes(&mut chance);
        let told = line.restart(&bytes, Slots(first));
        hold_restart(&line, told, State::start(&bytes, first), &mut tally);
        Call::Post(0, 1).on_product(&mut line);
        let table = tables::numbers(&mut chance);
        let told = line.restart_table(&tables::for_product(&table), Slots(first));
        hold_restart(&line, told, State::start_numbers(&table, first), &mut tally);
        if chance.one_in(2) {
            let mut words = line.words().to_vec();
            damage(&mut chance, &mut words);
            line = Pair::of(state_of(&words)).product;
        }
    }
    expect_of_starts::<ROOM>(&tally, "restart", &[0, 1, 2, 3, 4, 5, 6, 7, 8, 9, 10, 12, 17]);
}

/// What a restart told, and the words that it left: those of the model's start, or 0 in each.
fn hold_restart<const ROOM: usize>(
    line: &Arbiter<ROOM>,
    told: Result<(), Refusal>,
    model: Result<State<ROOM>, Fault>,
    tally: &mut Tally,
) {
    let told = told.map_err(turned_by_product);
    assert_eq!(line.words(), model.as_ref().map_or(vec![0; line.words().len()], words_of));
    assert_eq!(told, model.map(|_| ()).map_err(turned_by_model));
    tally.add("restart", &told);
}

/// Clause 11.2: after an accepted start no call comes to 23, whatever is called.
fn lists_of_calls_from_a_start<const ROOM: usize>() {
    let (mut chance, mut tally) = begin::<ROOM>("lists");
    for _ in 0..rounds_in::<ROOM>(1_500) {
        let bytes = tables::accepted::<ROOM>(&mut chance).bytes();
        let mut pair = start::<ROOM>(&bytes, first_slot(&mut chance), &mut tally).expect("the table is accepted");
        let many = chance.pick(&[3, 20, 60, 200]);
        pair.make_any(&mut chance, many, &mut tally);
    }
    tally.expect_all_but_23();
    tally.expect("write", &[0, 14]);
}

/// Sound states (clause 11.1) are served by the rule, whoever made them; their tables may fail 7 and 17.
fn states_that_no_start_made<const ROOM: usize>() {
    let (mut chance, mut tally) = begin::<ROOM>("invented states");
    for _ in 0..rounds_in::<ROOM>(4_000) {
        let mut pair = Pair::<ROOM>::of(invented(&mut chance));
        pair.make_any(&mut chance, 20, &mut tally);
    }
    tally.expect_all_but_23();
    tally.expect("write", &[0, 7, 14, 17]);
}

/// The credits up to some place come to their bursts, or to one more: what 23 looks at.
fn credits_at_their_limit<const ROOM: usize>() {
    let (mut chance, mut tally) = begin::<ROOM>("credits");
    for _ in 0..rounds_in::<ROOM>(8_000) {
        Pair::<ROOM>::of(brimful(&mut chance)).make_any(&mut chance, 3, &mut tally);
    }
    tally.expect("post", &[0, 11, 21, 23]);
    tally.expect("slot", &[0, 22, 23]);
}

fn damaged_words<const ROOM: usize>() {
    let (mut chance, mut tally) = begin::<ROOM>("damaged words");
    for _ in 0..rounds_in::<ROOM>(40_000) {
        let mut words = words_of::<ROOM>(&invented(&mut chance));
        damage(&mut chance, &mut words);
        Pair::<ROOM>::of(state_of(&words)).make_any(&mut chance, 3, &mut tally);
    }
    tally.expect_all_on_a_state();
}

/// Every word of one state by itself, at edges near it and far.
fn each_word_by_itself<const ROOM: usize>() {
    let (mut chance, mut tally) = begin::<ROOM>("each word");
    for _ in 0..rounds_in::<ROOM>(20) {
        let sound = words_of::<ROOM>(&invented(&mut chance));
        for (at, &word) in sound.iter().enumerate() {
            for other in beside(word) {
                let mut words = sound.clone();
                words[at] = other;
                Pair::<ROOM>::of(state_of(&words)).make(&Call::Slot, &mut tally);
            }
        }
    }
    tally.expect("slot", &[0, 22, 23]);
}

/// Clause 6.2: long runs with posts in between, and the same slots one by one.
fn long_runs<const ROOM: usize>() {
    let (mut chance, mut tally) = begin::<ROOM>("long runs");
    for _ in 0..rounds_in::<ROOM>(6) {
        let bytes = tables::accepted::<ROOM>(&mut chance).bytes();
        let mut pair = start::<ROOM>(&bytes, 0, &mut tally).expect("the table is accepted");
        for _ in 0..3 {
            let place = chance.index(pair.model.table.count as usize);
            let count = chance.pick(&[1, 100, 20_000]);
            pair.make(&Call::Post(place, count), &mut tally);
            one_by_one(&mut pair.product.clone(), pair.model);
            pair.make(&Call::Run(MAX_LOG), &mut tally);
        }
    }
    tally.expect("run", &[0]);
}

/// The product slot by slot against the model's run of as many.
fn one_by_one<const ROOM: usize>(product: &mut Arbiter<ROOM>, mut model: State<ROOM>) {
    let mut log = vec![0; MAX_LOG];
    model.run(&mut log).expect("the run is accepted");
    for written in log {
        let told = Call::Slot.on_product(product);
        let granted = told.answer.expect("the slot is accepted")[1];
        assert_eq!(if granted < 0 { IDLE } else { granted as u8 }, written);
    }
    assert_eq!(product.words(), words_of(&model));
}
