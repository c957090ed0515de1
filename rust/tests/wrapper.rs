//! What the wrapper adds of its own: the sizes of its types in each room, words that are kept and given back or carried over, and what an
//! order and a chain tell.

use justrave::{old_words, sys, OLD_LAYOUT, OLD_PLACES};
use justrave::{Arbiter, Cause, Refusal, Requestor, SlotAnswer, Slots, Standing, Table, Transfers};

fn sizes<const ROOM: usize>() {
    // SAFETY: the function touches no memory.
    assert_eq!(Arbiter::<ROOM>::STATE_WORDS, unsafe { sys::justrave_state_words(ROOM) });
    assert_eq!(size_of::<Arbiter<ROOM>>(), size_of::<u64>() * Arbiter::<ROOM>::STATE_WORDS);
    assert_eq!(Table::<ROOM>::NUMBERS, 2 + 4 * ROOM);
}

#[test]
fn sizes_in_small_rooms_and_large() {
    sizes::<1>();
    sizes::<2>();
    sizes::<3>();
    sizes::<4>();
    sizes::<5>();
    sizes::<8>();
    sizes::<15>();
    sizes::<16>();
    sizes::<17>();
    sizes::<32>();
    sizes::<33>();
    sizes::<63>();
    sizes::<64>();
    assert_eq!(Table::PLACES, 64);
    assert_eq!(Arbiter::TABLE_ROOM, 1_290);
}

#[test]
fn words_of_another_length_are_no_arbiter() {
    for length in 0..=394 {
        let words = vec![7; length];
        assert_eq!(Arbiter::<1>::from_words(&words).is_some(), length == 9);
        assert_eq!(Arbiter::<5>::from_words(&words).is_some(), length == 33);
        assert_eq!(<Arbiter>::from_words(&words).is_some(), length == 387);
    }
}

/// Every word is kept, in its order, and an arbiter that is made of them goes on where the other one stood.
#[test]
fn words_are_given_back() {
    let any: Vec<u64> = (0..33).map(|word| word * 0x0101_0101_0101_0101).collect();
    assert_eq!(Arbiter::<5>::from_words(&any).expect("33 words").words(), any);

    let pump = Requestor { rate: 1, burst: 8, need: Transfers(1), within: Slots(4) };
    let probe = Requestor { rate: 1, burst: 4, need: Transfers(1), within: Slots(7) };
    let mut line = Arbiter::start_table(&Table::<5>::in_room(4, &[pump, probe]), Slots(70)).expect("it is accepted");
    line.post(1, Transfers(3)).expect("it is accepted");
    line.slot().expect("it is accepted");
    let mut again = Arbiter::<5>::from_words(line.words()).expect("33 words");
    assert_eq!(again, line);
    assert_eq!(again.standing(), Ok(Standing { slot: Slots(71), places: 2 }));
    assert_eq!((again.slot(), again), (line.slot(), line));
}

/// What the old layout was stays what it was, and the library says the same of it.
#[test]
fn what_is_said_of_old_words() {
    assert_eq!((OLD_LAYOUT, OLD_PLACES), (2, 16));
    assert_eq!((old_words(1), old_words(5), old_words(OLD_PLACES)), (9, 33, 99));
    for places in 0..=OLD_PLACES + 1 {
        // cleared words are no state, and the length is looked at ahead of that
        let refusal = Arbiter::<64>::carry_over(&vec![0; old_words(places)]).unwrap_err();
        assert_eq!(refusal.number, if (1..=OLD_PLACES).contains(&places) { 23 } else { 255 }, "{places} places");
    }
}

/// An arbiter that goes on, or a refusal with its cause; what is refused makes no arbiter.
#[test]
fn carrying_over_tells_an_arbiter_or_a_refusal() {
    let old = [4, 2, 70, 1, 8, 1, 4, 5, 3, 1, 4, 1, 7, 6, 0];
    let mut line = Arbiter::<3>::carry_over(&old).expect("room for two places, and for one more");
    assert_eq!(line.standing(), Ok(Standing { slot: Slots(70), places: 2 }));
    let accounts = [0, 1].map(|place| line.account(place).map(|account| (account.credit, account.backlog)));
    assert_eq!(accounts, [Ok((5, Transfers(3))), Ok((6, Transfers(0)))]);
    assert_eq!(line.slot(), Ok(SlotAnswer::Granted(Slots(70), 0)));
    assert_eq!(Arbiter::<2>::carry_over(&old).map(|line| line.words().len()), Ok(15));

    let crowded = Refusal { number: 255, place: None, cause: Cause::Input };
    assert_eq!(Arbiter::<1>::carry_over(&old), Err(crowded));
    assert_eq!((Arbiter::<3>::carry_over(&old[..14]), Arbiter::<3>::carry_over(&[])), (Err(crowded), Err(crowded)));
    let meaning = "old words of a wrong length or for too many places, or library and wrapper do not fit together";
    assert_eq!(crowded.to_string(), format!("refused 255, by the input: {meaning}"));
    let mut broken = old;
    broken[13] = 8;
    assert_eq!(Arbiter::<3>::carry_over(&broken), Err(Refusal { number: 23, place: None, cause: Cause::State }));
}

/// What the room is left out of: code that names none has the largest.
#[test]
fn where_nothing_is_said_there_is_room_for_all() {
    let table = Table::of(4, &[Requestor { rate: 1, burst: 8, need: Transfers(1), within: Slots(4) }]);
    let from_numbers = Arbiter::start_table(&table, Slots(0)).expect("it is accepted");
    let from_bytes = Arbiter::start(&[4, 1, 1, 8, 1, 4], Slots(0)).expect("it is accepted");
    assert_eq!(from_numbers, from_bytes);
    assert_eq!(from_bytes.words().len(), 387);
}

/// A length where an order is found, with the rest of the buffer as it was; a refusal with its place and its cause where none is.
#[test]
fn an_order_tells_a_length_or_a_refusal() {
    let listed = [4, 2, 1, 4, 1, 7, 1, 8, 1, 4];
    let mut buffer = [0xA5; 12];
    for (table, number, place) in
        [(&[][..], 8, None), (&[4, 2, 1, 4, 1, 7, 5], 3, Some(1)), (&[4, 2, 1, 4, 1, 6, 1, 8, 1, 4], 15, None)]
    {
        let refusal = Refusal { number, place, cause: Cause::Input };
        assert_eq!(justrave::order(table, &mut buffer), Err(refusal));
    }
    assert_eq!(justrave::order(&listed, &mut buffer[..9]).unwrap_err().number, 14);
    assert_eq!(justrave::order(&listed, &mut []).unwrap_err().number, 14);
    assert_eq!(justrave::order(&[], &mut []).unwrap_err().number, 8);
    assert_eq!(buffer, [0xA5; 12]);
    assert_eq!(justrave::order(&listed, &mut buffer), Ok(10));
    assert_eq!(buffer, [4, 2, 1, 8, 1, 4, 1, 4, 1, 7, 0xA5, 0xA5]);
}

/// A need above its burst is told with its place, and in words. One that has no 32 bits is no smaller one, and neither it nor any other
/// above 255 is a need at all.
#[test]
fn a_need_above_its_burst() {
    let pump = Requestor { rate: 1, burst: 8, need: Transfers(1), within: Slots(100) };
    let started = |need| {
        let table = Table::<2>::in_room(4, &[pump, Requestor { need: Transfers(need), ..pump }]);
        Arbiter::start_table(&table, Slots(0)).map(|_| ())
    };
    assert_eq!((started(1), started(2)), (Ok(()), Ok(())));
    let told = started(3).unwrap_err();
    assert_eq!(told, Refusal { number: 17, place: Some(1), cause: Cause::Input });
    assert_eq!(told.to_string(), "refused 17 at place 1, by the input: a need is larger than its burst");
    assert_eq!(started(255), Err(told));
    for need in [0, 256, 1 << 30, 1 << 32, (1 << 32) + 1, 1 << 62, u64::MAX - 1, u64::MAX] {
        assert_eq!(started(need), Err(Refusal { number: 5, ..told }), "a need of {need}");
    }
}

/// Table T with room for three places.
fn line_of_two() -> Arbiter<3> {
    Arbiter::start_in_room(&[4, 2, 1, 8, 1, 4, 1, 4, 1, 7], Slots(0)).expect("it is accepted")
}

/// Slots where the chain ends, and else a refusal with its place and its cause.
#[test]
fn a_chain_tells_slots_or_a_refusal() {
    let line = line_of_two();
    assert_eq!(line.chain(0, &[None; 3]), Ok(Slots(4)));
    assert_eq!(line.chain(1, &[None; 3]), Ok(Slots(7)));
    assert_eq!(line.chain(1, &[None, Some(0), None]), Ok(Slots(11)));
    assert_eq!(line.chain(0, &[Some(1), None, None]), Ok(Slots(11)));
    for (place, follows, number, named) in [
        (2, [None, None, None], 11, None),
        (0, [None, Some(2), None], 11, None),
        (1, [None, Some(1), None], 16, Some(1)),
        (1, [Some(1), Some(0), None], 16, Some(0)),
    ] {
        let refusal = Refusal { number, place: named, cause: Cause::Input };
        assert_eq!(line.chain(place, &follows), Err(refusal));
    }
    let circle = line.chain(0, &[Some(0), None, None]).unwrap_err();
    assert_eq!(circle.to_string(), "refused 16 at place 0, by the input: places follow one another in a circle");
    let broken = Arbiter::<3>::from_words(&[7; 21]).expect("21 words");
    assert_eq!(broken.chain(9, &[Some(9); 3]), Err(Refusal { number: 23, place: None, cause: Cause::State }));
}

/// 255 is the library's byte for nobody, and larger numbers have no byte: a place that is followed is absent all the same, and no number
/// is cut down to one that would do. Past the table's places it is not read.
#[test]
fn a_followed_place_without_a_byte_is_absent() {
    let line = line_of_two();
    let absent = Refusal { number: 11, place: None, cause: Cause::Input };
    for place in [2, 64, 253, 254, 255, 256, 257, 511, 1 << 32, (1 << 32) + 1, usize::MAX - 1, usize::MAX] {
        assert_eq!(line.chain(1, &[None, Some(place), None]), Err(absent), "{place} is followed");
        assert_eq!(line.chain(1, &[Some(place), None, None]), Err(absent), "{place} is followed");
        assert_eq!(line.chain(1, &[None, Some(0), Some(place)]), Ok(Slots(11)), "{place} is followed");
    }
}

/// One entry to each place that there is room for, in the smallest room and in the largest.
#[test]
fn a_chain_in_the_smallest_and_the_largest_room() {
    let one = Arbiter::<1>::start_in_room(&[4, 1, 1, 8, 1, 4], Slots(0)).expect("it is accepted");
    assert_eq!(one.chain(0, &[None]), Ok(Slots(4)));
    assert_eq!(one.chain(0, &[Some(0)]).unwrap_err().place, Some(0));
    let all = Arbiter::start(&[4, 1, 1, 8, 1, 4], Slots(0)).expect("it is accepted");
    assert_eq!(all.chain(0, &[None; Table::PLACES]), Ok(Slots(4)));
}
