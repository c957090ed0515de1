//! The library's functions as they are, without the wrapper: lent memory of every length (clause 15.3), what a refused call leaves alone
//! (clauses 1.5 and 1.6), and that nothing is written beside what was lent.

use justrave::sys;

/// The most places that a state has room for.
const MOST: usize = 64;
/// The same of the old words that are carried over.
const OLD_MOST: usize = 16;
/// How many words a state has that has room for so many places.
const fn words_for(places: usize) -> usize {
    3 + 6 * places
}
/// The same of old words, which stay as many whatever becomes of a state's.
const fn old_words_for(places: usize) -> usize {
    3 + 6 * places
}
/// How many numbers a table has that has room for so many places.
const fn numbers_for(places: usize) -> usize {
    2 + 4 * places
}
/// Table T has two places; there is room for one more.
const ROOM: usize = 3;
const WORDS: usize = words_for(ROOM);
const NUMBERS: usize = numbers_for(ROOM);
/// What stands in memory that must not be written.
const UNTOUCHED: u64 = 0xA5A5_A5A5_A5A5_A5A5;
const T: [u8; 10] = [4, 2, 1, 8, 1, 4, 1, 4, 1, 7];
/// T's requestors the other way round: no start takes them so.
const LISTED: [u8; 10] = [4, 2, 1, 4, 1, 7, 1, 8, 1, 4];
/// T in old words with room for its two places: slot 70 comes next, the credits are 5 and 6, and three transfers wait at place 0.
const OLD: [u64; old_words_for(2)] = [4, 2, 70, 1, 8, 1, 4, 5, 3, 1, 4, 1, 7, 6, 0];

// The functions over slices. SAFETY of each: a slice has its length behind it, and exclusive borrows do not overlap.

fn start(table: &[u8], first: u64, state: &mut [u64]) -> u64 {
    unsafe { sys::justrave_start(table.as_ptr(), table.len(), first, state.as_mut_ptr(), state.len()) }
}

fn start_numbers(numbers: &[u32], first: u64, state: &mut [u64]) -> u64 {
    unsafe { sys::justrave_start_numbers(numbers.as_ptr(), numbers.len(), first, state.as_mut_ptr(), state.len()) }
}

fn carry(old: &[u64], state: &mut [u64]) -> u64 {
    unsafe { sys::justrave_carry(old.as_ptr(), old.len(), state.as_mut_ptr(), state.len()) }
}

fn post(state: &mut [u64], place: usize, count: u64) -> u64 {
    unsafe { sys::justrave_post(state.as_mut_ptr(), state.len(), place, count) }
}

fn slot(state: &mut [u64], answer: &mut [u64]) -> u64 {
    unsafe { sys::justrave_slot(state.as_mut_ptr(), state.len(), answer.as_mut_ptr(), answer.len()) }
}

fn run(state: &mut [u64], log: &mut [u8]) -> u64 {
    unsafe { sys::justrave_run(state.as_mut_ptr(), state.len(), log.as_mut_ptr(), log.len()) }
}

fn figures(state: &[u64], place: usize, j: u64, answer: &mut [u64]) -> u64 {
    unsafe { sys::justrave_figures(state.as_ptr(), state.len(), place, j, answer.as_mut_ptr(), answer.len()) }
}

fn chain(state: &[u64], place: usize, names: &[u8], answer: &mut [u64]) -> u64 {
    let answer_length = answer.len();
    let answer = answer.as_mut_ptr();
    unsafe {
        sys::justrave_chain(state.as_ptr(), state.len(), place, names.as_ptr(), names.len(), answer, answer_length)
    }
}

fn lead(state: &[u64], place: usize, log: &[u8], answer: &mut [i64]) -> u64 {
    let answer_length = answer.len();
    let answer = answer.as_mut_ptr();
    unsafe { sys::justrave_lead(state.as_ptr(), state.len(), place, log.as_ptr(), log.len(), answer, answer_length) }
}

fn write(state: &[u64], buffer: &mut [u8], answer: &mut [u64]) -> u64 {
    let answer_length = answer.len();
    let answer = answer.as_mut_ptr();
    unsafe {
        sys::justrave_write(state.as_ptr(), state.len(), buffer.as_mut_ptr(), buffer.len(), answer, answer_length)
    }
}

fn order(table: &[u8], buffer: &mut [u8], answer: &mut [u64]) -> u64 {
    let answer_length = answer.len();
    let answer = answer.as_mut_ptr();
    unsafe {
        sys::justrave_order(table.as_ptr(), table.len(), buffer.as_mut_ptr(), buffer.len(), answer, answer_length)
    }
}

fn account(state: &[u64], place: usize, answer: &mut [u64]) -> u64 {
    unsafe { sys::justrave_account(state.as_ptr(), state.len(), place, answer.as_mut_ptr(), answer.len()) }
}

fn standing(state: &[u64], answer: &mut [u64]) -> u64 {
    unsafe { sys::justrave_standing(state.as_ptr(), state.len(), answer.as_mut_ptr(), answer.len()) }
}

/// T as numbers, with zeros behind its two places.
fn numbers_of_t() -> [u32; NUMBERS] {
    let mut numbers = [0; NUMBERS];
    for (number, byte) in numbers.iter_mut().zip(T) {
        *number = u32::from(byte);
    }
    numbers
}

/// Table T started at slot 0, with one transfer waiting at place 1.
fn started() -> [u64; WORDS] {
    let mut state = [UNTOUCHED; WORDS];
    assert_eq!(start(&T, 0, &mut state), 0);
    assert_eq!(post(&mut state, 1, 1), 0);
    state
}

#[test]
fn the_layout() {
    assert_eq!(unsafe { sys::justrave_layout() }, 3);
}

/// 0 for a room that no state has.
#[test]
fn the_number_of_words() {
    let words = |places| unsafe { sys::justrave_state_words(places) };
    for places in 1..=MOST {
        assert_eq!(words(places), words_for(places));
    }
    for places in [0, MOST + 1, 99, 1 << 32, usize::MAX / 6, usize::MAX] {
        assert_eq!(words(places), 0);
    }
}

/// A call on words that hold nothing but `UNTOUCHED`, with everything else that it is lent.
struct Lent {
    state: Vec<u64>,
    answer: [u64; 2],
    lead: [i64; 1],
    log: Vec<u8>,
}

impl Lent {
    fn with_words(length: usize) -> Lent {
        Lent { state: vec![UNTOUCHED; length], answer: [UNTOUCHED; 2], lead: [-7], log: vec![0xA5; 65_537] }
    }

    fn is_untouched(&self) -> bool {
        self.state.iter().chain(&self.answer).all(|&word| word == UNTOUCHED)
            && self.lead == [-7]
            && self.log.iter().all(|&byte| byte == 0xA5)
    }

    /// The calls that take a state, each with something that would be refused 5, 11 or 13.
    fn outcomes(&mut self) -> [u64; 9] {
        let Lent { state, answer, lead: lead_answer, log } = self;
        // a name for each place that there is room for
        let room = state.len().saturating_sub(3) / 6;
        [
            post(state, 99, 1),
            slot(state, answer),
            run(state, log),
            figures(state, 99, 0, answer),
            chain(state, 99, &log[..room], &mut answer[..1]),
            lead(state, 99, log, lead_answer),
            write(state, log, &mut answer[..1]),
            account(state, 99, answer),
            standing(state, answer),
        ]
    }
}

/// Every length from 0 to one past the words for a place too many. 255 comes exactly where no state has as many words, ahead of 8, 12, 11,
/// 5 and 13, and changes nothing; any other length is looked at, and these words are no state's.
#[test]
fn words_of_every_length() {
    let right: Vec<usize> = (1..=MOST).map(words_for).collect();
    for length in 0..=words_for(MOST + 1) + 1 {
        let mut lent = Lent::with_words(length);
        let is_right = right.contains(&length);
        assert_eq!(lent.outcomes(), [if is_right { 23 } else { 255 }; 9], "{length} words");
        assert!(lent.is_untouched(), "{length} words");
        let started = start(&[], u64::MAX, &mut lent.state);
        assert_eq!(started, if is_right { 8 } else { 255 }, "{length} words");
        assert!(is_right != lent.is_untouched(), "{length} words");
    }
}

/// The same of a start from numbers for each number of places: 255 comes ahead of 1 and 12.
#[test]
fn words_of_every_length_for_numbers() {
    for length in 0..=words_for(MOST + 1) + 1 {
        for places in 1..=MOST {
            let mut state = vec![UNTOUCHED; length];
            let started = start_numbers(&vec![0; numbers_for(places)], u64::MAX, &mut state);
            let (must, left) = if length == words_for(places) { (1, 0) } else { (255, UNTOUCHED) };
            assert_eq!(started, must, "{length} words, numbers for {places}");
            assert!(state.iter().all(|&word| word == left), "{length} words, numbers for {places}");
        }
    }
}

/// What comes of old words of a length in words of a length, all of which hold `UNTOUCHED`: that is no state, and 23 where both lengths are
/// right and the state has the room. Else it is 255, and changes nothing.
fn check_carried_lengths(old_length: usize, length: usize) {
    let (old, mut state) = (vec![UNTOUCHED; old_length], vec![UNTOUCHED; length]);
    let outcome = carry(&old, &mut state);
    let old_room = (1..=OLD_MOST).find(|&places| old_words_for(places) == old_length);
    let room = (1..=MOST).find(|&places| words_for(places) == length);
    let is_right = old_room.zip(room).is_some_and(|(old, room)| old <= room);
    let (must, left) = if is_right { (23, 0) } else { (255, UNTOUCHED) };
    assert_eq!(outcome, must, "{old_length} old words into {length}");
    assert!(state.iter().all(|&word| word == left), "{old_length} old words into {length}");
    assert!(old.iter().all(|&word| word == UNTOUCHED), "{old_length} old words into {length}");
}

/// Every pair of lengths up to one past the words for a place too many; and lengths that are right once cut to 8 bits or to 16.
#[test]
fn old_words_and_new_of_every_length() {
    for old_length in 0..=old_words_for(OLD_MOST + 1) + 1 {
        for length in 0..=words_for(MOST + 1) + 1 {
            check_carried_lengths(old_length, length);
        }
    }
    for cut in [256, 65_536] {
        for places in 1..=OLD_MOST {
            check_carried_lengths(cut + old_words_for(places), words_for(MOST));
            check_carried_lengths(old_words_for(places), cut + words_for(MOST));
            check_carried_lengths(cut + old_words_for(places), cut + words_for(places));
        }
    }
}

/// 255 comes ahead of 23, 11 and 5 too, and a slot is then not done.
#[test]
fn an_answer_of_another_length() {
    for state in [started(), [u64::MAX; WORDS]] {
        for length in 0..=4 {
            let mut kept = state;
            let (mut answer, mut lead_answer) = (vec![UNTOUCHED; length], vec![-7; length]);
            let mut buffer = [0xA5; 20];
            if length != 2 {
                assert_eq!(slot(&mut kept, &mut answer), 255);
                assert_eq!(figures(&kept, 99, 0, &mut answer), 255);
                assert_eq!(account(&kept, 99, &mut answer), 255);
                assert_eq!(standing(&kept, &mut answer), 255);
            }
            if length != 1 {
                assert_eq!(chain(&kept, 99, &[99; ROOM], &mut answer), 255);
                assert_eq!(lead(&kept, 99, &[], &mut lead_answer), 255);
                assert_eq!(write(&kept, &mut buffer, &mut answer), 255);
            }
            assert_eq!(kept, state);
            assert_eq!(buffer, [0xA5; 20]);
            assert!(answer.iter().all(|&word| word == UNTOUCHED) && lead_answer.iter().all(|&lead| lead == -7));
        }
    }
}

/// 255 comes ahead of 8, 3, 10, 6, 15 and 14, and of an order that would be found.
#[test]
fn an_order_with_an_answer_of_another_length() {
    let tables: [&[u8]; 7] =
        [&[], &[4, 1, 9], &[4, 1, 1, 8, 1, 4, 0], &[4, 2, 3, 4, 1, 2, 2, 4, 1, 8], &[4, 1, 1, 8, 1, 3], &LISTED, &T];
    for table in tables {
        for length in [0, 2, 3, 99] {
            for room in [0, 20] {
                let (mut answer, mut buffer) = (vec![UNTOUCHED; length], vec![0xA5; room]);
                assert_eq!(order(table, &mut buffer, &mut answer), 255, "{table:?}, {length} words");
                assert!(answer.iter().all(|&word| word == UNTOUCHED) && buffer.iter().all(|&byte| byte == 0xA5));
            }
        }
    }
}

/// Every length from 0 to one past the numbers for a place too many, in every room: 255 comes ahead of 1 and 12, and changes nothing.
#[test]
fn numbers_of_every_length() {
    for places in 1..=MOST {
        for length in 0..=numbers_for(MOST + 1) + 1 {
            let mut state = vec![UNTOUCHED; words_for(places)];
            let outcome = start_numbers(&vec![0; length], u64::MAX, &mut state);
            let (must, left) = if length == numbers_for(places) { (1, 0) } else { (255, UNTOUCHED) };
            assert_eq!(outcome, must, "{length} numbers, room for {places}");
            assert!(state.iter().all(|&word| word == left), "{length} numbers, room for {places}");
        }
    }
}

/// Every number of names from 0 to two more than there are places, and two that are the right one once cut to 8 bits or to 16, in every
/// room: 255 comes ahead of 23, 11 and 16, and changes nothing.
#[test]
fn names_of_every_length() {
    for room in 1..=MOST {
        let mut sound = vec![UNTOUCHED; words_for(room)];
        assert_eq!(start(&table_of(1, room).0, 0, &mut sound), 0);
        let broken = vec![UNTOUCHED; words_for(room)];
        for length in (0..=MOST + 2).chain([256 + room, 65_536 + room]) {
            for (state, place, name, outcome) in [
                (&sound, 0, 255, 0),
                (&sound, 1, 255, 11),
                (&sound, 0, 1, 11),
                (&sound, 0, 0, 16 + 256),
                (&broken, 1, 1, 23),
            ] {
                let mut answer = [UNTOUCHED];
                let must = if length == room { outcome } else { 255 };
                assert_eq!(
                    chain(state, place, &vec![name; length], &mut answer),
                    must,
                    "{length} names, room for {room}"
                );
                assert_eq!(answer == [UNTOUCHED], must != 0, "{length} names, room for {room}");
            }
        }
    }
}

/// A table of so many places, as bytes and as numbers for a room. N stands in the numbers even where it is above the room. The lowest of 64
/// places has a finish figure of 64 x 64 slots.
fn table_of(places: usize, room: usize) -> (Vec<u8>, Vec<u32>) {
    let mut bytes = vec![64, places as u8];
    let mut numbers = vec![64, places as u32];
    for _ in 0..places {
        bytes.extend([1, 64, 1, 0x80, 0x20]);
        numbers.extend([1, 64, 1, 4_096]);
    }
    numbers.resize(numbers_for(room), 0);
    (bytes, numbers)
}

/// Each N in each room: a table that does not fit is refused 2, and every other makes a state that goes on.
#[test]
fn every_table_in_every_room() {
    for room in 1..=MOST {
        for places in 1..=MOST + 1 {
            let (bytes, numbers) = table_of(places, room);
            let (mut from_bytes, mut from_numbers) =
                (vec![UNTOUCHED; words_for(room)], vec![UNTOUCHED; words_for(room)]);
            let must = if places > room { 2 } else { 0 };
            assert_eq!(start(&bytes, 70, &mut from_bytes), must, "{places} places, room for {room}");
            assert_eq!(start_numbers(&numbers, 70, &mut from_numbers), must, "{places} places, room for {room}");
            assert_eq!(from_bytes, from_numbers);
            if must == 0 {
                let mut answer = [UNTOUCHED; 2];
                assert_eq!(post(&mut from_bytes, places - 1, 1), 0);
                assert_eq!((slot(&mut from_bytes, &mut answer), answer), (0, [70, places as u64]));
                assert_eq!((standing(&from_bytes, &mut answer), answer), (0, [71, places as u64]));
                assert_eq!((account(&from_bytes, places - 1, &mut answer), answer), (0, [1, 0]));
                assert_eq!(account(&from_bytes, places, &mut answer), 11);
            } else {
                assert!(from_bytes.iter().all(|&word| word == 0));
            }
        }
    }
}

#[test]
fn a_refused_start_clears_the_words() {
    for (table, first, outcome) in [
        (&T[..9], 0, 8),
        (&T[..], (1 << 62) + 1, 12),
        (&[4, 2, 1, 8, 1, 4, 1, 4, 1, 6], 0, 7 + 256 * 2),
        (&[4, 1, 9], 0, 3 + 256),
        (&[4, 2, 1, 8, 3, 12], 0, 17 + 256),
        (&[4, 2, 1, 8, 1, 4, 1, 4, 2, 99, 0], u64::MAX, 17 + 256 * 2),
    ] {
        let mut state = [UNTOUCHED; WORDS];
        assert_eq!(start(table, first, &mut state), outcome);
        assert_eq!(state, [0; WORDS]);
    }
}

/// The words may hold anything before, and those behind the old state's are 0.
#[test]
fn old_words_are_carried_over() {
    for room in 2..=MOST {
        let (old, mut state) = (OLD, vec![UNTOUCHED; words_for(room)]);
        assert_eq!(carry(&old, &mut state), 0, "room for {room}");
        let (mut started, mut answer) = (vec![UNTOUCHED; words_for(room)], [UNTOUCHED; 2]);
        assert_eq!(start(&T, 70, &mut started), 0);
        assert_eq!((old, &state[words_for(2)..]), (OLD, &started[words_for(2)..]), "room for {room}");
        assert_eq!((standing(&state, &mut answer), answer), (0, [70, 2]));
        assert_eq!((account(&state, 0, &mut answer), answer), (0, [5, 3]));
        assert_eq!((account(&state, 1, &mut answer), answer), (0, [6, 0]));
        assert_eq!((slot(&mut state, &mut answer), answer), (0, [70, 1]));
        let mut bytes = [0xA5; T.len()];
        assert_eq!((write(&state, &mut bytes, &mut answer[..1]), bytes), (0, T));
    }
}

/// Each number of places that there was room for, in each room: N may be the room, and one more is 23.
#[test]
fn old_words_of_every_number_of_places() {
    for places in 1..=OLD_MOST {
        let mut old = vec![64, places as u64, 70];
        old.extend([1, 64, 1, 4_096, 64, 0].repeat(places));
        for room in places..=MOST {
            let (mut state, mut started) = (vec![UNTOUCHED; words_for(room)], vec![UNTOUCHED; words_for(room)]);
            assert_eq!(start(&table_of(places, room).0, 70, &mut started), 0);
            assert_eq!((carry(&old, &mut state), &state), (0, &started), "{places} places, room for {room}");
            old[1] += 1;
            assert_eq!(carry(&old, &mut state), 23, "{places} places, room for {room}");
            assert!(state.iter().all(|&word| word == 0), "{places} places, room for {room}");
            old[1] -= 1;
        }
    }
}

/// 23 clears the words, and leaves the old ones.
#[test]
fn refused_old_words_clear_the_words() {
    for (at, word) in [(0, 0), (1, 3), (2, (1 << 62) + 1), (3, 4), (7, 9), (8, 65_536), (13, 8), (14, u64::MAX)] {
        let mut old = OLD;
        old[at] = word;
        let (kept, mut state) = (old, [UNTOUCHED; WORDS]);
        assert_eq!((carry(&old, &mut state), state, old), (23, [0; WORDS], kept), "word {at} is {word}");
    }
}

#[test]
fn a_start_from_numbers_is_the_start_from_bytes() {
    let (mut from_numbers, mut from_bytes) = ([UNTOUCHED; WORDS], [UNTOUCHED; WORDS]);
    assert_eq!(start_numbers(&numbers_of_t(), 70, &mut from_numbers), 0);
    assert_eq!(start(&T, 70, &mut from_bytes), 0);
    assert_eq!(from_numbers, from_bytes);
}

#[test]
fn a_refused_start_from_numbers_clears_the_words() {
    for (at, number, first, outcome) in [
        (0, 0, 0, 1),
        (1, 4, 0, 2),
        (1, MOST as u32 + 1, 0, 2),
        (NUMBERS - 1, 1, 0, 2),
        (2, 5, 0, 3 + 256),
        (7, 3, 0, 4 + 256 * 2),
        (9, u32::MAX, 0, 5 + 256 * 2),
        (4, 3, u64::MAX, 17 + 256),
        (8, 2, 0, 17 + 256 * 2),
        (8, u32::MAX, 0, 5 + 256 * 2),
        (6, 4, 0, 6),
        (9, 6, u64::MAX, 7 + 256 * 2),
        (9, 7, (1 << 62) + 1, 12),
    ] {
        let mut numbers = numbers_of_t();
        numbers[at] = number;
        let mut state = [UNTOUCHED; WORDS];
        assert_eq!(start_numbers(&numbers, first, &mut state), outcome, "number {at} is {number}");
        assert_eq!(state, [0; WORDS]);
    }
}

/// Cleared words, as a refused start leaves them, are no state: every call is refused 23 and writes nothing.
#[test]
fn cleared_words_are_no_state() {
    let (mut state, mut other) = ([0; WORDS], [UNTOUCHED; WORDS]);
    let (mut answer, mut lead_answer, mut log) = ([UNTOUCHED; 2], [-7], [0xA5; 20]);
    assert_eq!((carry(&[0; old_words_for(ROOM)], &mut other), other), (23, [0; WORDS]));
    assert_eq!(post(&mut state, 99, 1), 23);
    assert_eq!(slot(&mut state, &mut answer), 23);
    assert_eq!(run(&mut state, &mut log), 23);
    assert_eq!(figures(&state, 99, 0, &mut answer), 23);
    assert_eq!(chain(&state, 99, &[0; ROOM], &mut answer[..1]), 23);
    assert_eq!(lead(&state, 99, &log, &mut lead_answer), 23);
    assert_eq!(write(&state, &mut log, &mut answer[..1]), 23);
    assert_eq!(account(&state, 99, &mut answer), 23);
    assert_eq!(standing(&state, &mut answer), 23);
    assert_eq!((state, answer, lead_answer, log), ([0; WORDS], [UNTOUCHED; 2], [-7], [0xA5; 20]));
}

/// A need above its burst, which 23 does not look at: the calls on its state are served, and a writing is refused ahead of 7 and 14, and
/// names the lower place of two.
#[test]
fn a_need_above_its_burst_is_not_written() {
    for (needs, outcome) in [([3, 1], 17 + 256), ([1, 2], 17 + 256 * 2), ([255, 255], 17 + 256), ([2, 1], 7 + 256)] {
        let (mut old, mut state) = (OLD, [UNTOUCHED; WORDS]);
        // the needs of T's two places, behind rate and burst
        (old[old_words_for(0) + 2], old[old_words_for(1) + 2]) = (needs[0], needs[1]);
        assert_eq!(carry(&old, &mut state), 0, "{needs:?}");
        let (kept, mut answer, mut buffer) = (state, [UNTOUCHED], [0xA5; 20]);
        for room in [0, 20] {
            assert_eq!(write(&state, &mut buffer[..room], &mut answer), outcome, "{needs:?} into {room} bytes");
        }
        assert_eq!((state, answer, buffer), (kept, [UNTOUCHED], [0xA5; 20]), "{needs:?}");
        assert_eq!(post(&mut state, 0, 1), 0, "{needs:?}");
    }
}

#[test]
fn refused_calls_write_nothing() {
    let mut state = started();
    let kept = state;
    let (mut answer, mut lead_answer, mut log) = ([UNTOUCHED; 2], [-7], vec![0xA5; 65_537]);
    assert_eq!(post(&mut state, 2, 1), 11);
    for count in [65_535, 1 << 32, (1 << 32) + 1, u64::MAX] {
        assert_eq!(post(&mut state, 1, count), 21);
    }
    assert_eq!(run(&mut state, &mut log), 13);
    assert_eq!(figures(&state, 2, 1, &mut answer), 11);
    for transfers in [0, 256, (1 << 32) + 1, u64::MAX] {
        assert_eq!(figures(&state, 1, transfers, &mut answer), 5 + 256 * 2);
    }
    assert_eq!(lead(&state, 2, &log, &mut lead_answer), 11);
    assert_eq!(lead(&state, 1, &log, &mut lead_answer), 13);
    assert_eq!(write(&state, &mut log[..9], &mut answer[..1]), 14);
    assert_eq!(account(&state, 2, &mut answer), 11);
    assert_eq!((state, answer, lead_answer), (kept, [UNTOUCHED; 2], [-7]));
    assert!(log.iter().all(|&byte| byte == 0xA5));
}

/// What stands past T's two places makes no difference.
#[test]
fn refused_chains_write_nothing() {
    let state = started();
    for (place, names, outcome) in [
        (2, [255, 255, 255], 11),
        (99, [255, 255, 255], 11),
        (usize::MAX, [255, 255, 255], 11),
        (1 << 32, [255, 255, 255], 11),
        (0, [2, 255, 255], 11),
        (0, [255, 2, 255], 11),
        (1, [254, 255, 255], 11),
        (2, [0, 0, 255], 11),
        (0, [0, 2, 255], 11),
        (0, [0, 255, 255], 16 + 256),
        (0, [255, 1, 255], 16 + 256 * 2),
        (0, [1, 1, 255], 16 + 256 * 2),
        (1, [1, 0, 255], 16 + 256),
        (1, [0, 1, 2], 16 + 256),
    ] {
        let mut answer = [UNTOUCHED];
        assert_eq!(chain(&state, place, &names, &mut answer), outcome, "place {place}, {names:?}");
        assert_eq!((state, answer), (started(), [UNTOUCHED]), "place {place}, {names:?}");
    }
}

/// Names of a chain of so many places, from the last to the first. What stands past the last place would be circles.
fn one_chain(places: usize, room: usize) -> Vec<u8> {
    let mut names: Vec<u8> = (0..room as u8).collect();
    names[..places].rotate_right(1);
    names[0] = 255;
    names
}

/// The same chain with one name changed is refused, whichever place is asked for: closed to a ring of all places, with a last place that
/// follows one too many, and with a ring of the last two.
fn check_broken_chains(state: &[u64], places: usize, room: usize) {
    let broken = |at: usize, name: usize| {
        let mut names = one_chain(places, room);
        names[at] = name as u8;
        names
    };
    let mut all = vec![(broken(0, places - 1), 16 + 256), (broken(places - 1, places), 11)];
    if places >= 2 {
        // the lower of the two is place N - 2, and an outcome has the place plus 1
        all.push((broken(places - 2, places - 1), 16 + 256 * (places as u64 - 1)));
    }
    for (names, outcome) in all {
        for place in 0..places {
            let mut answer = [UNTOUCHED];
            let told = (chain(state, place, &names, &mut answer), answer);
            assert_eq!(told, (outcome, [UNTOUCHED]), "place {place} of {places} in {room}, {names:?}");
        }
    }
}

/// In each room, a chain of as many places as there are, from the last to the first: its figure is the sum of what figures answers.
#[test]
fn a_chain_of_every_number_of_places() {
    for room in 1..=MOST {
        for places in 1..=room {
            let mut state = vec![UNTOUCHED; words_for(room)];
            assert_eq!(start(&table_of(places, room).0, 0, &mut state), 0);
            let names = one_chain(places, room);
            let (mut answer, mut of_one, mut sum) = ([UNTOUCHED], [UNTOUCHED; 2], 0);
            for place in 0..places {
                assert_eq!(figures(&state, place, 1, &mut of_one), 0);
                sum += of_one[1];
                assert_eq!((chain(&state, place, &names, &mut answer), answer), (0, [sum]), "{places} in {room}");
            }
            check_broken_chains(&state, places, room);
        }
    }
}

#[test]
fn refused_orders_write_nothing() {
    for (table, room, outcome) in [
        (&[][..], 20, 8),
        (&LISTED[..9], 20, 8),
        (&[0x84, 0], 20, 9),
        (&[0], 20, 1),
        (&[4, MOST as u8 + 1], 20, 2),
        (&[4, 2, 1, 4, 1, 7, 5], 20, 3 + 256 * 2),
        (&[4, 2, 1, 3], 20, 4 + 256),
        (&[4, 2, 1, 4, 1, 7, 1, 8, 1, 0], 20, 5 + 256 * 2),
        (&[4, 2, 1, 4, 2, 7], 20, 17 + 256),
        (&[4, 2, 1, 4, 1, 6, 1, 8, 3, 4, 0], 0, 17 + 256 * 2),
        (&[4, 2, 1, 4, 1, 7, 1, 8, 1, 4, 0], 20, 10),
        (&[4, 2, 3, 4, 1, 2, 2, 4, 1, 8], 20, 6),
        (&[4, 2, 1, 4, 1, 6, 1, 8, 1, 4], 20, 15),
        (&[4, 2, 1, 4, 1, 6, 1, 8, 1, 4], 0, 15),
        (&LISTED, 9, 14),
        (&LISTED, 0, 14),
    ] {
        let (mut answer, mut buffer) = ([UNTOUCHED], vec![0xA5; room]);
        assert_eq!(order(table, &mut buffer, &mut answer), outcome, "{table:?} into {room} bytes");
        assert_eq!((answer, buffer), ([UNTOUCHED], vec![0xA5; room]), "{table:?} into {room} bytes");
    }
}

/// An order of as many requestors as there may be, and of one more.
#[test]
fn an_order_of_every_number_of_requestors() {
    for places in 1..=MOST + 1 {
        let (bytes, _) = table_of(places, MOST);
        let (mut buffer, mut answer) = (vec![0xA5; bytes.len()], [UNTOUCHED]);
        if places <= MOST {
            assert_eq!(order(&bytes, &mut buffer, &mut answer), 0, "{places} requestors");
            assert_eq!((&buffer, answer), (&bytes, [bytes.len() as u64]));
        } else {
            assert_eq!((order(&bytes, &mut buffer, &mut answer), answer), (2, [UNTOUCHED]));
        }
    }
}

/// Accepted calls, each with memory on both sides of what it is lent.
#[test]
fn nothing_is_written_beside_lent_memory() {
    let mut memory = [UNTOUCHED; WORDS + 2];
    let state = &mut memory[1..=WORDS];
    let mut answer = [UNTOUCHED; 4];
    let mut log = [0xA5; 22];
    assert_eq!(start(&T, 0, state), 0);
    assert_eq!(post(state, 1, 2), 0);
    assert_eq!(slot(state, &mut answer[1..3]), 0);
    assert_eq!(answer, [UNTOUCHED, 0, 2, UNTOUCHED]);
    assert_eq!(run(state, &mut log[1..4]), 0);
    assert_eq!(log[..5], [0xA5, 255, 255, 1, 0xA5]);
    assert_eq!(figures(state, 1, 1, &mut answer[1..3]), 0);
    assert_eq!(answer, [UNTOUCHED, 3, 7, UNTOUCHED]);
    assert_eq!(write(state, &mut log[1..21], &mut answer[1..2]), 0);
    assert_eq!(answer, [UNTOUCHED, 10, 7, UNTOUCHED]);
    assert_eq!(chain(state, 1, &[255, 0, 255], &mut answer[1..2]), 0);
    assert_eq!(answer, [UNTOUCHED, 11, 7, UNTOUCHED]);
    assert_eq!(account(state, 1, &mut answer[1..3]), 0);
    assert_eq!(answer, [UNTOUCHED, 0, 0, UNTOUCHED]);
    assert_eq!(standing(state, &mut answer[1..3]), 0);
    assert_eq!(answer, [UNTOUCHED, 4, 2, UNTOUCHED]);
    assert_eq!((log[0], &log[1..11], &log[11..]), (0xA5, &T[..], &[0xA5; 11][..]));
    assert_eq!((memory[0], memory[WORDS + 1]), (UNTOUCHED, UNTOUCHED));
}

#[test]
fn carrying_over_writes_nothing_beside_lent_memory() {
    let (mut memory, mut old) = ([UNTOUCHED; WORDS + 2], [UNTOUCHED; OLD.len() + 2]);
    old[1..=OLD.len()].copy_from_slice(&OLD);
    let kept = old;
    assert_eq!(carry(&old[1..=OLD.len()], &mut memory[1..=WORDS]), 0);
    assert_eq!((memory[0], memory[WORDS + 1], old), (UNTOUCHED, UNTOUCHED, kept));
    old[1] = 0;
    assert_eq!(carry(&old[1..=OLD.len()], &mut memory[1..=WORDS]), 23);
    assert_eq!((memory[0], &memory[1..=WORDS], memory[WORDS + 1]), (UNTOUCHED, &[0; WORDS][..], UNTOUCHED));
}

#[test]
fn an_order_writes_nothing_beside_lent_memory() {
    let (mut buffer, mut answer) = ([0xA5; 22], [UNTOUCHED; 3]);
    assert_eq!(order(&LISTED, &mut buffer[1..21], &mut answer[1..2]), 0);
    assert_eq!((buffer[0], &buffer[1..11], &buffer[11..]), (0xA5, &T[..], &[0xA5; 11][..]));
    assert_eq!(answer, [UNTOUCHED, 10, UNTOUCHED]);
}

/// With length 0 nothing is read or written behind a pointer, and it may be null.
#[test]
fn null_of_length_0_may_be_lent() {
    use core::ptr::{null, null_mut};
    let mut state = started();
    let kept = state;
    let (words, mut lead_answer, mut length) = (state.as_mut_ptr(), [-7], [UNTOUCHED]);
    // SAFETY: each pointer has its length behind it, and behind the null ones that is nothing.
    unsafe {
        assert_eq!(sys::justrave_run(words, WORDS, null_mut(), 0), 0);
        assert_eq!(sys::justrave_lead(words, WORDS, 1, null(), 0, lead_answer.as_mut_ptr(), 1), 0);
        assert_eq!(sys::justrave_write(words, WORDS, null_mut(), 0, length.as_mut_ptr(), 1), 14);
        assert_eq!(sys::justrave_chain(words, WORDS, 1, null(), 0, length.as_mut_ptr(), 1), 255);
        assert_eq!(sys::justrave_chain(words, WORDS, 1, [255; ROOM].as_ptr(), ROOM, null_mut(), 0), 255);
        assert_eq!(sys::justrave_chain(null(), 0, 1, null(), 0, null_mut(), 0), 255);
        assert_eq!(sys::justrave_slot(words, WORDS, null_mut(), 0), 255);
        assert_eq!(sys::justrave_account(words, WORDS, 1, null_mut(), 0), 255);
        assert_eq!(sys::justrave_standing(null(), 0, null_mut(), 0), 255);
        assert_eq!(sys::justrave_post(null_mut(), 0, 1, 1), 255);
        assert_eq!(sys::justrave_start_numbers(null(), 0, 0, words, WORDS), 255);
        assert_eq!(sys::justrave_carry(null(), 0, words, WORDS), 255);
        assert_eq!(sys::justrave_carry(OLD.as_ptr(), OLD.len(), null_mut(), 0), 255);
        assert_eq!(sys::justrave_carry(null(), 0, null_mut(), 0), 255);
        assert_eq!((state, lead_answer, length), (kept, [0], [UNTOUCHED]));
        assert_eq!(sys::justrave_start(null(), 0, 0, state.as_mut_ptr(), WORDS), 8);
    }
    assert_eq!(state, [0; WORDS]);
}

/// The same of an order, which is lent no state.
#[test]
fn null_of_length_0_may_be_lent_to_an_order() {
    use core::ptr::{null, null_mut};
    let (mut buffer, mut answer) = ([0xA5; 20], [UNTOUCHED]);
    let (bytes, words) = (buffer.as_mut_ptr(), answer.as_mut_ptr());
    // SAFETY: each pointer has its length behind it, and behind the null ones that is nothing.
    unsafe {
        assert_eq!(sys::justrave_order(null(), 0, bytes, 20, words, 1), 8);
        assert_eq!(sys::justrave_order(LISTED.as_ptr(), 10, null_mut(), 0, words, 1), 14);
        assert_eq!(sys::justrave_order(null(), 0, null_mut(), 0, words, 1), 8);
        assert_eq!(sys::justrave_order(LISTED.as_ptr(), 10, bytes, 20, null_mut(), 0), 255);
        assert_eq!(sys::justrave_order(null(), 0, null_mut(), 0, null_mut(), 0), 255);
    }
    assert_eq!((buffer, answer), ([0xA5; 20], [UNTOUCHED]));
}

#[test]
fn empty_memory_may_be_lent() {
    let mut state = started();
    let kept = state;
    let mut lead_answer = [-7];
    assert_eq!(run(&mut state, &mut []), 0);
    assert_eq!(lead(&state, 1, &[], &mut lead_answer), 0);
    assert_eq!((state, lead_answer), (kept, [0]));
    assert_eq!((carry(&[], &mut state), carry(&OLD, &mut [])), (255, 255));
    assert_eq!(state, kept);
    let mut answer = [UNTOUCHED];
    assert_eq!(order(&[], &mut [], &mut answer), 8);
    assert_eq!(order(&LISTED, &mut [], &mut answer), 14);
    assert_eq!(answer, [UNTOUCHED]);
}
