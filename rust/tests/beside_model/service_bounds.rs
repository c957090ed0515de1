//! Clauses 5.7 to 5.10 and 10.1 to 10.5, seen from outside: lists of posts and slots from accepted starts, refused ones among them. Grants
//! are the product's answers; backlogs and credits are the model's, which is told the same calls.

use justrave::{Arbiter, SlotAnswer, Slots, Transfers};

use crate::model::{Account, State, Table, IDLE, MAX_PLACES, MAX_SLOT, OLD_PLACES};
use crate::support::chance::{rounds, Chance};
use crate::support::{calls, tables};

/// An accepted slot: the accounts directly before it, and the place that the product granted.
struct Moment {
    before: Vec<Account>,
    granted: Option<usize>,
}

/// A list of calls as it goes on.
struct Seen {
    product: Arbiter,
    model: State,
    table: Table,
    /// Transfers accepted in posts to each place.
    accepted: Vec<u64>,
    moments: Vec<Moment>,
}

impl Seen {
    fn start(table: Table, first: u64) -> Seen {
        let bytes = table.bytes();
        let product = Arbiter::start(&bytes, Slots(first)).expect("the table is accepted");
        let model = State::start(&bytes, first).expect("the table is accepted");
        Seen { product, model, table, accepted: vec![0; table.count as usize], moments: Vec::new() }
    }

    fn places(&self) -> usize {
        self.table.count as usize
    }

    fn post(&mut self, place: usize, count: u64) {
        let told = self.product.post(place, Transfers(count));
        assert_eq!(told.is_ok(), self.model.post(place, count).is_ok());
        if told.is_ok() {
            self.accepted[place] += count;
        }
    }

    fn slot(&mut self) {
        let told = self.product.slot().map(|answer| match answer {
            SlotAnswer::Granted(stamp, place) => (stamp.0, Some(place)),
            SlotAnswer::Idle(stamp) => (stamp.0, None),
        });
        if self.model.slot == MAX_SLOT {
            assert_eq!(told.expect_err("no slot is left").number, 22);
            return;
        }
        let (stamp, granted) = told.expect("the slot is accepted");
        assert_eq!(stamp, self.model.slot, "the stamp is the present slot number");
        self.keep(granted);
    }

    /// A run is so many slots, or none where it is refused.
    fn run(&mut self, length: usize) {
        let mut log = vec![0; length];
        if self.product.run(&mut log).is_ok() {
            log.iter().for_each(|&byte| self.keep((byte != IDLE).then_some(byte.into())));
        } else {
            assert!(self.model.slot + length as u64 > MAX_SLOT);
        }
    }

    /// Keeps an accepted slot in mind, and lets the rule go on by it.
    fn keep(&mut self, granted: Option<usize>) {
        let before = self.model.accounts[..self.places()].to_vec();
        self.moments.push(Moment { before, granted });
        let (_, by_the_rule) = self.model.slot().expect("the slot is accepted");
        assert_eq!(granted, by_the_rule);
    }

    /// Clauses 5.8 and 5.10.
    fn check_moment(&self) {
        let (mut credits, mut bursts) = (0, 0);
        for place in 0..self.places() {
            credits += self.model.accounts[place].credit;
            bursts += self.table.requestors[place].burst;
            assert!(credits <= bursts, "credits of places 0 to {place}");
            let granted = self.grants(place, 0, self.moments.len());
            assert_eq!(
                self.accepted[place],
                granted + self.model.accounts[place].backlog,
                "transfers of place {place}"
            );
        }
    }

    /// Grants to a place in the slots from..to of the list.
    fn grants(&self, place: usize, from: usize, to: usize) -> u64 {
        self.moments[from..to].iter().filter(|moment| moment.granted == Some(place)).count() as u64
    }
}

/// How often a bound said something: a promise that is never put to the test is not tested.
#[derive(Default, Debug)]
struct Bites {
    floor: u64,
    ceiling: u64,
    need: u64,
}

impl Bites {
    /// The floor of clause 10.3, in every stretch from here that the place enters with credit for a transfer and waits through.
    fn floor(&mut self, seen: &Seen, place: usize, from: usize) {
        let (table, row) = (&seen.table, &seen.table.requestors[place]);
        let (left, above) = (table.rate_left(place), table.bursts_above(place));
        if seen.moments[from].before[place].credit < table.denominator {
            return;
        }
        let mut grants = 0;
        let waiting = seen.moments[from..].iter().take_while(|moment| moment.before[place].backlog > 0);
        for (moment, length) in waiting.zip(1..) {
            grants += u64::from(moment.granted == Some(place));
            assert!(
                left * table.denominator * grants + row.rate * above >= row.rate * left * length,
                "floor of place {place} over {length} slots from {from}"
            );
            self.floor += u64::from(left * length > above);
        }
    }

    /// The ceiling of clause 10.4, in every stretch from here.
    fn ceiling(&mut self, seen: &Seen, k: usize, from: usize) {
        let first = &seen.table.used()[..k];
        let bursts: u64 = first.iter().map(|row| row.burst).sum();
        let rates: u64 = first.iter().map(|row| row.rate).sum();
        let mut grants = 0;
        for (moment, length) in seen.moments[from..].iter().zip(1..) {
            grants += u64::from(moment.granted.is_some_and(|place| place < k));
            let used = seen.table.denominator * grants;
            assert!(used <= bursts + length * rates, "ceiling of the first {k} over {length} slots from {from}");
            self.ceiling += u64::from(used + seen.table.denominator > bursts + length * rates);
        }
    }

    /// The need of clause 10.5, looked at where the place has credit for a transfer.
    fn need(&mut self, seen: &Seen, place: usize, from: usize) {
        let row = &seen.table.requestors[place];
        let entered = seen.moments[from].before[place];
        let to = from + row.within as usize;
        if entered.credit >= seen.table.denominator && entered.backlog >= row.need && to <= seen.moments.len() {
            assert!(seen.grants(place, from, to) >= row.need, "need of place {place} from {from}");
            self.need += 1;
        }
    }

    fn check(&mut self, seen: &Seen) {
        for from in 0..seen.moments.len() {
            for place in 0..seen.places() {
                self.floor(seen, place, from);
                self.ceiling(seen, place + 1, from);
                self.need(seen, place, from);
            }
        }
    }
}

/// How a place behaves in a list: how many it posts, and how often.
fn habits(chance: &mut Chance, places: usize) -> Vec<(u64, u64)> {
    (0..places).map(|_| chance.pick(&[(1, 3), (2, 9), (6, 25), (65_535, 40), (1, 1)])).collect()
}

/// The posts before a slot.
fn posts(chance: &mut Chance, habits: &[(u64, u64)]) -> Vec<(usize, u64)> {
    let due = habits.iter().enumerate().filter(|(_, habit)| chance.one_in(habit.1));
    due.map(|(place, habit)| (place, habit.0)).collect()
}

fn list_of_calls(chance: &mut Chance, table: Table, first: u64) -> Seen {
    let mut seen = Seen::start(table, first);
    let habits = habits(chance, seen.places());
    while seen.moments.len() < 110 && seen.model.slot < MAX_SLOT {
        for (place, count) in posts(chance, &habits) {
            seen.post(place, count);
        }
        match chance.within(0, 9) {
            0 => seen.run(chance.index(12)),
            1 => refuse(chance, &mut seen),
            _ => seen.slot(),
        }
        seen.check_moment();
    }
    seen
}

/// Posts that may be refused, 11 and 21 among them.
fn refuse(chance: &mut Chance, seen: &mut Seen) {
    let place = calls::place(chance, &seen.model);
    let before = seen.product.clone();
    if place >= seen.places() {
        assert_eq!(seen.product.post(place, Transfers(1)).expect_err("there is no such place").number, 11);
        assert_eq!(seen.product, before);
    } else {
        seen.post(place, calls::count(chance, &seen.model));
    }
}

#[test]
fn floor_ceiling_and_need() {
    let mut chance = Chance::of("floor, ceiling, need");
    let mut bites = Bites::default();
    for _ in 0..rounds(150) {
        let table = tables::tight(&mut chance);
        bites.check(&list_of_calls(&mut chance, table, 0));
    }
    println!("bounds that said something: {bites:?}");
    assert!(bites.floor > 10_000 && bites.ceiling > 1_000 && bites.need > 1_000);
}

/// The same on lines of more places than the old limit allowed.
#[test]
fn floor_ceiling_and_need_of_many_places() {
    let mut chance = Chance::of("many places");
    let mut bites = Bites::default();
    for _ in 0..rounds(10) {
        let count = chance.within(OLD_PLACES as u64 + 1, MAX_PLACES as u64);
        let table = tables::tight_of(&mut chance, count);
        bites.check(&list_of_calls(&mut chance, table, 0));
    }
    println!("bounds that said something: {bites:?}");
    assert!(bites.floor > 1_000 && bites.ceiling > 100 && bites.need > 10);
}

/// Clause 8.4: the bounds of a table that an order made are those of its own places.
#[test]
fn floor_ceiling_and_need_of_an_ordered_table() {
    let mut chance = Chance::of("an ordered table");
    let (mut bites, mut moved) = (Bites::default(), 0);
    for _ in 0..rounds(100) {
        let list = tables::listed(&mut chance, 5);
        let mut buffer = [0; Arbiter::TABLE_ROOM];
        if let Ok(length) = justrave::order(&list.bytes(), &mut buffer) {
            let table = Table::read(&buffer[..length]).expect("the table is accepted");
            bites.check(&list_of_calls(&mut chance, table, 0));
            moved += u64::from(table != list);
        }
    }
    println!("tables with other places than in the list: {moved}, bounds that said something: {bites:?}");
    assert!(moved > 10 && bites.floor > 1_000 && bites.ceiling > 100 && bites.need > 100);
}

/// Clause 5.7: the list runs up against the last slot number, and goes on with refused slots.
#[test]
fn lists_at_the_last_slot() {
    let mut chance = Chance::of("the last slot");
    for _ in 0..rounds(50) {
        let table = tables::tight(&mut chance);
        let mut seen = list_of_calls(&mut chance, table, MAX_SLOT - 60);
        assert_eq!(seen.model.slot, MAX_SLOT);
        seen.slot();
        seen.run(1);
        assert_eq!(seen.moments.len(), 60);
        Bites::default().check(&seen);
    }
}

/// The grants of places 0 to k, slot by slot, with the given posts to them and other posts below.
fn grants_down_to(k: usize, table: Table, above: &[Vec<(usize, u64)>], chance: &mut Chance) -> Vec<Option<usize>> {
    let mut seen = Seen::start(table, 0);
    let habits = habits(chance, seen.places());
    for due in above {
        let below = posts(chance, &habits).into_iter().filter(|&(place, _)| place > k);
        due.iter().copied().chain(below).for_each(|(place, count)| seen.post(place, count));
        seen.slot();
    }
    seen.moments.iter().map(|moment| moment.granted.filter(|&place| place <= k)).collect()
}

/// Clause 5.9: posts below a place change nothing for it and those above.
#[test]
fn isolation() {
    let mut chance = Chance::of("isolation");
    for _ in 0..rounds(200) {
        let table = tables::tight(&mut chance);
        let k = chance.index(table.count as usize);
        let habits = habits(&mut chance, k + 1);
        let above: Vec<_> = (0..100).map(|_| posts(&mut chance, &habits)).collect();
        let one = grants_down_to(k, table, &above, &mut chance);
        assert_eq!(one, grants_down_to(k, table, &above, &mut chance));
    }
}
