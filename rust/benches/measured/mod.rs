//! What is measured: each call made by the product and by the plain Rust model, with the same room, in the same state and on the same
//! input. Both make the same checks.

#[allow(dead_code, unused_imports)]
#[path = "../../tests/beside_model/model/mod.rs"]
mod model;
mod slice;

use std::hint::black_box;
use std::time::{Duration, Instant};

use justrave::{Arbiter, Slots, Transfers};
use model::{Requestor, State, Table, MAX_BACKLOG, MAX_LOG, MAX_PLACES, OLD_PLACES};

/// Calls in one measurement of a short call: a clock is too coarse for one.
const BATCH: usize = 2_000;

/// So many calls in a row, or a run of so many slots; and how long they took.
type Calls = Box<dyn Fn(usize) -> Duration>;

pub struct Case {
    pub call: String,
    /// N.
    pub places: usize,
    pub room: usize,
    /// Calls of one measurement, or slots of its one run.
    pub many: usize,
    pub product: Calls,
    pub model: Calls,
}

impl Case {
    /// The lines above a table, in the form of the documentation's.
    pub fn print_head() {
        println!("| call                              |  N | room |  product |    model | ratio |");
        println!("|-----------------------------------|---:|-----:|---------:|---------:|------:|");
    }

    /// A line of the table: what the product took for a call and what the model did.
    pub fn print(&self, product: f64, model: f64) {
        let Case { call, places, room, .. } = self;
        println!("| {call:<33} | {places:>2} | {room:>4} | {product:>8.1} | {model:>8.1} | {:>5.2} |", product / model);
    }
}

/// Which places have transfers waiting.
#[derive(Clone, Copy)]
enum Load {
    Idle,
    Waiting,
    /// Every second place, the last one among them.
    Mixed,
}

impl Load {
    fn name(self) -> &'static str {
        match self {
            Load::Idle => "all idle",
            Load::Waiting => "all waiting",
            Load::Mixed => "every second waiting",
        }
    }

    fn waits(self, place: usize) -> bool {
        match self {
            Load::Idle => false,
            Load::Waiting => true,
            Load::Mixed => place % 2 == 1,
        }
    }
}

/// How the requestors are listed that an order is found for.
#[derive(Clone, Copy)]
enum List {
    /// As they will stand: one need is tested for each place.
    Right,
    /// The lowest priority first: for each place the needs of all that remain are tested.
    Worst,
}

impl List {
    fn name(self) -> &'static str {
        match self {
            List::Right => "already right",
            List::Worst => "the worst way round",
        }
    }
}

/// Who follows whom where a chain figure is asked for.
#[derive(Clone, Copy)]
enum Following {
    /// Nobody: the chain is one place, and each walk ends at once.
    Nobody,
    /// Each place the one above it: the chain of the last is all places, and the walks are as long as they can be.
    All,
}

impl Following {
    fn name(self) -> &'static str {
        match self {
            Following::Nobody => "nobody follows",
            Following::All => "of all places",
        }
    }

    fn followed(self, place: usize) -> Option<usize> {
        match self {
            Following::Nobody => None,
            Following::All => place.checked_sub(1),
        }
    }
}

/// Each N first with the largest room, where the model looks at as many places, and then with room for exactly N, where it looks at these.
/// Then post and slot with room for exactly N once more, beside a model that is not compiled for this number. Then orders, which are lent
/// no state and always have the largest room; chains of all places; and last old words that are carried over.
pub fn all() -> Vec<Case> {
    let largest = [1, 4, 16, MAX_PLACES].map(in_room::<MAX_PLACES>);
    let fitting = [in_room::<1>(1), in_room::<4>(4), in_room::<16>(16)];
    let slices = [beside_slice::<1>(), beside_slice::<4>(), beside_slice::<16>(), beside_slice::<MAX_PLACES>()];
    let chains =
        [Following::Nobody, Following::All].map(|following| [chains::<16>(following), chains::<MAX_PLACES>(following)]);
    let calls = largest.into_iter().chain(fitting).chain(slices).flatten();
    calls.chain(all_orders()).chain(chains.into_iter().flatten()).chain([carries::<OLD_PLACES>()]).collect()
}

/// One requestor can be listed in one way only.
fn all_orders() -> Vec<Case> {
    let lists = |places| [List::Right, List::Worst].map(|list| orders(places, list));
    let several = [4, 16, MAX_PLACES].into_iter().flat_map(lists);
    [orders(1, List::Right)].into_iter().chain(several).collect()
}

fn in_room<const ROOM: usize>(places: usize) -> Vec<Case> {
    let mut cases = vec![slots::<ROOM>(places, Load::Idle), slots::<ROOM>(places, Load::Waiting)];
    if places > 1 {
        cases.push(slots::<ROOM>(places, Load::Mixed));
    }
    cases.push(posts::<ROOM>(places));
    cases.push(runs::<ROOM>(places, Load::Idle));
    cases.push(runs::<ROOM>(places, Load::Waiting));
    cases.push(starts_from_bytes::<ROOM>(places));
    cases.push(starts_from_numbers::<ROOM>(places));
    cases
}

/// The same calls of the product as with room for exactly N, and the model's on a slice of places.
fn beside_slice<const N: usize>() -> Vec<Case> {
    let loads = [Load::Idle, Load::Waiting, Load::Mixed];
    let mut cases: Vec<Case> = loads.into_iter().take(if N > 1 { 3 } else { 2 }).map(slot_beside_slice::<N>).collect();
    let post = posts::<N>(N);
    let model = Box::new(|many| {
        let mut line = slice::Line::of(&model::<N>(N, Load::Idle));
        timed(many, || black_box(&mut line).post(N - 1, 1).expect("the post is accepted"))
    });
    cases.push(Case { call: format!("{}; slice", post.call), model, ..post });
    cases
}

fn slot_beside_slice<const N: usize>(load: Load) -> Case {
    let (mut line, mut also) = (slice::Line::of(&model::<N>(N, load)), model::<N>(N, load));
    for _ in 0..300 {
        assert_eq!(line.slot(), also.slot(), "the two models differ");
    }
    let slot = slots::<N>(N, load);
    let model = Box::new(move |many| {
        let mut line = slice::Line::of(&model::<N>(N, load));
        timed(many, || black_box(&mut line).slot().expect("the slot is accepted"))
    });
    Case { call: format!("{}; slice", slot.call), model, ..slot }
}

/// Places that share the line out evenly and whole: their number divides D.
fn table<const ROOM: usize>(places: usize) -> Table<ROOM> {
    let row = Requestor { rate: 64 / places as u64, burst: 128, need: 1, within: 1 << 30 };
    let mut table = Table { denominator: 64, count: places as u64, ..Table::default() };
    table.requestors[..places].fill(row);
    table
}

/// The product's state, each place that waits with a full backlog.
fn product<const ROOM: usize>(places: usize, load: Load) -> Arbiter<ROOM> {
    let bytes = table::<ROOM>(places).bytes();
    let mut line = Arbiter::start_in_room(&bytes, Slots(0)).expect("the table is accepted");
    for place in (0..places).filter(|&place| load.waits(place)) {
        line.post(place, Transfers(MAX_BACKLOG)).expect("the post is accepted");
    }
    line
}

/// The model in the same state.
fn model<const ROOM: usize>(places: usize, load: Load) -> State<ROOM> {
    let mut line = State::start_numbers(&table(places), 0).expect("the table is accepted");
    for place in (0..places).filter(|&place| load.waits(place)) {
        line.post(place, MAX_BACKLOG).expect("the post is accepted");
    }
    line
}

fn slots<const ROOM: usize>(places: usize, load: Load) -> Case {
    Case {
        call: format!("slot, {}", load.name()),
        places,
        room: ROOM,
        many: BATCH,
        product: Box::new(move |many| {
            let mut line = product::<ROOM>(places, load);
            timed(many, || black_box(&mut line).slot().expect("the slot is accepted"))
        }),
        model: Box::new(move |many| {
            let mut line = model::<ROOM>(places, load);
            timed(many, || black_box(&mut line).slot().expect("the slot is accepted"))
        }),
    }
}

/// One transfer after the other to the last place.
fn posts<const ROOM: usize>(places: usize) -> Case {
    let place = places - 1;
    Case {
        call: "post".to_string(),
        places,
        room: ROOM,
        many: BATCH,
        product: Box::new(move |many| {
            let mut line = product::<ROOM>(places, Load::Idle);
            timed(many, || black_box(&mut line).post(place, Transfers(1)).expect("the post is accepted"))
        }),
        model: Box::new(move |many| {
            let mut line = model::<ROOM>(places, Load::Idle);
            timed(many, || black_box(&mut line).post(place, 1).expect("the post is accepted"))
        }),
    }
}

/// One run; its slots are what is counted.
fn runs<const ROOM: usize>(places: usize, load: Load) -> Case {
    Case {
        call: format!("slot of a run, {}", load.name()),
        places,
        room: ROOM,
        many: MAX_LOG,
        product: Box::new(move |many| {
            let (mut line, mut log) = (product::<ROOM>(places, load), vec![0xA5; many]);
            timed(1, || black_box(&mut line).run(black_box(&mut log)).expect("the run is accepted"))
        }),
        model: Box::new(move |many| {
            let (mut line, mut log) = (model::<ROOM>(places, load), vec![0xA5; many]);
            timed(1, || black_box(&mut line).run(black_box(&mut log)).expect("the run is accepted"))
        }),
    }
}

/// A start reads the table: bytes, limits, rate sum and finish figures.
fn starts_from_bytes<const ROOM: usize>(places: usize) -> Case {
    let bytes = table::<ROOM>(places).bytes();
    let also = bytes.clone();
    Case {
        call: "start from bytes".to_string(),
        places,
        room: ROOM,
        many: BATCH,
        product: Box::new(move |many| {
            timed(many, || Arbiter::<ROOM>::start_in_room(black_box(&bytes), Slots(0)).expect("the table is accepted"))
        }),
        model: Box::new(move |many| {
            timed(many, || State::<ROOM>::start(black_box(&also), 0).expect("the table is accepted"))
        }),
    }
}

/// The product's numbers have 32 bits, the model's 64.
fn starts_from_numbers<const ROOM: usize>(places: usize) -> Case {
    let rows = table::<ROOM>(places);
    let row = |row: &Requestor| justrave::Requestor {
        rate: row.rate as u32,
        burst: row.burst as u32,
        need: Transfers(row.need),
        within: Slots(row.within),
    };
    let given: Vec<_> = rows.used().iter().map(row).collect();
    let given = justrave::Table::<ROOM>::in_room(rows.denominator as u32, &given);
    Case {
        call: "start from numbers".to_string(),
        places,
        room: ROOM,
        many: BATCH,
        product: Box::new(move |many| {
            timed(many, || Arbiter::start_table(black_box(&given), Slots(0)).expect("the table is accepted"))
        }),
        model: Box::new(move |many| {
            timed(many, || State::start_numbers(black_box(&rows), 0).expect("the table is accepted"))
        }),
    }
}

/// Equal shares, and to each need the slots of one place, so that one order passes.
fn list_bytes(places: usize, list: List) -> Vec<u8> {
    let mut table = table::<MAX_PLACES>(places);
    for place in 0..places {
        table.requestors[place].within = table.finish(place, table.requestors[place].need);
    }
    match list {
        List::Right => {}
        List::Worst => table.requestors[..places].reverse(),
    }
    table.bytes()
}

/// An order reads the list, finds places and writes the table: bytes, limits, rate sum, needs and bytes again.
fn orders(places: usize, list: List) -> Case {
    let bytes = list_bytes(places, list);
    let also = bytes.clone();
    Case {
        call: format!("order, {}", list.name()),
        places,
        room: MAX_PLACES,
        many: BATCH,
        product: Box::new(move |many| {
            let mut buffer = [0xA5; Arbiter::TABLE_ROOM];
            timed(many, || justrave::order(black_box(&bytes), black_box(&mut buffer)).expect("an order passes"))
        }),
        model: Box::new(move |many| {
            let mut buffer = [0xA5; Arbiter::TABLE_ROOM];
            timed(many, || model::order(black_box(&also), black_box(&mut buffer)).expect("an order passes"))
        }),
    }
}

/// The figure of the last place, with the wrapper's part of it: the product takes a byte for each place, and the model what the wrapper is
/// given.
fn chains<const N: usize>(following: Following) -> Case {
    let follows: [Option<usize>; N] = std::array::from_fn(|place| following.followed(place));
    Case {
        call: format!("chain, {}", following.name()),
        places: N,
        room: N,
        many: BATCH,
        product: Box::new(move |many| {
            let line = product::<N>(N, Load::Idle);
            timed(many, || black_box(&line).chain(N - 1, black_box(&follows)).expect("the chain ends"))
        }),
        model: Box::new(move |many| {
            let line = model::<N>(N, Load::Idle);
            timed(many, || black_box(&line).chain(N - 1, black_box(&follows)).expect("the chain ends"))
        }),
    }
}

/// The old words of a full table, with every place waiting, carried over into the largest room.
fn carries<const N: usize>() -> Case {
    let line = model::<N>(N, Load::Waiting);
    let rows = line.table.requestors.iter().zip(&line.accounts);
    let places = rows.flat_map(|(row, of)| [row.rate, row.burst, row.need, row.within, of.credit, of.backlog]);
    let old: Vec<u64> = [line.table.denominator, line.table.count, line.slot].into_iter().chain(places).collect();
    let also = old.clone();
    Case {
        call: format!("carry, from room for {N}"),
        places: N,
        room: MAX_PLACES,
        many: BATCH,
        product: Box::new(move |many| {
            timed(many, || Arbiter::<MAX_PLACES>::carry_over(black_box(&old)).expect("the state is sound"))
        }),
        model: Box::new(move |many| {
            timed(many, || State::<MAX_PLACES>::carry(black_box(&also)).expect("the state is sound"))
        }),
    }
}

/// How long so many calls take.
fn timed<Answer>(many: usize, mut call: impl FnMut() -> Answer) -> Duration {
    let start = Instant::now();
    for _ in 0..many {
        black_box(call());
    }
    start.elapsed()
}
