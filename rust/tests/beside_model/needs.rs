//! Needs above their bursts (clauses 2.3 and 12.17). Whatever takes a table turns one down with 17 and the place, and so does the writer; a
//! state that has one is served by every other call, and carried over (clause 11.5).

use justrave::{Arbiter, Slots};

use crate::model::{self, Account, Requestor, State, Table, MAX_PLACES, OLD_PLACES};
use crate::support::calls::{turned_by_model, turned_by_product, Call, Turned};
use crate::support::chance::{rounds, Chance};
use crate::support::pair::Pair;
use crate::support::tables::{self, for_product};
use crate::support::words::{old_words_of, words_of};

/// A row that is accepted at every place, with a burst of one transfer.
fn plain(denominator: u64) -> Requestor {
    Requestor { rate: 1, burst: denominator, need: 1, within: 1 << 30 }
}

/// Plain rows at all places that there is room for, which D has rates for.
fn plain_table<const ROOM: usize>(denominator: u64) -> Table<ROOM> {
    assert!(ROOM as u64 <= denominator);
    Table { denominator, count: ROOM as u64, requestors: [plain(denominator); ROOM] }
}

/// What the starts from numbers and from bytes, and the search for an order, come to in the product and in the model. It is all the same.
fn taken<const ROOM: usize>(table: &Table<ROOM>) -> Result<(), Turned> {
    let from_numbers = Arbiter::start_table(&for_product(table), Slots(0)).map(|_| ()).map_err(turned_by_product);
    let by_model = State::start_numbers(table, 0).map(|_| ()).map_err(turned_by_model);
    assert_eq!(from_numbers, by_model, "{table:?} as numbers: product (left) and model");
    assert_eq!(taken_as_bytes::<ROOM>(&table.bytes()), from_numbers, "{table:?} as bytes (left) and as numbers");
    from_numbers
}

/// The same for bytes alone.
fn taken_as_bytes<const ROOM: usize>(bytes: &[u8]) -> Result<(), Turned> {
    let started = Arbiter::<ROOM>::start_in_room(bytes, Slots(0)).map(|_| ()).map_err(turned_by_product);
    let by_model = State::<ROOM>::start(bytes, 0).map(|_| ()).map_err(turned_by_model);
    assert_eq!(started, by_model, "start of {bytes:02X?}: product (left) and model");
    let (mut buffer, mut also) = ([0xA5; Arbiter::TABLE_ROOM], [0xA5; Arbiter::TABLE_ROOM]);
    let ordered = justrave::order(bytes, &mut buffer).map_err(turned_by_product);
    let by_model = model::order(bytes, &mut also).map_err(turned_by_model);
    assert_eq!((ordered, buffer), (by_model, also), "order of {bytes:02X?}: product (left) and model");
    assert_eq!(ordered.map(|_| ()), started, "order (left) and start of {bytes:02X?}");
    started
}

/// A line with this table that no start made: each place has full credit, and something waits there.
fn line_of<const ROOM: usize>(table: &Table<ROOM>) -> Pair<ROOM> {
    let accounts = table.requestors.map(|row| Account { credit: row.burst, backlog: 3 });
    Pair::of(State { table: *table, slot: 70, accounts })
}

/// The calls on a state with this table that do not write it, one after the other: none is refused.
fn check_served<const ROOM: usize>(table: &Table<ROOM>, place: usize) {
    let mut line = line_of(table);
    for call in [
        Call::Post(place, 65_532),
        Call::Slot,
        Call::Run(3),
        Call::Figures(place, table.requestors[place].need),
        Call::Figures(place, 255),
        Call::Chain(place, vec![]),
        Call::Lead(place, vec![place as u8, 255]),
        Call::Account(place),
        Call::Standing,
    ] {
        assert!(line.told(&call).answer.is_ok(), "{call:?} on {table:?}");
    }
    check_carried(&line.model);
}

/// The state is carried over as it is, where the old limit allowed as many places.
fn check_carried<const ROOM: usize>(state: &State<ROOM>) {
    if ROOM <= OLD_PLACES {
        let carried = Arbiter::<ROOM>::carry_over(&old_words_of(state)).map_err(turned_by_product);
        assert_eq!(carried.map(|line| line.words().to_vec()), Ok(words_of(state)));
    }
}

/// What the writer comes to on a state with this table, in a buffer of this length.
fn written<const ROOM: usize>(table: &Table<ROOM>, length: usize) -> Result<(), Turned> {
    line_of(table).told(&Call::Write(length)).answer.map(|_| ())
}

/// How many needs were met that their bursts hold, and how many that they do not.
#[derive(Debug, Default, PartialEq)]
struct Met {
    held: u32,
    above: u32,
}

/// One need beside the smallest burst, those around j x D and the largest, as far as they are bursts, at a place.
fn check_need<const ROOM: usize>(denominator: u64, need: u64, place: usize, met: &mut Met) {
    let edge = need * denominator;
    for burst in [denominator, edge - 1, edge, edge + 1, 16_777_216].into_iter().filter(|&burst| burst >= denominator) {
        let mut table = plain_table::<ROOM>(denominator);
        table.requestors[place] = Requestor { burst, need, ..plain(denominator) };
        let must = if edge > burst { Err((17, Some(place), false)) } else { Ok(()) };
        assert_eq!(taken(&table), must, "{table:?}");
        assert_eq!(written(&table, Arbiter::TABLE_ROOM), must, "{table:?}");
        check_served(&table, place);
        met.held += u32::from(must.is_ok());
        met.above += u32::from(must.is_err());
    }
}

/// These needs with each of these D, at the first place and at the last.
fn check_needs<const ROOM: usize>(denominators: &[u64], needs: &[u64]) {
    for &denominator in denominators {
        let mut met = Met::default();
        for &need in needs {
            check_need::<ROOM>(denominator, need, 0, &mut met);
            check_need::<ROOM>(denominator, need, ROOM - 1, &mut met);
        }
        // of five bursts two are too small; but at j = 1 the smallest is j x D, and one less is no burst
        let many = needs.len() as u32;
        assert_eq!(met, Met { held: 2 * (3 * many + 1), above: 2 * 2 * (many - 1) }, "D = {denominator}");
    }
}

/// j x D equal to the burst passes, and one more does not.
#[test]
fn every_need_beside_bursts_around_it() {
    let all: Vec<u64> = (1..=255).collect();
    check_needs::<1>(&[1, 2, 60, 65_535], &all);
    check_needs::<3>(&[3, 4, 1_000, 65_535], &all);
    check_needs::<MAX_PLACES>(&[64, 65_535], &[1, 2, 3, 128, 254, 255]);
}

/// Puts a need above the burst of a place.
fn overreach<const ROOM: usize>(table: &mut Table<ROOM>, place: usize) {
    table.requestors[place].need = 2;
}

/// Every set of places whose needs are above their bursts: the lowest of them is named, by the writer too. So it is where no finish figure
/// is within its need's slots, and where the buffer has no byte.
#[test]
fn the_lowest_of_several_is_named() {
    for places in 1_u32..1 << 6 {
        let mut table = plain_table::<6>(6);
        (0..6).filter(|&place| places >> place & 1 == 1).for_each(|place| overreach(&mut table, place));
        let must = Err((17, Some(places.trailing_zeros() as usize), false));
        for within in [1 << 30, 1] {
            table.requestors.iter_mut().for_each(|row| row.within = within);
            assert_eq!(taken(&table), must, "{table:?}");
            assert_eq!((written(&table, Arbiter::TABLE_ROOM), written(&table, 0)), (must, must), "{table:?}");
        }
    }
}

type Change = fn(&mut Requestor);

/// One number of a row out of its limits, and what a row with it is refused with: the rate, the burst, j and L, below and above.
const FAULTS: [(Change, u8); 9] = [
    (|row| row.rate = 0, 3),
    (|row| row.rate = 65_536, 3),
    (|row| row.burst = 0, 4),
    (|row| row.burst = 16_777_217, 4),
    (|row| row.need = 0, 5),
    (|row| row.need = 256, 5),
    (|row| row.need = 4_294_967_295, 5),
    (|row| row.within = 0, 5),
    (|row| row.within = 4_294_967_295, 5),
];

/// Beside a row with such a number a need above its burst is behind it at the same place and at a higher one, and ahead of it at a lower.
#[test]
fn beside_a_number_out_of_its_limits() {
    for (fault, number) in FAULTS {
        for (above, at) in (0..4).flat_map(|above| (0..4).map(move |at| (above, at))) {
            let mut table = plain_table::<4>(65_535);
            overreach(&mut table, above);
            fault(&mut table.requestors[at]);
            let must = if above < at { (17, Some(above), false) } else { (number, Some(at), false) };
            assert_eq!(taken(&table), Err(must), "{table:?}");
        }
    }
}

/// A need above its burst is ahead of rates that sum to more than D, and behind a row past the last place that is not 0.
#[test]
fn beside_a_rate_sum_and_a_row_past_the_last() {
    for place in 0..4 {
        let mut table = plain_table::<4>(4);
        table.requestors[0].rate = 2;
        assert_eq!(taken(&table), Err((6, None, false)), "{table:?}");
        overreach(&mut table, place);
        assert_eq!(taken(&table), Err((17, Some(place), false)), "{table:?}");
        table.count = 3;
        let told = Arbiter::start_table(&for_product(&table), Slots(0)).map_err(turned_by_product);
        assert_eq!(told.map(|_| ()), Err((2, None, false)), "{table:?}");
    }
}

/// The bytes of a table with such a need, cut off anywhere and with bytes behind them: 17 comes as soon as the last number of its place is
/// read, be it the end or not, and before that 8.
#[test]
fn bytes_that_end_anywhere() {
    for place in 0..4 {
        let mut table = plain_table::<4>(65_535);
        overreach(&mut table, place);
        let (bytes, must) = (table.bytes(), Err((17, Some(place), false)));
        table.count = place as u64 + 1;
        let read = table.bytes().len();
        for length in 0..=bytes.len() {
            let must = if length < read { Err((8, None, false)) } else { must };
            assert_eq!(taken_as_bytes::<4>(&bytes[..length]), must, "{length} bytes of {bytes:02X?}");
        }
        // a number in long form, a rate of 0, and one byte too many
        for behind in [&[0x84, 0x00][..], &[0x00], &[0x01]] {
            assert_eq!(taken_as_bytes::<4>(&[&bytes[..read], behind].concat()), must, "{bytes:02X?} and {behind:02X?}");
        }
    }
}

/// How many tables came up on each side of the edge.
#[derive(Debug, Default)]
struct Drawn {
    /// Accepted, with a need that its burst just holds.
    just_held: u64,
    /// Refused 17 for a burst that is 1 too small, and for one that is smaller than that.
    just_above: u64,
    far_above: u64,
}

impl Drawn {
    /// What the product says of a table, held to the rule: 17 names the first need above its burst, and behind 17 there is none.
    fn add<const ROOM: usize>(&mut self, table: &Table<ROOM>) {
        let told = Arbiter::start_table(&for_product(table), Slots(0)).map(|_| ()).map_err(turned_by_product);
        let short = |row: &Requestor| (row.need * table.denominator).checked_sub(row.burst).filter(|&short| short > 0);
        match told {
            Ok(()) | Err((6 | 7, ..)) => {
                assert!(table.used().iter().all(|row| short(row).is_none()), "{told:?} of {table:?}");
                let is_at_edge = table.used().iter().any(|row| row.need * table.denominator == row.burst);
                self.just_held += u64::from(told.is_ok() && is_at_edge);
            }
            Err((17, place, _)) => {
                assert_eq!(place, table.used().iter().position(|row| short(row).is_some()), "{table:?}");
                let is_by_one = place.and_then(|place| short(&table.requestors[place])) == Some(1);
                self.just_above += u64::from(is_by_one);
                self.far_above += u64::from(!is_by_one);
            }
            Err(_) => {}
        }
    }
}

/// The tables that the tests draw are often at the edge: a test that never met it has not tested it.
#[test]
fn drawn_tables_on_both_sides_of_the_edge() {
    let (mut chance, mut drawn) = (Chance::of("both sides of the edge"), Drawn::default());
    let many = rounds(5_000);
    for _ in 0..many {
        drawn.add::<4>(&tables::numbers(&mut chance));
        drawn.add::<MAX_PLACES>(&tables::numbers(&mut chance));
    }
    println!("of {} tables: {drawn:?}", 2 * many);
    assert!(drawn.just_held > many / 4 && drawn.just_above > many / 20 && drawn.far_above > many / 20, "{drawn:?}");
}
