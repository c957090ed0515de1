//! Clauses 2.4 and 7.5, seen from outside: a table whose needs have just the slots of the former finish figure still starts, if its bursts
//! hold its needs (clause 2.3), and one slot below the present figure a table is refused 7.

use justrave::{Arbiter, Slots, Transfers};

use crate::model::Table;
use crate::support::chance::{rounds, Chance};
use crate::support::tables;

/// The finish figure before request 1: the wait and the time of the transfers, each rounded up by itself.
fn former_finish(table: &Table, place: usize) -> u64 {
    let row = &table.requestors[place];
    table.wait(place) + (row.need * table.denominator).div_ceil(row.rate)
}

#[test]
fn tables_of_the_former_figure_start() {
    let mut chance = Chance::of("the former figure");
    let (mut alike, mut less) = (0, 0);
    for _ in 0..rounds(5_000) {
        let mut table: Table = tables::accepted(&mut chance);
        for place in 0..table.count as usize {
            table.requestors[place].within = former_finish(&table, place);
        }
        let line: Arbiter = Arbiter::start(&table.bytes(), Slots(0)).expect("no basin of that figure is turned away");
        for (place, row) in table.used().iter().enumerate() {
            let finish = line.figures(place, Transfers(row.need)).expect("the place is there").finish.0;
            assert!(finish == row.within || finish + 1 == row.within, "{finish} for {table:?} at {place}");
            alike += u64::from(finish == row.within);
            less += u64::from(finish < row.within);
        }
    }
    println!("places whose figure stayed: {alike}, is one less: {less}");
    assert!(alike > 1_000 && less > 1_000);
}

#[test]
fn one_slot_below_the_figure_is_refused() {
    let mut chance = Chance::of("one slot below");
    let mut refused = 0;
    for _ in 0..rounds(5_000) {
        let mut table: Table = tables::accepted(&mut chance);
        let place = chance.index(table.count as usize);
        let finish = table.finish(place, table.requestors[place].need);
        if finish > 1 {
            table.requestors[place].within = finish - 1;
            let refusal = Arbiter::start(&table.bytes(), Slots(0)).expect_err("the need cannot be kept");
            assert_eq!((refusal.number, refusal.place), (7, Some(place)));
            refused += 1;
        }
    }
    assert!(refused > 1_000);
}
