//! The worked cases of section 16 through the wrapper: cases 1 to 13 are clauses 16.1 to 16.13. Nothing here knows the model.

use justrave::{Account, Arbiter, Cause, Figures, Refusal, Requestor, SlotAnswer, Slots, Standing, Table, Transfers};

/// Table T (clause 16.1).
const T: [u8; 10] = [0x04, 0x02, 0x01, 0x08, 0x01, 0x04, 0x01, 0x04, 0x01, 0x07];

fn started(table: &[u8]) -> Arbiter {
    Arbiter::start(table, Slots(0)).expect("the table is accepted")
}

/// What a table's bytes are refused with, and the place.
fn refused(table: &[u8]) -> (u8, Option<usize>) {
    let refusal = Arbiter::start(table, Slots(0)).expect_err("the table is refused");
    assert_eq!(refusal.cause, Cause::Input);
    (refusal.number, refusal.place)
}

/// Clause 16.3: the state ahead of its slots.
fn case_3() -> Arbiter {
    let mut line = started(&T);
    line.post(0, Transfers(3)).unwrap();
    line.post(1, Transfers(3)).unwrap();
    line
}

#[test]
fn case_1_t_is_read_and_written() {
    let mut buffer = [0xA5; 12];
    assert_eq!(started(&T).write_table(&mut buffer), Ok(10));
    assert_eq!(buffer[..10], T);
    assert_eq!(buffer[10..], [0xA5; 2]);
}

#[test]
fn case_2_a_finish_figure_above_its_need() {
    let mut hasty = T;
    hasty[9] = 6;
    assert_eq!(refused(&hasty), (7, Some(1)));
    let figures = started(&T).figures(1, Transfers(1));
    assert_eq!(figures, Ok(Figures { wait: Slots(3), finish: Slots(7) }));
}

#[test]
fn cases_3_and_5_a_run_and_its_leads() {
    let mut line = case_3();
    let mut log = [0xA5; 9];
    line.run(&mut log).unwrap();
    assert_eq!(log, [0, 0, 1, 0, 1, 255, 255, 1, 255]);
    assert_eq!((line.lead(0, &log), line.lead(1, &log), line.lead(1, &log[..2])), (Ok(3), Ok(3), Ok(-2)));
}

/// The credits after three slots are the case; those after the others show that it goes on.
#[test]
fn case_4_by_single_slots() {
    let mut line = case_3();
    let places = [Some(0), Some(0), Some(1), Some(0), Some(1), None, None, Some(1), None];
    let credits = [(5, 5), (2, 6), (3, 3), (0, 4), (1, 1), (2, 2), (3, 3), (4, 0), (5, 1)];
    for ((stamp, place), (first, second)) in (0..).map(Slots).zip(places).zip(credits) {
        let must = place.map_or(SlotAnswer::Idle(stamp), |place| SlotAnswer::Granted(stamp, place));
        assert_eq!(line.slot(), Ok(must));
        assert_eq!(line.account(0).map(|account| account.credit), Ok(first));
        assert_eq!(line.account(1).map(|account| account.credit), Ok(second));
    }
    assert_eq!(line.standing(), Ok(Standing { slot: Slots(9), places: 2 }));
}

#[test]
fn case_6_numbers() {
    assert_eq!(refused(&[0x84, 0x00, 0x02]), (9, None));
    // as D, the largest number is read and is then too large for D; one more is no number at all
    assert_eq!(refused(&[0xFF, 0xFF, 0xFF, 0xFF, 0x0F]), (1, None));
    assert_eq!(refused(&[0xFF, 0xFF, 0xFF, 0xFF, 0x10]), (9, None));
    // 300 as D and as a burst
    started(&[0xAC, 0x02, 0x01, 0x01, 0xAC, 0x02, 0x01, 0xAC, 0x02]);
}

#[test]
fn cases_7_and_8_rate_sums_and_bursts() {
    assert_eq!(refused(&[4, 2, 3, 4, 1, 100, 2, 4, 1, 100]), (6, None));
    started(&[4, 2, 3, 4, 1, 100, 1, 4, 1, 100]);
    assert_eq!(refused(&[4, 1, 1, 3, 1, 100]), (4, Some(0)));
    started(&[4, 1, 1, 4, 1, 100]);
}

#[test]
fn case_9_a_full_backlog() {
    let mut line = started(&T);
    line.post(1, Transfers(65_535)).unwrap();
    let full = line.clone();
    line.post(1, Transfers(0)).unwrap();
    assert_eq!(line, full);
    assert_eq!(line.post(1, Transfers(1)), Err(Refusal { number: 21, place: None, cause: Cause::State }));
    assert_eq!(line, full);
}

#[test]
fn case_10_the_last_slot() {
    let last = Slots(Arbiter::MAX_SLOT.0 - 1);
    let mut line = Arbiter::start(&T, last).unwrap();
    assert_eq!(line.slot(), Ok(SlotAnswer::Idle(last)));
    let at_the_limit = line.clone();
    let refusal = Refusal { number: 22, place: None, cause: Cause::State };
    assert_eq!(line.slot(), Err(refusal));
    assert_eq!(line.run(&mut [0xA5]), Err(refusal));
    assert_eq!(line.run(&mut []), Ok(()));
    assert_eq!(line, at_the_limit);
    assert_eq!(Arbiter::start(&T, Slots(Arbiter::MAX_SLOT.0 + 1)).unwrap_err().number, 12);
}

#[test]
fn case_11_a_finish_figure() {
    let line = started(&[5, 2, 1, 6, 1, 100, 2, 5, 1, 100]);
    assert_eq!(line.figures(1, Transfers(1)), Ok(Figures { wait: Slots(2), finish: Slots(4) }));
}

#[test]
fn request_1_a_probe_with_one_slot_less() {
    started(&[5, 2, 1, 6, 1, 5, 2, 5, 1, 4]);
    assert_eq!(refused(&[5, 2, 1, 6, 1, 5, 2, 5, 1, 3]), (7, Some(1)));
}

/// The other way round no start takes T; in order it is T again. One slot less for the probe, and no order passes.
#[test]
fn request_2_a_fitter_who_guessed_the_priorities() {
    let guessed = [0x04, 0x02, 0x01, 0x04, 0x01, 0x07, 0x01, 0x08, 0x01, 0x04];
    assert_eq!(refused(&guessed), (7, Some(1)));
    let mut buffer = [0xA5; 12];
    assert_eq!(justrave::order(&guessed, &mut buffer), Ok(10));
    assert_eq!(buffer[..10], T);
    assert_eq!(buffer[10..], [0xA5; 2]);
    assert_eq!(justrave::order(&T, &mut buffer), Ok(10));
    assert_eq!(buffer[..10], T);
    let mut hasty = guessed;
    hasty[5] = 6;
    let refusal = Refusal { number: 15, place: None, cause: Cause::Input };
    assert_eq!(justrave::order(&hasty, &mut buffer), Err(refusal));
}

/// The figures of clause 16.15, and clause 9.4 below a pump that sends all it can: a display at place 2 follows the probe at place 1, and a
/// handset at place 3 the display.
#[test]
fn request_4_a_handset_behind_a_display_behind_a_probe() {
    let mut line = started(&[10, 4, 1, 10, 1, 10, 2, 20, 1, 7, 3, 30, 1, 8, 4, 40, 1, 18]);
    let mut follows = [None; Table::PLACES];
    (follows[2], follows[3]) = (Some(1), Some(2));
    let figures = [0, 1, 2, 3].map(|place| line.chain(place, &follows));
    assert_eq!(figures, [10, 7, 15, 33].map(|slots| Ok(Slots(slots))));
    line.post(0, Transfers(100)).unwrap();
    let mut granted = Vec::new();
    for link in [1, 2, 3] {
        line.post(link, Transfers(1)).unwrap();
        granted.extend(
            (0..33)
                .map(|_| line.slot().unwrap())
                .find(|told| matches!(told, SlotAnswer::Granted(_, place) if *place == link)),
        );
    }
    // the pump has credit for a transfer in slot 0, and then not before slot 9
    assert_eq!(granted, [(1, 1), (2, 2), (3, 3)].map(|(stamp, place)| SlotAnswer::Granted(Slots(stamp), place)));
    follows[1] = Some(3);
    assert_eq!(line.chain(0, &follows), Err(Refusal { number: 16, place: Some(1), cause: Cause::Input }));
    follows[1] = Some(4);
    assert_eq!(line.chain(0, &follows), Err(Refusal { number: 11, place: None, cause: Cause::Input }));
}

/// So many heads, each with an equal share of 64 and a burst of one transfer.
fn heads(count: usize) -> Table {
    let head = Requestor { rate: 1, burst: 64, need: Transfers(1), within: Slots(4_096) };
    Table::of(64, &vec![head; count])
}

/// The same as bytes; 4,096 takes two.
fn bytes_of_heads(count: usize) -> Vec<u8> {
    [64, count as u8].into_iter().chain([1, 64, 1, 0x80, 0x20].repeat(count)).collect()
}

/// More heads than the old limit of 16 allowed, up to 64 of them, from numbers and from bytes; 65 are refused 2.
#[test]
fn request_5_up_to_sixty_four_heads() {
    for count in 1..=64 {
        let line = Arbiter::start_table(&heads(count), Slots(0)).expect("so many are accepted");
        assert_eq!(line, started(&bytes_of_heads(count)));
        assert_eq!(line.standing(), Ok(Standing { slot: Slots(0), places: count }));
    }
    assert_eq!(Arbiter::start_table(&heads(65), Slots(0)).unwrap_err().number, 2);
    assert_eq!(refused(&bytes_of_heads(65)), (2, None));
    assert_eq!(refused(&[64, 65]), (2, None));
    assert_eq!(refused(&[64, 64]), (8, None));
}

/// A field at the last place of a table that has fewer is 2, and in a state 23.
#[test]
fn request_5_the_last_place_is_looked_at() {
    let fields: [fn(&mut Requestor); 4] =
        [|row| row.rate = 1, |row| row.burst = 1, |row| row.need = Transfers(1), |row| row.within = Slots(1)];
    for set in fields {
        let mut table = heads(63);
        set(&mut table.requestors[63]);
        assert_eq!(Arbiter::start_table(&table, Slots(0)).unwrap_err().number, 2);
    }
    let sound = Arbiter::start_table(&heads(63), Slots(0)).expect("so many are accepted");
    for at in 1..=6 {
        let mut words = sound.words().to_vec();
        let end = words.len();
        words[end - at] = 1;
        let mut broken: Arbiter = Arbiter::from_words(&words).expect("as many words");
        assert_eq!(broken.slot().unwrap_err().number, 23);
    }
}

/// The lowest of 64 is granted where nobody above it waits, in a single slot and in a run's log.
#[test]
fn request_5_a_grant_of_the_last_place() {
    let mut line = Arbiter::start_table(&heads(64), Slots(0)).expect("so many are accepted");
    line.post(63, Transfers(1)).unwrap();
    let mut by_slot = line.clone();
    assert_eq!(by_slot.slot(), Ok(SlotAnswer::Granted(Slots(0), 63)));
    let mut log = [0xA5; 3];
    line.run(&mut log).unwrap();
    assert_eq!(log, [63, 255, 255]);
    assert_eq!(line.account(63), Ok(Account { credit: 3, backlog: Transfers(0) }));
    assert_eq!((line.lead(63, &log), line.lead(62, &log)), (Ok(64 - 3), Ok(-3)));
    assert_eq!(line.post(64, Transfers(1)).unwrap_err().number, 11);
}

/// The largest bursts, and rates that sum to D: 65,472 and 63 times 1. The last place's wait is 63 bursts, and 255 transfers at rate 1 take
/// 255 x 65,535 slots; that is just below the largest L. One slot less is 7, and one more of a rate 6.
#[test]
fn request_5_the_largest_line() {
    let row = Requestor { rate: 1, burst: 16_777_216, need: Transfers(1), within: Slots(1 << 30) };
    let mut table = Table { denominator: 65_535, count: 64, requestors: [row; 64] };
    table.requestors[0].rate = 65_472;
    table.requestors[63].need = Transfers(255);
    let (wait, finish) = (Slots(63 * 16_777_216), Slots(63 * 16_777_216 + 255 * 65_535));
    table.requestors[63].within = finish;
    let mut line = Arbiter::start_table(&table, Slots(0)).expect("the figure is within the need");
    assert_eq!(line.figures(63, Transfers(255)), Ok(Figures { wait, finish }));
    for place in 0..64 {
        line.post(place, Transfers(65_535)).unwrap();
    }
    // a grant costs place 0 no more than 63 of its credit: it keeps the line
    let mut log = [0xA5; 300];
    line.run(&mut log).unwrap();
    assert_eq!(log, [0; 300]);
    assert_eq!(line.account(63), Ok(Account { credit: 16_777_216 + 300, backlog: Transfers(65_535) }));

    table.requestors[63].within.0 -= 1;
    let refusal = Arbiter::start_table(&table, Slots(0)).unwrap_err();
    assert_eq!((refusal.number, refusal.place), (7, Some(63)));
    table.requestors[1].rate = 2;
    assert_eq!(Arbiter::start_table(&table, Slots(0)).unwrap_err().number, 6);
}

/// A line of the old limit's 16 places, as its unit kept it, with place 15 waiting: in the new room it goes on, and its table can grow.
#[test]
fn request_5_a_unit_that_is_updated() {
    let mut old = vec![64, 16, 1_000];
    old.extend([1, 64, 1, 4_096, 64, 0].repeat(16));
    *old.last_mut().unwrap() = 2;
    let mut line: Arbiter = Arbiter::carry_over(&old).expect("the state is sound");
    assert_eq!(line.slot(), Ok(SlotAnswer::Granted(Slots(1_000), 15)));
    assert_eq!(line.slot(), Ok(SlotAnswer::Idle(Slots(1_001))));
    assert_eq!(line.account(15), Ok(Account { credit: 2, backlog: Transfers(1) }));
    assert_eq!(line.post(16, Transfers(1)).unwrap_err().number, 11);
    old[1] = 17;
    assert_eq!(Arbiter::<64>::carry_over(&old), Err(Refusal { number: 23, place: None, cause: Cause::State }));
    line.restart_table(&heads(40), Slots(1_002)).expect("forty heads are accepted");
}

/// A head with a burst of two transfers: needs of one and of two are taken, and three or ten are 17, with the place. So are two where the
/// burst is one part of a transfer short.
#[test]
fn request_6_a_need_of_ten_with_a_burst_of_two() {
    let pump = Requestor { rate: 1, burst: 20, need: Transfers(1), within: Slots(1_000) };
    let start = |heads: &[Requestor]| Arbiter::start_table(&Table::of(10, heads), Slots(0)).map(|_| ());
    let refusal = |place| Err(Refusal { number: 17, place: Some(place), cause: Cause::Input });
    let needs = |need| Requestor { need: Transfers(need), ..pump };
    assert_eq!(start(&[pump, needs(1)]), Ok(()));
    assert_eq!(start(&[pump, needs(2)]), Ok(()));
    assert_eq!(start(&[pump, needs(3)]), refusal(1));
    assert_eq!(start(&[pump, needs(10)]), refusal(1));
    assert_eq!(start(&[needs(10), needs(10)]), refusal(0));
    assert_eq!(start(&[pump, Requestor { burst: 19, ..needs(2) }]), refusal(1));
    assert_eq!(refused(&[10, 2, 1, 20, 2, 100, 1, 20, 10, 127]), (17, Some(1)));
    started(&[10, 2, 1, 20, 2, 100, 1, 20, 2, 127]);
}

/// Bytes are turned down as soon as the place is read, whatever comes next: nothing, no number, or a byte too many.
#[test]
fn request_6_ahead_of_what_stands_behind_the_place() {
    assert_eq!(refused(&[10, 2, 1, 20, 3, 100]), (17, Some(0)));
    assert_eq!(refused(&[10, 2, 1, 20, 3, 100, 0x84, 0x00]), (17, Some(0)));
    assert_eq!(refused(&[10, 2, 1, 20, 3, 100, 0]), (17, Some(0)));
    assert_eq!(refused(&[10, 1, 1, 20, 3, 100, 0]), (17, Some(0)));
    assert_eq!(refused(&[10, 1, 1, 20, 3]), (8, None));
    assert_eq!(refused(&[10, 1, 1, 20, 3, 0]), (5, Some(0)));
    let refusal = justrave::order(&[10, 2, 1, 20, 2, 100, 1, 20, 3, 1], &mut []).unwrap_err();
    assert_eq!((refusal.number, refusal.place), (17, Some(1)));
}

/// A unit that was started before the request, with a need of ten: it runs on and answers everything, and only its table is not written.
#[test]
fn request_6_a_unit_that_runs_already() {
    // D and N, and slot 1,000 comes next; rate, burst, need and its slots; full credit, and two transfers wait
    let kept = [10, 1, 1_000, 1, 20, 10, 100, 20, 2];
    let mut line = Arbiter::<1>::carry_over(&kept).expect("the state is sound");
    line.post(0, Transfers(1)).unwrap();
    assert_eq!(line.slot(), Ok(SlotAnswer::Granted(Slots(1_000), 0)));
    let mut log = [0xA5; 9];
    line.run(&mut log).unwrap();
    assert_eq!(log, [0, 255, 255, 255, 255, 255, 255, 255, 0]);
    assert_eq!(line.lead(0, &log), Ok(2 * 10 - 9));
    assert_eq!(line.figures(0, Transfers(10)), Ok(Figures { wait: Slots(0), finish: Slots(100) }));
    assert_eq!(line.figures(0, Transfers(255)), Ok(Figures { wait: Slots(0), finish: Slots(2_550) }));
    assert_eq!(line.chain(0, &[None]), Ok(Slots(10)));
    assert_eq!(line.account(0), Ok(Account { credit: 0, backlog: Transfers(0) }));
    assert_eq!(line.standing(), Ok(Standing { slot: Slots(1_010), places: 1 }));
    let refusal = Refusal { number: 17, place: Some(0), cause: Cause::Input };
    assert_eq!((line.write_table(&mut [0; 9]), line.write_table(&mut [])), (Err(refusal), Err(refusal)));
}

#[test]
fn case_12_others_who_begin_later() {
    let mut line = started(&[4, 2, 1, 40, 1, 100, 1, 4, 1, 100]);
    line.post(1, Transfers(100)).unwrap();
    let mut log = [0; 24];
    line.run(&mut log[..11]).unwrap();
    line.post(0, Transfers(30)).unwrap();
    line.run(&mut log[11..]).unwrap();
    let granted: Vec<usize> = (0..24).filter(|&slot| log[slot] == 1).collect();
    assert_eq!(granted, [0, 3, 7]);
}

#[test]
fn case_13_denominators() {
    assert_eq!(refused(&[0]), (1, None));
    assert_eq!(refused(&[0x80, 0x80, 0x04]), (1, None));
    assert_eq!(refused(&[]), (8, None));
    started(&[0xFF, 0xFF, 0x03, 0x01, 0x01, 0xFF, 0xFF, 0x03, 0x01, 0xFF, 0xFF, 0x03]);
}
