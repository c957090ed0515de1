//! Generated calls, made on the product and on the model, and what each of the two told.

use justrave::{Arbiter, Cause, Refusal, SlotAnswer, Transfers};

use super::chance::Chance;
use super::names;
use super::words::words_of;
use crate::model::{Fault, State, Table, IDLE, MAX_BACKLOG, MAX_LOG, MAX_PLACES, MAX_SLOT};

#[derive(Clone, Debug)]
pub enum Call {
    Post(usize, u64),
    Slot,
    /// The log's length.
    Run(usize),
    Figures(usize, u64),
    /// The place, and which place each place follows.
    Chain(usize, Vec<Option<usize>>),
    Lead(usize, Vec<u8>),
    /// The buffer's length.
    Write(usize),
    Account(usize),
    Standing,
}

/// A refusal's number, its place, and whether the state caused it.
pub type Turned = (u8, Option<usize>, bool);

/// All that a call leaves behind: its numbers or its refusal, the lent bytes and the state's words.
#[derive(Debug, PartialEq)]
pub struct Output {
    pub answer: Result<Vec<i64>, Turned>,
    pub lent: Vec<u8>,
    pub words: Vec<u64>,
}

/// What stands in lent bytes before a call, so that a byte that was written shows.
const UNTOUCHED: u8 = 0xA5;

impl Call {
    pub fn name(&self) -> &'static str {
        match self {
            Call::Post(..) => "post",
            Call::Slot => "slot",
            Call::Run(..) => "run",
            Call::Figures(..) => "figures",
            Call::Chain(..) => "chain",
            Call::Lead(..) => "lead",
            Call::Write(..) => "write",
            Call::Account(..) => "account",
            Call::Standing => "standing",
        }
    }

    fn lent(&self) -> Vec<u8> {
        match *self {
            Call::Run(length) | Call::Write(length) => vec![UNTOUCHED; length],
            _ => Vec::new(),
        }
    }

    pub fn on_product<const ROOM: usize>(&self, arbiter: &mut Arbiter<ROOM>) -> Output {
        let mut lent = self.lent();
        let answer = match self {
            Call::Post(place, count) => arbiter.post(*place, Transfers(*count)).map(|()| vec![]),
            Call::Slot => arbiter.slot().map(slot_numbers),
            Call::Run(_) => arbiter.run(&mut lent).map(|()| vec![]),
            Call::Figures(place, transfers) => arbiter
                .figures(*place, Transfers(*transfers))
                .map(|figures| vec![figures.wait.0 as i64, figures.finish.0 as i64]),
            Call::Chain(place, follows) => arbiter.chain(*place, &in_room(follows)).map(|figure| vec![figure.0 as i64]),
            Call::Lead(place, log) => arbiter.lead(*place, log).map(|lead| vec![lead]),
            Call::Write(_) => arbiter.write_table(&mut lent).map(|length| vec![length as i64]),
            Call::Account(place) => {
                arbiter.account(*place).map(|account| vec![account.credit as i64, account.backlog.0 as i64])
            }
            Call::Standing => arbiter.standing().map(|standing| vec![standing.slot.0 as i64, standing.places as i64]),
        };
        Output { answer: answer.map_err(turned_by_product), lent, words: arbiter.words().to_vec() }
    }

    pub fn on_model<const ROOM: usize>(&self, state: &mut State<ROOM>) -> Output {
        let mut lent = self.lent();
        let answer = match self {
            Call::Post(place, count) => state.post(*place, *count).map(|()| vec![]),
            Call::Slot => state.slot().map(|(stamp, granted)| vec![stamp as i64, granted.map_or(-1, |p| p as i64)]),
            Call::Run(_) => state.run(&mut lent).map(|()| vec![]),
            Call::Figures(place, transfers) => {
                state.figures(*place, *transfers).map(|(wait, finish)| vec![wait as i64, finish as i64])
            }
            Call::Chain(place, follows) => state.chain(*place, &in_room(follows)).map(|figure| vec![figure as i64]),
            Call::Lead(place, log) => state.lead(*place, log).map(|lead| vec![lead]),
            Call::Write(_) => state.write_table(&mut lent).map(|length| vec![length as i64]),
            Call::Account(place) => {
                state.account(*place).map(|account| vec![account.credit as i64, account.backlog as i64])
            }
            Call::Standing => state.standing().map(|(slot, places)| vec![slot as i64, places as i64]),
        };
        Output { answer: answer.map_err(turned_by_model), lent, words: words_of(state) }
    }
}

/// As many entries as there is room for; the places beyond follow nobody.
fn in_room<const ROOM: usize>(follows: &[Option<usize>]) -> [Option<usize>; ROOM] {
    std::array::from_fn(|place| follows.get(place).copied().flatten())
}

/// Stamp and place, or -1 for idle.
fn slot_numbers(answer: SlotAnswer) -> Vec<i64> {
    match answer {
        SlotAnswer::Granted(stamp, place) => vec![stamp.0 as i64, place as i64],
        SlotAnswer::Idle(stamp) => vec![stamp.0 as i64, -1],
    }
}

/// What an outcome of an exported function says (clause 15.4): the refusal's number in the low 8 bits, and above them the place + 1.
pub fn answer_of(outcome: u64) -> Result<(), Refusal> {
    if outcome == 0 {
        return Ok(());
    }
    let number = (outcome & 255) as u8;
    let place = (outcome >> 8).checked_sub(1).map(|place| place as usize);
    let cause = if (21..=29).contains(&number) { Cause::State } else { Cause::Input };
    Err(Refusal { number, place, cause })
}

pub fn turned_by_product(refusal: Refusal) -> Turned {
    (refusal.number, refusal.place, refusal.cause == Cause::State)
}

/// The state causes what has a number from 21 to 29, and the input all else (section 12).
pub fn turned_by_model(fault: Fault) -> Turned {
    (fault.number, fault.place, (21..=29).contains(&fault.number))
}

/// A call of any kind, with places and counts on both sides of their limits.
pub fn any<const ROOM: usize>(chance: &mut Chance, state: &State<ROOM>) -> Call {
    match chance.within(0, 12) {
        0..=2 => Call::Post(place(chance, state), count(chance, state)),
        3..=5 => Call::Slot,
        6 => Call::Run(run_length(chance, state)),
        7 => Call::Figures(place(chance, state), transfers(chance)),
        8 => Call::Lead(place(chance, state), log(chance, state)),
        9 => Call::Account(place(chance, state)),
        10 => Call::Standing,
        11 => Call::Chain(place(chance, state), follows(chance, state)),
        _ => Call::Write(buffer_length(chance, state)),
    }
}

/// Mostly a place of the table; else one just beyond, or one whose low bits would do.
pub fn place<const ROOM: usize>(chance: &mut Chance, state: &State<ROOM>) -> usize {
    let count = state.table.count.clamp(1, ROOM as u64) as usize;
    let inside = chance.index(count);
    match chance.within(0, 9) {
        0 => chance.pick(&[count, ROOM, ROOM + 1, MAX_PLACES, 255, 256 + inside, inside + (1 << 32), usize::MAX]),
        _ => inside,
    }
}

/// Mostly a few; else just what fits the first place's backlog, one more, or far too many.
pub fn count<const ROOM: usize>(chance: &mut Chance, state: &State<ROOM>) -> u64 {
    let room = MAX_BACKLOG.saturating_sub(state.accounts[0].backlog);
    match chance.within(0, 9) {
        0 => chance.pick(&[room, room + 1, 65_535, 65_536, 65_537, 1 << 32, (1 << 32) + 1, u64::MAX]),
        _ => chance.within(0, 6),
    }
}

/// Mostly short; else just up to the last slot number, one more, or as long as a log may be, and longer.
fn run_length<const ROOM: usize>(chance: &mut Chance, state: &State<ROOM>) -> usize {
    let left = MAX_SLOT.saturating_sub(state.slot).min(100) as usize;
    match chance.within(0, 99) {
        0 => chance.pick(&[MAX_LOG, MAX_LOG + 1]),
        1 => MAX_LOG + 1,
        2..=9 => chance.pick(&[left, left + 1]),
        _ => chance.index(40),
    }
}

fn transfers(chance: &mut Chance) -> u64 {
    chance.pick(&[0, 1, 1, 2, 3, 17, 254, 255, 255, 256, 257, (1 << 32) + 1, u64::MAX])
}

/// Names of every kind; sometimes a place is followed whose number takes more than a byte, or is the byte for nobody.
fn follows<const ROOM: usize>(chance: &mut Chance, state: &State<ROOM>) -> Vec<Option<usize>> {
    let count = state.table.count.clamp(1, ROOM as u64) as usize;
    let mut follows = names::followed::<ROOM>(&names::any(chance, count, ROOM));
    if chance.one_in(8) {
        let inside = chance.index(count);
        follows[chance.index(ROOM)] = Some(chance.pick(&[255, 256, 256 + inside, inside + (1 << 32), usize::MAX]));
    }
    follows.to_vec()
}

/// Places, two that are absent among them, and idle slots by chance; sometimes as long as a log may be, and longer.
fn log<const ROOM: usize>(chance: &mut Chance, state: &State<ROOM>) -> Vec<u8> {
    let places = state.table.count.clamp(1, ROOM as u64) as usize + 2;
    let length = match chance.within(0, 49) {
        0 => chance.pick(&[MAX_LOG, MAX_LOG + 1, MAX_LOG + 1]),
        _ => chance.index(60),
    };
    (0..length).map(|_| if chance.one_in(4) { IDLE } else { chance.index(places) as u8 }).collect()
}

fn buffer_length<const ROOM: usize>(chance: &mut Chance, state: &State<ROOM>) -> usize {
    let count = state.table.count.min(ROOM as u64);
    let needed = Table { count, ..state.table }.bytes().len();
    chance.pick(&[needed, needed, needed - 1, needed + 7, 0, Arbiter::TABLE_ROOM])
}
