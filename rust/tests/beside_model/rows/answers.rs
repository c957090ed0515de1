//! What a row's call comes to through the exported functions, in the words of the row. What an answer says of values that were kept
//! or cleared is looked up in memory.

use justrave::{sys, Arbiter, Cause, Refusal, SlotAnswer, Transfers};

use super::row::{Call, Row};
use crate::model::{State, IDLE, MAX_PLACES};
use crate::support::calls::answer_of;
use crate::support::words::{state_of, with_zeros_behind, words_of};

/// What stands in lent bytes before a call.
const FILL: u8 = 0xAA;
/// Bytes behind those that are lent, which no call may touch.
const BEYOND: usize = 8;

pub fn told(row: &Row) -> String {
    match row.call {
        Call::Admit => admit(row),
        Call::Start => start(row),
        Call::ReadTable => read_table(row),
        Call::WriteTable => write_table(row),
        Call::TableBytes => table_bytes(row),
        Call::Order => order(row),
        Call::OrderBytes => order_bytes(row),
        Call::Post => post(row),
        Call::Slot => slot(row),
        Call::Run => run(row),
        Call::Lead => lead(row),
        Call::Figures => figures(row),
        Call::Chain => chain(row),
        Call::Carry => carry(row),
        Call::State => state(row),
        Call::AllCalls => {
            refusals(row, row.number("place"), row.number("count"), row.number("for"), row.number("length"))
        }
        Call::Slots => decimals(&Slotted::of(row).log),
        Call::SlotsAsRun => slots_as_run(row),
        Call::SlotsAndCredits => slots_and_credits(row),
        Call::Floor => floor(row),
    }
}

fn arbiter(row: &Row) -> Arbiter {
    Arbiter::from_words(&words_of(&row.state())).expect("as many words as there is room for")
}

fn refused(refusal: Refusal) -> String {
    let by = match refusal.cause {
        Cause::Input => "input",
        Cause::State => "state",
    };
    let place = refusal.place.map(|place| format!(" place {place}")).unwrap_or_default();
    format!("refused {} {by}{place}", refusal.number)
}

/// A refusal, and what has to hold after it.
fn refused_and(refusal: Refusal, claim: &str, holds: bool) -> String {
    format!("{}, {}{claim}", refused(refusal), if holds { "" } else { "NOT " })
}

fn accounts(words: &[u64]) -> String {
    let State { accounts: [first, second, ..], slot, .. }: State = state_of(words);
    format!("credits {} {} backlogs {} {} slot {slot}", first.credit, second.credit, first.backlog, second.backlog)
}

fn decimals(bytes: &[u8]) -> String {
    bytes.iter().map(u8::to_string).collect::<Vec<_>>().join(" ")
}

type Words = [u64; <Arbiter>::STATE_WORDS];

/// Words that no start has written, so that a start that writes none of them shows.
const DIRTY: Words = [u64::MAX; <Arbiter>::STATE_WORDS];

fn start_numbers(row: &Row, first: u64) -> (Result<(), Refusal>, Words) {
    let numbers = row.numbers().expect("the numbers have 32 bits");
    let mut words = DIRTY;
    // SAFETY: numbers and words are of this function, and each has its length behind it.
    let outcome =
        unsafe { sys::justrave_start_numbers(numbers.as_ptr(), numbers.len(), first, words.as_mut_ptr(), words.len()) };
    (answer_of(outcome), words)
}

fn start_bytes(bytes: &[u8]) -> (Result<(), Refusal>, Words) {
    let mut words = DIRTY;
    // SAFETY: the words are a local, and both pointers have their lengths behind them.
    let outcome = unsafe { sys::justrave_start(bytes.as_ptr(), bytes.len(), 0, words.as_mut_ptr(), words.len()) };
    (answer_of(outcome), words)
}

fn is_zero(words: &Words) -> bool {
    words.iter().all(|&word| word == 0)
}

/// The checks of a table are those of a start at slot 0.
fn admit(row: &Row) -> String {
    match start_numbers(row, 0).0 {
        Ok(()) => "faultless".to_string(),
        Err(refusal) => refused(refusal),
    }
}

fn start(row: &Row) -> String {
    match start_numbers(row, row.number("first")) {
        (Ok(()), words) => format!("started {}", accounts(&words)),
        (Err(refusal), words) => refused_and(refusal, "state zero", is_zero(&words)),
    }
}

/// A reading is the part of a start that comes first; a refused one leaves no table in the state.
fn read_table(row: &Row) -> String {
    match start_bytes(&row.bytes("bytes")) {
        (Ok(()), words) => format!("accepted {}", table_numbers(&words)),
        (Err(refusal), words) => refused_and(refusal, "table zero", is_zero(&words)),
    }
}

/// D, N and the rows.
fn table_numbers(words: &Words) -> String {
    let State { table, .. }: State = state_of(words);
    let rows = table.used().iter().flat_map(|row| [row.rate, row.burst, row.need, row.within]);
    let numbers = [table.denominator, table.count].into_iter().chain(rows);
    numbers.map(|number| number.to_string()).collect::<Vec<_>>().join(" ")
}

/// Lent bytes with some behind them.
fn memory(length: u64) -> (Vec<u8>, usize) {
    let length = length as usize;
    (vec![FILL; length + BEYOND], length)
}

fn untouched(bytes: &[u8]) -> bool {
    bytes.iter().all(|&byte| byte == FILL)
}

fn write_table(row: &Row) -> String {
    let (mut buffer, room) = memory(row.number("room"));
    match arbiter(row).write_table(&mut buffer[..room]) {
        Ok(wrote) => {
            let (written, beyond) = buffer.split_at(wrote);
            let (read, words) = start_bytes(written);
            let same = read.is_ok() && state_of(&words).table == row.state().table;
            let not = |holds: bool| if holds { "" } else { "NOT " };
            format!("wrote {wrote}, {}reads back, {}beyond kept", not(same), not(untouched(beyond)))
        }
        Err(refusal) => refused_and(refusal, "buffer kept", untouched(&buffer)),
    }
}

/// All of the buffer, after the table was written to it.
fn table_bytes(row: &Row) -> String {
    let (mut buffer, room) = memory(row.number("room"));
    arbiter(row).write_table(&mut buffer[..room]).expect("the table is written");
    sixteens(&buffer[..room])
}

fn sixteens(bytes: &[u8]) -> String {
    bytes.iter().map(|byte| format!("{byte:02x}")).collect::<Vec<_>>().join(" ")
}

/// A buffer of this length after an order of the bytes, and how many of it were written.
fn ordered(bytes: &[u8], room: u64) -> Result<(Vec<u8>, usize), String> {
    let ((mut buffer, room), mut answer) = (memory(room), [u64::MAX]);
    let lent = &mut buffer[..room];
    // SAFETY: all three have their lengths behind them, and what is written is of this function.
    let outcome = unsafe {
        sys::justrave_order(bytes.as_ptr(), bytes.len(), lent.as_mut_ptr(), lent.len(), answer.as_mut_ptr(), 1)
    };
    if let Err(refusal) = answer_of(outcome) {
        assert_eq!(answer, [u64::MAX], "a refused order wrote its answer");
        return Err(refused_and(refusal, "buffer kept", untouched(&buffer)));
    }
    let wrote = answer[0] as usize;
    assert!(untouched(&buffer[wrote..]), "an order wrote behind its table");
    buffer.truncate(room);
    Ok((buffer, wrote))
}

/// The numbers are those that a start reads, so that an order which no start takes shows.
fn order(row: &Row) -> String {
    match ordered(&row.table().bytes(), Arbiter::TABLE_ROOM as u64) {
        Ok((buffer, wrote)) => match start_bytes(&buffer[..wrote]) {
            (Ok(()), words) => format!("ordered {}", table_numbers(&words)),
            (Err(refusal), _) => format!("ordered, and a start is {}", refused(refusal)),
        },
        Err(told) => told,
    }
}

fn order_bytes(row: &Row) -> String {
    ordered(&row.bytes("bytes"), row.number("room")).map_or_else(|told| told, |(buffer, _)| sixteens(&buffer))
}

fn post(row: &Row) -> String {
    let mut line = arbiter(row);
    let before = line.clone();
    match line.post(row.number("place") as usize, Transfers(row.number("count"))) {
        Ok(()) => format!("accepted {}", accounts(line.words())),
        Err(refusal) => refused_and(refusal, "state kept", line == before),
    }
}

fn slot(row: &Row) -> String {
    let mut line = arbiter(row);
    let before = line.clone();
    match line.slot() {
        Ok(SlotAnswer::Granted(stamp, place)) => format!("granted {place} stamp {stamp} {}", accounts(line.words())),
        Ok(SlotAnswer::Idle(stamp)) => format!("idle stamp {stamp} {}", accounts(line.words())),
        Err(refusal) => refused_and(refusal, "state kept", line == before),
    }
}

/// Of the log the first nine bytes are told.
fn run(row: &Row) -> String {
    let mut line = arbiter(row);
    let before = line.clone();
    let (mut log, length) = memory(row.number("length"));
    match line.run(&mut log[..length]) {
        Ok(()) => {
            assert!(untouched(&log[length..]), "a run wrote behind its log");
            format!("ran {} log {}", accounts(line.words()), decimals(&log[..length.min(9)])).trim_end().to_string()
        }
        Err(refusal) => {
            let kept = refused_and(refusal, "state kept", line == before);
            format!("{kept}, {}log kept", if untouched(&log) { "" } else { "NOT " })
        }
    }
}

fn lead(row: &Row) -> String {
    let line = arbiter(row);
    match line.lead(row.number("place") as usize, &row.log()) {
        Ok(lead) => lead.to_string(),
        Err(refusal) => refused(refusal),
    }
}

fn figures(row: &Row) -> String {
    match arbiter(row).figures(row.number("place") as usize, Transfers(row.number("for"))) {
        Ok(figures) => format!("wait {} finish {}", figures.wait, figures.finish),
        Err(refusal) => refused(refusal),
    }
}

/// Through the exported function, which can be lent any number of names.
fn chain(row: &Row) -> String {
    let (words, names) = (words_of(&row.state()), row.names());
    let (mut state, mut following, mut answer) = (words.clone(), names.clone(), [u64::MAX]);
    let (of, by, to) = (state.as_mut_ptr(), following.as_mut_ptr(), answer.as_mut_ptr());
    let place = row.number("place") as usize;
    // SAFETY: all three have their lengths behind them, and are of this function.
    let outcome = unsafe { sys::justrave_chain(of, words.len(), place, by, names.len(), to, 1) };
    assert_eq!((state, following), (words, names), "state and names are only read");
    match answer_of(outcome) {
        Ok(()) => format!("figure {}", answer[0]),
        Err(refusal) => {
            assert_eq!(answer, [u64::MAX], "a refused chain wrote its answer");
            refused(refusal)
        }
    }
}

/// Into words that no start has written, as many as an arbiter has or as are said. What is carried is the row's state.
fn carry(row: &Row) -> String {
    let (old, before) = (row.old_words(), vec![u64::MAX; row.length_or("length", DIRTY.len())]);
    let (mut lent, mut words) = (old.clone(), before.clone());
    // SAFETY: both have their lengths behind them, and are of this function.
    let outcome = unsafe { sys::justrave_carry(lent.as_mut_ptr(), lent.len(), words.as_mut_ptr(), words.len()) };
    assert_eq!(lent, old, "the old words are only read");
    match answer_of(outcome) {
        Ok(()) => {
            let all = with_zeros_behind::<MAX_PLACES>(&words);
            assert_eq!(state_of(&all), row.state(), "the state that was carried over (left)");
            format!("carried {}", accounts(&all))
        }
        Err(refusal) if refusal.number == 255 => refused_and(refusal, "state kept", words == before),
        Err(refusal) => refused_and(refusal, "state zero", words.iter().all(|&word| word == 0)),
    }
}

/// The refusal's number, or 0.
fn number<T>(answer: Result<T, Refusal>) -> u8 {
    answer.map_or_else(|refusal| refusal.number, |_| 0)
}

/// What every call says of one state. The check of a place is the part of figures that comes before the one for j.
fn refusals(row: &Row, place: u64, count: u64, j: u64, length: u64) -> String {
    let (line, place, mut log) = (arbiter(row), place as usize, vec![FILL; length as usize]);
    let led = number(line.lead(place, &log));
    let posted = number(line.clone().post(place, Transfers(count)));
    let slotted = number(line.clone().slot());
    let ran = number(line.clone().run(&mut log));
    let figured = number(line.figures(place, Transfers(j)));
    let checked = number(line.figures(place, Transfers(1)));
    format!("post {posted} slot {slotted} run {ran} lead {led} figures {figured} check_place {checked}")
}

/// A state is sound if a call that refuses nothing else does not refuse it 23: a post of nothing to place 0.
fn state(row: &Row) -> String {
    let told = refusals(row, 0, 0, 1, 1);
    let sound = number(arbiter(row).post(0, Transfers(0))) != 23;
    if sound {
        return format!("sound, {told}");
    }
    let before = arbiter(row);
    let (mut posted, mut slotted, mut ran, mut log) = (arbiter(row), arbiter(row), arbiter(row), [FILL; 3]);
    let refusals = [number(posted.post(0, Transfers(1))), number(slotted.slot()), number(ran.run(&mut log))];
    assert_eq!(refusals, [23; 3]);
    let kept = posted == before && slotted == before;
    let kept_by_run = ran == before && untouched(&log);
    let not = |holds: bool| if holds { "" } else { "NOT " };
    format!("unsound, {told}, {}state kept, {}kept by run", not(kept), not(kept_by_run))
}

/// Slots, one call after the other.
struct Slotted {
    log: Vec<u8>,
    line: Arbiter,
}

impl Slotted {
    /// When `after` slots are done, the row's count is posted to its place.
    fn of(row: &Row) -> Slotted {
        let mut slotted = Slotted { log: Vec::new(), line: arbiter(row) };
        for done in 0..row.number("length") {
            if done == row.number("after") {
                let count = Transfers(row.number("count"));
                slotted.line.post(row.number("place") as usize, count).expect("the post is accepted");
            }
            slotted.slot();
        }
        slotted
    }

    fn slot(&mut self) {
        self.log.push(match self.line.slot().expect("the slot is accepted") {
            SlotAnswer::Granted(_, place) => place as u8,
            SlotAnswer::Idle(_) => IDLE,
        });
    }
}

fn slots_as_run(row: &Row) -> String {
    let mut line = arbiter(row);
    let mut log = vec![FILL; row.number("length") as usize];
    line.run(&mut log).expect("the run is accepted");
    let same = line == Slotted::of(row).line;
    format!("{}, {}the state of the nine slots", decimals(&log), if same { "" } else { "NOT " })
}

fn slots_and_credits(row: &Row) -> String {
    let slotted = Slotted::of(row);
    let State { accounts: [first, second, ..], .. }: State = state_of(slotted.line.words());
    format!("{} credits {} {}", decimals(&slotted.log), first.credit, second.credit)
}

/// Both sides of the floor of place 1, over all of the slots.
fn floor(row: &Row) -> String {
    let slotted = Slotted::of(row);
    let (table, length) = (row.state().table, slotted.log.len() as u64);
    let grants = slotted.log.iter().filter(|&&granted| granted == 1).count() as u64;
    let (left, above) = (table.rate_left(1), table.bursts_above(1));
    let share = left * table.denominator * grants;
    format!("{share} against {}", table.requestors[1].rate * (left * length - above))
}
