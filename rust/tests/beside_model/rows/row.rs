//! A row: a request by field, a colon and the answer, in the grammar that stands at the top of the file of rows.

use crate::model::{Account, Requestor, State, Table, MAX_PLACES, OLD_PLACES};
use crate::support::names::NOBODY;
use crate::support::words::old_words_of;

#[derive(Clone, Copy, Debug, PartialEq, Eq)]
pub enum Call {
    Admit,
    Start,
    ReadTable,
    WriteTable,
    TableBytes,
    Order,
    OrderBytes,
    Post,
    Slot,
    Run,
    Lead,
    Figures,
    Chain,
    Carry,
    State,
    AllCalls,
    Slots,
    SlotsAsRun,
    SlotsAndCredits,
    Floor,
}

const TABLE: &str = "T D N rate burst need within";
const STATE: &str = "T D N rate burst need within credit backlog slot";

impl Call {
    pub const ALL: [Call; 20] = [
        Call::Admit,
        Call::Start,
        Call::ReadTable,
        Call::WriteTable,
        Call::TableBytes,
        Call::Order,
        Call::OrderBytes,
        Call::Post,
        Call::Slot,
        Call::Run,
        Call::Lead,
        Call::Figures,
        Call::Chain,
        Call::Carry,
        Call::State,
        Call::AllCalls,
        Call::Slots,
        Call::SlotsAsRun,
        Call::SlotsAndCredits,
        Call::Floor,
    ];

    pub fn name(self) -> &'static str {
        self.form().0
    }

    /// Its name, the value that it is made on, and the fields that it has besides.
    fn form(self) -> (&'static str, &'static str, &'static str) {
        match self {
            Call::Admit => ("admit", TABLE, ""),
            Call::Start => ("start", TABLE, "first"),
            Call::ReadTable => ("read_table", "", "bytes"),
            Call::WriteTable => ("write_table", TABLE, "room"),
            Call::TableBytes => ("table_bytes", TABLE, "room"),
            Call::Order => ("order", TABLE, ""),
            Call::OrderBytes => ("order_bytes", "", "bytes room"),
            Call::Post => ("post", STATE, "place count"),
            Call::Slot => ("slot", STATE, ""),
            Call::Run => ("run", STATE, "length"),
            Call::Lead => ("lead", STATE, "place length each log"),
            Call::Figures => ("figures", STATE, "place for"),
            Call::Chain => ("chain", STATE, "place names length"),
            Call::Carry => ("carry", STATE, "old length"),
            Call::State => ("state", STATE, ""),
            Call::AllCalls => ("all_calls", STATE, "place count for length"),
            Call::Slots => ("slots", STATE, "place count after length"),
            Call::SlotsAsRun => ("slots_as_run", STATE, "length"),
            Call::SlotsAndCredits => ("slots_and_credits", STATE, "length"),
            Call::Floor => ("floor", STATE, "place count after length"),
        }
    }

    fn by_name(name: &str) -> Result<Call, String> {
        Call::ALL.into_iter().find(|call| call.name() == name).ok_or(format!("no call is named {name:?}"))
    }

    fn has(self, field: &str) -> bool {
        let (_, value, more) = self.form();
        value.split(' ').chain(more.split(' ')).any(|name| name == field)
    }
}

/// The fields: how many numbers each has, at least and at most, and the largest.
const FIELDS: [(&str, usize, usize, u64); 22] = [
    ("T", 0, 0, 0),
    ("D", 1, 1, NARROW),
    ("N", 1, 1, u64::MAX),
    ("rate", 1, MAX_PLACES, NARROW),
    ("burst", 1, MAX_PLACES, NARROW),
    ("need", 1, MAX_PLACES, NARROW),
    ("within", 1, MAX_PLACES, u64::MAX),
    ("credit", 1, MAX_PLACES, NARROW),
    ("backlog", 1, MAX_PLACES, NARROW),
    ("slot", 1, 1, u64::MAX),
    ("first", 1, 1, u64::MAX),
    ("place", 1, 1, u64::MAX),
    ("count", 1, 1, u64::MAX),
    ("for", 1, 1, u64::MAX),
    ("after", 1, 1, u64::MAX),
    ("length", 1, 1, u64::MAX),
    ("each", 1, 1, 255),
    ("log", 0, 128, 255),
    ("names", 1, MAX_PLACES, 255),
    ("bytes", 0, MOST_BYTES, 255),
    ("room", 1, 1, u64::MAX),
    ("old", 1, 1, u64::MAX),
];

/// No table has more bytes.
const MOST_BYTES: usize = 5 * (2 + 4 * MAX_PLACES);

const NARROW: u64 = u32::MAX as u64;

/// A field that a row names, by its index, and its numbers.
struct Named {
    field: usize,
    numbers: Vec<u64>,
}

pub struct Row {
    pub call: Call,
    pub answer: String,
    named: Vec<Named>,
}

impl Row {
    pub fn parse(line: &str) -> Result<Row, String> {
        let (request, answer) = line.split_once(": ").ok_or("there is no answer")?;
        let mut words = request.split(' ');
        let call = Call::by_name(words.next().unwrap_or_default())?;
        let mut row = Row { call, answer: answer.to_string(), named: Vec::new() };
        for word in words {
            row.take(word)?;
        }
        row.check_last()?;
        if row.find("each").is_some() && row.find("log").is_some() {
            return Err("a log is written out, or all of it is the same".to_string());
        }
        Ok(row)
    }

    /// A number of the field that was named last, or several that are the same, or the name of the next.
    fn take(&mut self, word: &str) -> Result<(), String> {
        let last = self.named.last_mut();
        match last.and_then(|named| numbers_in(named.field, word).map(|numbers| (named, numbers))) {
            Some((named, (number, times))) => (0..times).try_for_each(|_| named.put(number)),
            None => self.name(word),
        }
    }

    fn name(&mut self, word: &str) -> Result<(), String> {
        self.check_last()?;
        let field = FIELDS.iter().position(|form| form.0 == word).ok_or(format!("no field is named {word:?}"))?;
        if !self.call.has(word) {
            return Err(format!("{} has no field {word}", self.call.name()));
        }
        if self.find(word).is_some() {
            return Err(format!("{word} is named twice"));
        }
        if word == "T" && !self.named.is_empty() {
            return Err("T stands behind a field, whose numbers it would replace".to_string());
        }
        self.named.push(Named { field, numbers: Vec::new() });
        Ok(())
    }

    /// The field that was named last has the numbers that it needs.
    fn check_last(&self) -> Result<(), String> {
        match self.named.last() {
            Some(last) if last.numbers.len() < FIELDS[last.field].1 => Err(format!("{} has no number", last.name())),
            _ => Ok(()),
        }
    }

    fn find(&self, name: &str) -> Option<&[u64]> {
        self.named.iter().find(|named| named.name() == name).map(|named| &named.numbers[..])
    }

    /// The number of a field that has one, and 0 where it is not named.
    pub fn number(&self, name: &str) -> u64 {
        self.find(name).and_then(|numbers| numbers.first()).copied().unwrap_or(0)
    }

    pub fn bytes(&self, name: &str) -> Vec<u8> {
        self.find(name).unwrap_or_default().iter().map(|&number| number as u8).collect()
    }

    /// A lead's log: bytes that are all the same, or that are written out.
    pub fn log(&self) -> Vec<u8> {
        match self.find("each") {
            Some(each) => vec![each[0] as u8; self.number("length") as usize],
            None => self.bytes("log"),
        }
    }

    /// The names of a chain call: those that are given, and nobody's behind them, for all places that there is room for or as many as are
    /// said.
    pub fn names(&self) -> Vec<u8> {
        let mut names = self.bytes("names");
        names.resize(self.length_or("length", MAX_PLACES), NOBODY);
        names
    }

    /// How many words or names are lent: as many as are said, or the usual.
    pub fn length_or(&self, name: &str, usual: usize) -> usize {
        self.find(name).map_or(usual, |numbers| numbers[0] as usize)
    }

    /// The old words of the state: those that there was room for under the old limit, or as many as are said. What has no room is left
    /// out, and what is not named is 0.
    pub fn old_words(&self) -> Vec<u64> {
        let mut words = old_words_of(&self.state());
        words.resize(self.length_or("old", 3 + 6 * OLD_PLACES), 0);
        words
    }

    /// A number for each place: those that are named, or those of T, and 0 behind them.
    fn places(&self, name: &str, of_t: &[u64]) -> [u64; MAX_PLACES] {
        let of_t = if self.find("T").is_some() { of_t } else { &[] };
        let given = self.find(name).unwrap_or(of_t);
        std::array::from_fn(|place| given.get(place).copied().unwrap_or(0))
    }

    pub fn table(&self) -> Table {
        let (rate, burst) = (self.places("rate", &[1, 1]), self.places("burst", &[8, 4]));
        let (need, within) = (self.places("need", &[1, 1]), self.places("within", &[4, 7]));
        let requestor = |p: usize| Requestor { rate: rate[p], burst: burst[p], need: need[p], within: within[p] };
        Table {
            denominator: self.places("D", &[4])[0],
            count: self.places("N", &[2])[0],
            requestors: std::array::from_fn(requestor),
        }
    }

    /// The state, sound or not; the credits are the bursts where none are named.
    pub fn state(&self) -> State {
        let table = self.table();
        let opening = table.requestors.map(|requestor| requestor.burst);
        let credit = if self.find("credit").is_some() { self.places("credit", &[]) } else { opening };
        let backlog = self.places("backlog", &[]);
        let account = |p: usize| Account { credit: credit[p], backlog: backlog[p] };
        State { table, slot: self.number("slot"), accounts: std::array::from_fn(account) }
    }

    /// The table as the numbers that are exported: D, N, then rate, burst, need and within of each place. None if one does not fit.
    pub fn numbers(&self) -> Option<Vec<u32>> {
        let table = self.table();
        let rows = table.requestors.iter().flat_map(|row| [row.rate, row.burst, row.need, row.within]);
        [table.denominator, table.count].into_iter().chain(rows).map(|number| u32::try_from(number).ok()).collect()
    }
}

impl Named {
    fn name(&self) -> &'static str {
        FIELDS[self.field].0
    }

    fn put(&mut self, number: u64) -> Result<(), String> {
        let (name, _, most, largest) = FIELDS[self.field];
        if self.numbers.len() == most || number > largest {
            return Err(format!("{name} cannot have {number}"));
        }
        self.numbers.push(number);
        Ok(())
    }
}

/// A number and how often it stands there: once, or as often as is said behind an x, which is twice or more.
fn numbers_in(field: usize, word: &str) -> Option<(u64, u64)> {
    match word.split_once('x') {
        Some((number, times)) => Some((number_in(field, number)?, decimal(times).filter(|&times| times > 1)?)),
        None => Some((number_in(field, word)?, 1)),
    }
}

/// Bytes are two digits in sixteens, and all other numbers are in tens.
fn number_in(field: usize, word: &str) -> Option<u64> {
    if FIELDS[field].0 == "bytes" {
        let digits = word.len() == 2 && word.bytes().all(|c| matches!(c, b'0'..=b'9' | b'a'..=b'f'));
        return u64::from_str_radix(word, 16).ok().filter(|_| digits);
    }
    decimal(word)
}

fn decimal(word: &str) -> Option<u64> {
    word.parse().ok().filter(|_| word.bytes().all(|c| c.is_ascii_digit()))
}
