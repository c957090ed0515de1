//! A table's bytes (clauses 3.1 to 3.5).

use super::table::{check_burst, check_count, check_denominator, check_need, check_rate, check_within};
use super::{pass, Fault, Requestor, Table};

/// The bytes that are still to be read.
struct Reader<'a>(&'a [u8]);

impl Reader<'_> {
    fn byte(&mut self) -> Result<u8, Fault> {
        let (&first, rest) = self.0.split_first().ok_or(Fault { number: 8, place: None })?;
        self.0 = rest;
        Ok(first)
    }

    /// At most five groups; the last has no top bit, and is 0 only where it stands alone.
    fn number(&mut self) -> Result<u64, Fault> {
        let mut number = 0;
        for group in 0..5 {
            let byte = self.byte()?;
            number |= u64::from(byte & 0x7F) << (7 * group);
            if byte & 0x80 == 0 {
                let shortest = byte != 0 || group == 0;
                return pass(shortest && number <= 4_294_967_295, 9).map(|()| number);
            }
        }
        Err(Fault { number: 9, place: None })
    }

    /// A number that is checked before the next one is read.
    fn checked(&mut self, check: impl Fn(u64) -> Result<(), Fault>) -> Result<u64, Fault> {
        let number = self.number()?;
        check(number).map(|()| number)
    }

    /// The four numbers of a place, and 17 behind them.
    fn requestor(&mut self, denominator: u64, place: usize) -> Result<Requestor, Fault> {
        let requestor = Requestor {
            rate: self.checked(|rate| check_rate(rate, denominator, place))?,
            burst: self.checked(|burst| check_burst(burst, denominator, place))?,
            need: self.checked(|need| check_need(need, place))?,
            within: self.checked(|within| check_within(within, place))?,
        };
        requestor.check_need_in_burst(denominator, place).map(|()| requestor)
    }
}

impl<const PLACES: usize> Table<PLACES> {
    /// An accepted table from its bytes.
    pub fn read(bytes: &[u8]) -> Result<Table<PLACES>, Fault> {
        let mut table = Table::default();
        table.read_list(bytes)?;
        table.check_finishes()?;
        Ok(table)
    }

    /// Fills a table that is all 0. The requestors may stand in any order: every check but 7 is passed.
    pub fn read_list(&mut self, bytes: &[u8]) -> Result<(), Fault> {
        let mut reader = Reader(bytes);
        self.denominator = reader.checked(check_denominator)?;
        self.count = reader.checked(|count| check_count(count, PLACES))?;
        for place in 0..self.count as usize {
            self.requestors[place] = reader.requestor(self.denominator, place)?;
        }
        pass(reader.0.is_empty(), 10)?;
        self.check_rate_sum()
    }

    /// The bytes of a table whose N is within its limits.
    pub fn bytes(&self) -> Vec<u8> {
        let rows = self.used().iter().flat_map(|row| [row.rate, row.burst, row.need, row.within]);
        // room for all of them, so that memory is asked for once: this is measured beside the product
        let mut bytes = Vec::with_capacity(5 * (2 + 4 * PLACES));
        for number in [self.denominator, self.count].into_iter().chain(rows) {
            put_number(&mut bytes, number);
        }
        bytes
    }

    /// How many bytes were put at the buffer's start. 14.
    pub fn write(&self, buffer: &mut [u8]) -> Result<usize, Fault> {
        let bytes = self.bytes();
        let front = buffer.get_mut(..bytes.len()).ok_or(Fault { number: 14, place: None })?;
        front.copy_from_slice(&bytes);
        Ok(bytes.len())
    }
}

/// A number in its shortest form.
pub fn number_bytes(number: u64) -> Vec<u8> {
    let mut bytes = Vec::new();
    put_number(&mut bytes, number);
    bytes
}

fn put_number(bytes: &mut Vec<u8>, number: u64) {
    let mut left = number;
    while left >= 0x80 {
        bytes.push((left & 0x7F) as u8 | 0x80);
        left >>= 7;
    }
    bytes.push(left as u8);
}
