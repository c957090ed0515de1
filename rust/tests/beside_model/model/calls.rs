//! The state, and the calls on it (sections 4 to 7 and 11). A refused call changes nothing.

use super::{pass, Fault, Table, IDLE, MAX_BACKLOG, MAX_LOG, MAX_PLACES, MAX_SLOT};

#[derive(Clone, Copy, Debug, Default, PartialEq, Eq)]
pub struct Account {
    pub credit: u64,
    pub backlog: u64,
}

/// A state, sound or not: any number may stand in any field.
#[derive(Clone, Copy, Debug, PartialEq, Eq)]
pub struct State<const PLACES: usize = MAX_PLACES> {
    pub table: Table<PLACES>,
    pub slot: u64,
    pub accounts: [Account; PLACES],
}

impl<const PLACES: usize> State<PLACES> {
    pub fn start(table: &[u8], first: u64) -> Result<State<PLACES>, Fault> {
        State::open(Table::read(table)?, first)
    }

    /// From a table given as numbers.
    pub fn start_numbers(table: &Table<PLACES>, first: u64) -> Result<State<PLACES>, Fault> {
        table.admit()?;
        State::open(*table, first)
    }

    /// The opening state of an accepted table.
    fn open(table: Table<PLACES>, first: u64) -> Result<State<PLACES>, Fault> {
        pass(first <= MAX_SLOT, 12)?;
        let accounts = table.requestors.map(|requestor| Account { credit: requestor.burst, backlog: 0 });
        Ok(State { table, slot: first, accounts })
    }

    pub fn post(&mut self, place: usize, count: u64) -> Result<(), Fault> {
        self.check()?;
        self.check_place(place)?;
        let backlog = &mut self.accounts[place].backlog;
        pass(count <= MAX_BACKLOG - *backlog, 21)?;
        *backlog += count;
        Ok(())
    }

    /// The stamp, and the place that was granted.
    pub fn slot(&mut self) -> Result<(u64, Option<usize>), Fault> {
        self.check()?;
        pass(self.slot < MAX_SLOT, 22)?;
        Ok((self.slot, self.advance()))
    }

    pub fn run(&mut self, log: &mut [u8]) -> Result<(), Fault> {
        self.check()?;
        pass(log.len() <= MAX_LOG, 13)?;
        pass(self.slot + log.len() as u64 <= MAX_SLOT, 22)?;
        for written in log {
            *written = self.advance().map_or(IDLE, |place| place as u8);
        }
        Ok(())
    }

    /// The reported wait and the finish figure.
    pub fn figures(&self, place: usize, transfers: u64) -> Result<(u64, u64), Fault> {
        self.check()?;
        self.check_place(place)?;
        super::table::check_need(transfers, place)?;
        Ok((self.table.wait(place), self.table.finish(place, transfers)))
    }

    pub fn lead(&self, place: usize, log: &[u8]) -> Result<i64, Fault> {
        self.check()?;
        self.check_place(place)?;
        pass(log.len() <= MAX_LOG, 13)?;
        let grants = log.iter().filter(|&&granted| usize::from(granted) == place).count() as u64;
        let due = self.table.requestors[place].rate * log.len() as u64;
        Ok((self.table.denominator * grants) as i64 - due as i64)
    }

    /// How many bytes were written. Of admission's checks a sound state's table can fail 17 and 7.
    pub fn write_table(&self, buffer: &mut [u8]) -> Result<usize, Fault> {
        self.check()?;
        self.table.admit()?;
        self.table.write(buffer)
    }

    pub fn account(&self, place: usize) -> Result<Account, Fault> {
        self.check()?;
        self.check_place(place)?;
        Ok(self.accounts[place])
    }

    /// The slot number and N.
    pub fn standing(&self) -> Result<(u64, u64), Fault> {
        self.check()?;
        Ok((self.slot, self.table.count))
    }

    /// 23 (clause 11.1).
    pub(super) fn check(&self) -> Result<(), Fault> {
        pass(self.table.check_limits().is_ok() && self.slot <= MAX_SLOT && self.accounts_are_sound(), 23)
    }

    fn accounts_are_sound(&self) -> bool {
        let (used, past) = self.accounts.split_at(self.table.count as usize);
        past.iter().all(|account| *account == Account::default())
            && used.iter().all(|account| account.backlog <= MAX_BACKLOG)
            && self.credit_sums_are_sound(used)
    }

    /// The sums of clause 5.8. A damaged credit may be as large as it likes.
    fn credit_sums_are_sound(&self, used: &[Account]) -> bool {
        let (mut credits, mut bursts) = (0_u64, 0);
        used.iter().zip(self.table.used()).all(|(account, requestor)| {
            credits = credits.saturating_add(account.credit);
            bursts += requestor.burst;
            credits <= bursts
        })
    }

    pub(super) fn check_place(&self, place: usize) -> Result<(), Fault> {
        pass((place as u64) < self.table.count, 11)
    }

    /// Clauses 5.2 to 5.6, on a sound state below the last slot number.
    fn advance(&mut self) -> Option<usize> {
        let denominator = self.table.denominator;
        let mut granted = None;
        for (place, (account, requestor)) in self.accounts.iter_mut().zip(self.table.used()).enumerate() {
            let credit = account.credit + requestor.rate;
            if account.backlog == 0 {
                account.credit = credit.min(requestor.burst);
            } else if granted.is_none() && credit >= denominator {
                granted = Some(place);
                account.backlog -= 1;
                account.credit = credit - denominator;
            } else {
                account.credit = credit;
            }
        }
        self.slot += 1;
        granted
    }
}
