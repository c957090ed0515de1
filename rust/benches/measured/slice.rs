//! The model's post and slot on places whose number is known only when it runs, as it is in the library. The checks and the rule are the
//! model's, over slices.

use super::model::{Account, Fault, Requestor, State, MAX_BACKLOG, MAX_PLACES, MAX_SLOT};

pub struct Line {
    denominator: u64,
    count: u64,
    slot: u64,
    requestors: Vec<Requestor>,
    accounts: Vec<Account>,
}

fn refused(number: u8) -> Fault {
    Fault { number, place: None }
}

impl Line {
    pub fn of<const ROOM: usize>(state: &State<ROOM>) -> Line {
        Line {
            denominator: state.table.denominator,
            count: state.table.count,
            slot: state.slot,
            requestors: state.table.requestors.to_vec(),
            accounts: state.accounts.to_vec(),
        }
    }

    pub fn post(&mut self, place: usize, count: u64) -> Result<(), Fault> {
        self.check()?;
        if place as u64 >= self.count {
            return Err(refused(11));
        }
        let backlog = &mut self.accounts[place].backlog;
        if count > MAX_BACKLOG - *backlog {
            return Err(refused(21));
        }
        *backlog += count;
        Ok(())
    }

    pub fn slot(&mut self) -> Result<(u64, Option<usize>), Fault> {
        self.check()?;
        if self.slot >= MAX_SLOT {
            return Err(refused(22));
        }
        let stamp = self.slot;
        let mut granted = None;
        let used = &self.requestors[..self.count as usize];
        for (place, (account, requestor)) in self.accounts.iter_mut().zip(used).enumerate() {
            let credit = account.credit + requestor.rate;
            if account.backlog == 0 {
                account.credit = credit.min(requestor.burst);
            } else if granted.is_none() && credit >= self.denominator {
                granted = Some(place);
                account.backlog -= 1;
                account.credit = credit - self.denominator;
            } else {
                account.credit = credit;
            }
        }
        self.slot += 1;
        Ok((stamp, granted))
    }

    /// 23.
    fn check(&self) -> Result<(), Fault> {
        let room = self.requestors.len().min(self.accounts.len()).min(MAX_PLACES);
        let head = (1..=65_535).contains(&self.denominator)
            && (1..=room as u64).contains(&self.count)
            && self.slot <= MAX_SLOT;
        if head && self.rows_are_sound() && self.accounts_are_sound() {
            Ok(())
        } else {
            Err(refused(23))
        }
    }

    fn rows_are_sound(&self) -> bool {
        let (used, past) = self.requestors.split_at(self.count as usize);
        let sound = |row: &Requestor| {
            (1..=self.denominator).contains(&row.rate)
                && (self.denominator..=16_777_216).contains(&row.burst)
                && (1..=255).contains(&row.need)
                && (1..=1_073_741_824).contains(&row.within)
        };
        past.iter().all(|row| *row == Requestor::default())
            && used.iter().all(sound)
            && used.iter().map(|row| row.rate).sum::<u64>() <= self.denominator
    }

    fn accounts_are_sound(&self) -> bool {
        let (used, past) = self.accounts.split_at(self.count as usize);
        let (mut credits, mut bursts) = (0_u64, 0);
        past.iter().all(|account| *account == Account::default())
            && used.iter().all(|account| account.backlog <= MAX_BACKLOG)
            && used.iter().zip(&self.requestors).all(|(account, requestor)| {
                credits = credits.saturating_add(account.credit);
                bursts += requestor.burst;
                credits <= bursts
            })
    }
}
