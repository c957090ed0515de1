//! The table, its limits and its checks, and the figures that are read off it.

use super::{pass, pass_at, Fault, MAX_PLACES};

#[derive(Clone, Copy, Debug, Default, PartialEq, Eq)]
pub struct Requestor {
    pub rate: u64,
    pub burst: u64,
    pub need: u64,
    pub within: u64,
}

/// A table, sound or not: any number may stand in any field. It has room for so many places, and more than that are 2.
#[derive(Clone, Copy, Debug, PartialEq, Eq)]
pub struct Table<const PLACES: usize = MAX_PLACES> {
    pub denominator: u64,
    pub count: u64,
    pub requestors: [Requestor; PLACES],
}

impl<const PLACES: usize> Default for Table<PLACES> {
    fn default() -> Table<PLACES> {
        Table { denominator: 0, count: 0, requestors: [Requestor::default(); PLACES] }
    }
}

pub fn check_denominator(denominator: u64) -> Result<(), Fault> {
    pass((1..=65_535).contains(&denominator), 1)
}

pub fn check_count(count: u64, places: usize) -> Result<(), Fault> {
    pass((1..=places as u64).contains(&count), 2)
}

pub fn check_rate(rate: u64, denominator: u64, place: usize) -> Result<(), Fault> {
    pass_at((1..=denominator).contains(&rate), 3, Some(place))
}

pub fn check_burst(burst: u64, denominator: u64, place: usize) -> Result<(), Fault> {
    pass_at((denominator..=16_777_216).contains(&burst), 4, Some(place))
}

pub fn check_need(need: u64, place: usize) -> Result<(), Fault> {
    pass_at((1..=255).contains(&need), 5, Some(place))
}

pub fn check_within(within: u64, place: usize) -> Result<(), Fault> {
    pass_at((1..=1_073_741_824).contains(&within), 5, Some(place))
}

impl Requestor {
    /// 3, 4 and 5: all that is asked of a row in a state.
    fn check_limits(&self, denominator: u64, place: usize) -> Result<(), Fault> {
        check_rate(self.rate, denominator, place)?;
        check_burst(self.burst, denominator, place)?;
        check_need(self.need, place)?;
        check_within(self.within, place)
    }

    /// 3, 4, 5 and 17: what is asked of a row in a table that is to be accepted.
    fn check(&self, denominator: u64, place: usize) -> Result<(), Fault> {
        self.check_limits(denominator, place)?;
        self.check_need_in_burst(denominator, place)
    }

    /// 17, of a row that passed 5, so that the product is a small one.
    pub fn check_need_in_burst(&self, denominator: u64, place: usize) -> Result<(), Fault> {
        pass_at(self.need * denominator <= self.burst, 17, Some(place))
    }
}

impl<const PLACES: usize> Table<PLACES> {
    /// The requestors of places 0 to N - 1, in a table whose N is within its limits.
    pub fn used(&self) -> &[Requestor] {
        &self.requestors[..self.count as usize]
    }

    /// 1 to 7 and 17, in the order of clause 13.1.
    pub fn admit(&self) -> Result<(), Fault> {
        self.check_numbers(Requestor::check)?;
        self.check_finishes()
    }

    /// 1 to 6 in the same order: all that is asked of a table in a state.
    pub fn check_limits(&self) -> Result<(), Fault> {
        self.check_numbers(Requestor::check_limits)
    }

    /// The checks of a table but those of its finish figures, with this one for a row.
    fn check_numbers(&self, check_row: impl Fn(&Requestor, u64, usize) -> Result<(), Fault>) -> Result<(), Fault> {
        check_denominator(self.denominator)?;
        check_count(self.count, PLACES)?;
        pass(self.requestors[self.count as usize..].iter().all(|past| *past == Requestor::default()), 2)?;
        for (place, requestor) in self.used().iter().enumerate() {
            check_row(requestor, self.denominator, place)?;
        }
        self.check_rate_sum()
    }

    /// 6.
    pub fn check_rate_sum(&self) -> Result<(), Fault> {
        pass(self.used().iter().map(|requestor| requestor.rate).sum::<u64>() <= self.denominator, 6)
    }

    /// 7, of a table that passed 1 to 6.
    pub fn check_finishes(&self) -> Result<(), Fault> {
        for (place, requestor) in self.used().iter().enumerate() {
            pass_at(self.finish(place, requestor.need) <= requestor.within, 7, Some(place))?;
        }
        Ok(())
    }

    /// B of a place (clause 7.1): the bursts above it.
    pub fn bursts_above(&self, place: usize) -> u64 {
        self.requestors[..place].iter().map(|above| above.burst).sum()
    }

    /// R of a place (clause 7.1): what the rates above it leave of D.
    pub fn rate_left(&self, place: usize) -> u64 {
        self.denominator - self.requestors[..place].iter().map(|above| above.rate).sum::<u64>()
    }

    /// The wait as it is reported (clause 7.2).
    pub fn wait(&self, place: usize) -> u64 {
        self.bursts_above(place).div_ceil(self.rate_left(place))
    }

    /// The finish figure for so many transfers (clause 7.3). It is compiled into each of its callers, so that a start that is measured does
    /// not depend on who else asks for the figure.
    #[inline(always)]
    pub fn finish(&self, place: usize, transfers: u64) -> u64 {
        let (left, rate) = (self.rate_left(place), self.requestors[place].rate);
        (self.bursts_above(place) * rate + transfers * self.denominator * left).div_ceil(left * rate)
    }
}
