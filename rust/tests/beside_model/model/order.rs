//! Places for requestors that are listed in any order (clauses 8.1 to 8.3). The rule finds one order; where there are few requestors, all
//! orders can be tried.

use super::{Fault, Requestor, Table, MAX_PLACES};

/// The table that some bytes list, in an order that passes admission, at the buffer's start; and how many bytes it has.
pub fn order(bytes: &[u8], buffer: &mut [u8]) -> Result<usize, Fault> {
    let mut table = Table::<MAX_PLACES>::default();
    table.read_list(bytes)?;
    table.put_in_order()?;
    table.write(buffer)
}

impl<const PLACES: usize> Table<PLACES> {
    /// Puts the requestors of a table that passed 1 to 6 and 17 in the order of the rule. 15.
    fn put_in_order(&mut self) -> Result<(), Fault> {
        let denominator = self.denominator;
        for place in (0..self.count as usize).rev() {
            // those that have no place yet, as they were listed
            let remaining = &mut self.requestors[..=place];
            let lowest = last_to_bear_the_rest(remaining, denominator).ok_or(Fault { number: 15, place: None })?;
            // it goes to the end, and those behind it move up by one
            remaining[lowest..].rotate_left(1);
        }
        Ok(())
    }

    /// Every order of the requestors that passes admission, each table once, found by trying all that there are. Ahead of the others
    /// come those with the last of the list at the lowest place, among these those with the last of the rest at the next place up, and
    /// so on: the first is the one that clause 8.1 finds.
    pub fn passing_orders(&self) -> Vec<Table<PLACES>> {
        let mut passing = Vec::new();
        self.try_orders(self.count as usize, &mut passing);
        passing
    }

    /// So many places are open, and each of those who stand there is tried at the lowest. No need is looked at before all places are
    /// filled, and admission's other checks know no order.
    fn try_orders(&self, open: usize, passing: &mut Vec<Table<PLACES>>) {
        if open == 0 && self.check_finishes().is_ok() && !passing.contains(self) {
            passing.push(*self);
        }
        for next in (0..open).rev() {
            let mut other = *self;
            other.requestors[next..open].rotate_left(1);
            other.try_orders(open - 1, passing);
        }
    }
}

/// The last in the list that can do with the lowest place, below everybody else in it.
fn last_to_bear_the_rest(list: &[Requestor], denominator: u64) -> Option<usize> {
    let bursts: u64 = list.iter().map(|row| row.burst).sum();
    let rates: u64 = list.iter().map(|row| row.rate).sum();
    list.iter().rposition(|row| {
        let (above, left) = (bursts - row.burst, denominator - (rates - row.rate));
        // B / R + j D / n, rounded up
        (above * row.rate + row.need * denominator * left).div_ceil(left * row.rate) <= row.within
    })
}
