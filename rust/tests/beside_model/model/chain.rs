//! Places that follow one another (clauses 9.1 to 9.3).

use std::iter::successors;

use super::{pass, pass_at, Fault, State};

impl<const PLACES: usize> State<PLACES> {
    /// The chain figure of a place, where each place follows the one that is told, or nobody. 16 names the lowest place that is met again
    /// on the way from it; as many steps as there are places go all the way round any circle.
    pub fn chain(&self, place: usize, follows: &[Option<usize>; PLACES]) -> Result<u64, Fault> {
        self.check()?;
        self.check_place(place)?;
        let follows = &follows[..self.table.count as usize];
        pass(follows.iter().flatten().all(|&followed| followed < follows.len()), 11)?;
        let is_met_again = |place: usize| links(place, follows).skip(1).take(follows.len()).any(|link| link == place);
        let circle = (0..follows.len()).find(|&place| is_met_again(place));
        pass_at(circle.is_none(), 16, circle)?;
        Ok(links(place, follows).map(|link| self.table.finish(link, 1)).sum())
    }
}

/// A place, the one that it follows, and so on to one that follows nobody; round a circle there is no end.
fn links(place: usize, follows: &[Option<usize>]) -> impl Iterator<Item = usize> + '_ {
    successors(Some(place), |&link| follows[link])
}
