//! The product and the model in one state, told the same calls.

use justrave::Arbiter;

use super::calls::{self, Call, Output};
use super::chance::Chance;
use super::tally::Tally;
use super::words::words_of;
use crate::model::State;

pub struct Pair<const ROOM: usize> {
    pub product: Arbiter<ROOM>,
    pub model: State<ROOM>,
}

impl<const ROOM: usize> Pair<ROOM> {
    /// In a state that no start need have made.
    pub fn of(model: State<ROOM>) -> Pair<ROOM> {
        let product = Arbiter::from_words(&words_of(&model)).expect("as many words as there is room for");
        Pair { product, model }
    }

    /// What both tell of one call, which must be the same.
    pub fn told(&mut self, call: &Call) -> Output {
        let before = self.model;
        let product = call.on_product(&mut self.product);
        let model = call.on_model(&mut self.model);
        assert!(product == model, "{call:?} on {before:?}: product (left) and model\n{product:?}\n{model:?}");
        product
    }

    /// One call on both.
    pub fn make(&mut self, call: &Call, tally: &mut Tally) {
        tally.add(call.name(), &self.told(call).answer);
    }

    /// So many calls by chance.
    pub fn make_any(&mut self, chance: &mut Chance, many: u64, tally: &mut Tally) {
        for _ in 0..many {
            self.make(&calls::any(chance, &self.model), tally);
        }
    }
}
