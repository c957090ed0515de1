//! What the tests share: chance, generated tables, states, names and calls, product and model side by side, and the model seen as words.

pub mod calls;
pub mod chance;
pub mod names;
pub mod pair;
pub mod states;
pub mod tables;
pub mod tally;
pub mod words;
