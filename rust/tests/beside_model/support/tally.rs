//! Which numbers each call came to: tests that never saw a refusal have not tested it.

use std::collections::{BTreeMap, BTreeSet};

/// 0 stands for accepted.
#[derive(Default)]
pub struct Tally(BTreeMap<&'static str, BTreeSet<u8>>);

impl Tally {
    pub fn add<Accepted, Place, Cause>(&mut self, call: &'static str, answer: &Result<Accepted, (u8, Place, Cause)>) {
        let number = answer.as_ref().map_or_else(|turned| turned.0, |_| 0);
        self.0.entry(call).or_default().insert(number);
    }

    /// Every refusal of every call that is made on a state came up, and every call was accepted too.
    pub fn expect_all_on_a_state(&self) {
        self.expect("post", &[0, 11, 21, 23]);
        self.expect("slot", &[0, 22, 23]);
        self.expect("run", &[0, 13, 22, 23]);
        self.expect("figures", &[0, 5, 11, 23]);
        self.expect("chain", &[0, 11, 16, 23]);
        self.expect("lead", &[0, 11, 13, 23]);
        self.expect("write", &[0, 7, 14, 17, 23]);
        self.expect("account", &[0, 11, 23]);
        self.expect("standing", &[0, 23]);
    }

    /// The same on sound states; of a write it depends on the tables.
    pub fn expect_all_but_23(&self) {
        self.expect("post", &[0, 11, 21]);
        self.expect("slot", &[0, 22]);
        self.expect("run", &[0, 13, 22]);
        self.expect("figures", &[0, 5, 11]);
        self.expect("chain", &[0, 11, 16]);
        self.expect("lead", &[0, 11, 13]);
        self.expect("account", &[0, 11]);
        self.expect("standing", &[0]);
    }

    /// The call came to exactly these.
    pub fn expect(&self, call: &str, numbers: &[u8]) {
        let seen: Vec<u8> = self.0.get(call).into_iter().flatten().copied().collect();
        assert_eq!(seen, numbers, "what {call} came to");
    }
}
