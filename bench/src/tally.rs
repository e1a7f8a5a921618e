//! How often each kind of answer was given.

use std::collections::BTreeMap;

#[derive(Default)]
pub struct Tally(BTreeMap<String, u64>);

impl Tally {
    pub fn count(&mut self, kind: impl Into<String>) {
        *self.0.entry(kind.into()).or_default() += 1;
    }

    pub fn print(&self) {
        for (kind, count) in &self.0 {
            println!("{count:>9} {kind}");
        }
    }
}
