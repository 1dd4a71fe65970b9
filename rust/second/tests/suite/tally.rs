//! What histories did and met.

use std::collections::BTreeMap;

#[derive(Default)]
pub struct Tally {
    /// Calls of each kind: done and refused.
    pub calls: BTreeMap<&'static str, (usize, usize)>,
    /// How often each refusal was met.
    pub refusals: BTreeMap<u8, usize>,
    /// How often each thing worth testing was seen.
    pub sights: BTreeMap<String, usize>,
}

impl Tally {
    pub fn record(&mut self, call: &'static str, refusal: Option<u8>) {
        let calls = self.calls.entry(call).or_default();
        match refusal {
            None => calls.0 += 1,
            Some(number) => {
                calls.1 += 1;
                *self.refusals.entry(number).or_default() += 1;
            }
        }
    }

    pub fn see(&mut self, sight: &str) {
        *self.sights.entry(sight.to_string()).or_default() += 1;
    }

    /// So many calls of a kind must have been done.
    pub fn expect_done(&self, call: &str, times: usize) {
        let done = self.calls.get(call).map_or(0, |calls| calls.0);
        assert!(done >= times, "{call}: done {done} times");
    }

    /// A refusal must have been met so many times.
    pub fn expect_refused(&self, number: u8, times: usize) {
        let met = self.refusals.get(&number).copied().unwrap_or(0);
        assert!(met >= times, "refusal {number}: met {met} times");
    }

    /// A thing worth testing must have been seen so many times.
    pub fn expect_seen(&self, sight: &str, times: usize) {
        let seen = self.sights.get(sight).copied().unwrap_or(0);
        assert!(seen >= times, "{sight}: seen {seen} times");
    }

    pub fn absorb(&mut self, other: &Tally) {
        for (call, counts) in &other.calls {
            let calls = self.calls.entry(call).or_default();
            calls.0 += counts.0;
            calls.1 += counts.1;
        }
        for (&number, count) in &other.refusals {
            *self.refusals.entry(number).or_default() += count;
        }
        for (sight, count) in &other.sights {
            *self.sights.entry(sight.clone()).or_default() += count;
        }
    }

    pub fn print(&self, title: &str) {
        println!("{title}");
        for (call, (done, refused)) in &self.calls {
            println!("  {call:10} {done:8} done {refused:7} refused");
        }
        for (number, count) in &self.refusals {
            println!("  refusal {number:2} met {count} times");
        }
        for (sight, count) in &self.sights {
            println!("  {sight}: {count}");
        }
    }
}
