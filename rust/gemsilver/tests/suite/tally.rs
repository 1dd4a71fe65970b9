//! How many calls were compared, and which refusals they met.

use std::collections::BTreeMap;

#[derive(Default)]
pub struct Tally {
    /// By call and refusal; 0 for a call that was done.
    counts: BTreeMap<(&'static str, u32), usize>,
    /// Calls by name that left out counts of the open window in partitions.
    left_out: BTreeMap<&'static str, usize>,
    /// How far lists of windows came, and where they flushed.
    lists: BTreeMap<String, usize>,
    /// Where plans stopped, and what they did before.
    plans: BTreeMap<String, usize>,
    /// What stretches of queries passed over.
    stretches: BTreeMap<&'static str, usize>,
}

impl Tally {
    pub fn record(&mut self, call: &'static str, refusal: Option<u32>) {
        *self.counts.entry((call, refusal.unwrap_or(0))).or_default() += 1;
    }

    /// Notes a call that left out counts of the open window in partitions.
    pub fn leave_out(&mut self, call: &'static str) {
        *self.left_out.entry(call).or_default() += 1;
    }

    /// Notes something of a list of windows.
    pub fn see_list(&mut self, sight: String) {
        *self.lists.entry(sight).or_default() += 1;
    }

    /// Notes something of a plan.
    pub fn see_plan(&mut self, sight: String) {
        *self.plans.entry(sight).or_default() += 1;
    }

    /// Notes something of a query's stretch.
    pub fn see_stretch(&mut self, sight: &'static str) {
        *self.stretches.entry(sight).or_default() += 1;
    }

    /// Prints what was compared, a line a call and one for all.
    pub fn print(&self, title: &str) {
        let mut calls: BTreeMap<&str, (usize, String)> = BTreeMap::new();
        for (&(call, refusal), count) in &self.counts {
            let line = calls.entry(call).or_default();
            line.0 += count;
            line.1 += &match refusal {
                0 => format!(" done {count}"),
                _ => format!(" !{refusal} {count}"),
            };
        }
        let all: usize = self.counts.values().sum();
        println!("{title}: {all} calls compared");
        for (call, (count, line)) in calls {
            println!("  {call:10} {count:7}:{line}");
        }
        for (call, count) in &self.left_out {
            println!("  {call:10} {count:7}: past an open window on the card");
        }
        for (sight, count) in &self.lists {
            println!("  lists {sight}: {count}");
        }
        for (sight, count) in &self.plans {
            println!("  plans {sight}: {count}");
        }
        for (sight, count) in &self.stretches {
            println!("  stretches {sight}: {count}");
        }
    }

    /// Each of these refusals of a call, and the call done (0), must have been met so many times.
    pub fn expect(&self, call: &'static str, refusals: &[u32], times: usize) {
        for &refusal in refusals {
            let met = self.counts.get(&(call, refusal)).copied().unwrap_or(0);
            assert!(met >= times, "{call} with {refusal}: met {met} times");
        }
    }

    /// So many lists of windows must have been seen to come so far.
    pub fn expect_lists(&self, sight: &str, times: usize) {
        let seen = self.lists.get(sight).copied().unwrap_or(0);
        assert!(seen >= times, "lists {sight}: seen {seen} times");
    }

    /// So many plans must have been seen to do so.
    pub fn expect_plans(&self, sight: &str, times: usize) {
        let seen = self.plans.get(sight).copied().unwrap_or(0);
        assert!(seen >= times, "plans {sight}: seen {seen} times");
    }

    /// So many queries must have been seen over such stretches.
    pub fn expect_stretches(&self, times: usize) {
        for sight in [
            "past some partitions",
            "past all partitions",
            "inside a partition",
            "with hits past a partition",
            "of no window",
        ] {
            let seen = self.stretches.get(sight).copied().unwrap_or(0);
            assert!(seen >= times, "stretches {sight}: seen {seen} times");
        }
    }

    /// So many queries and so many means must have left out counts of the open window in partitions.
    pub fn expect_left_out(&self, times: usize) {
        for call in ["query", "mean"] {
            let met = self.left_out.get(call).copied().unwrap_or(0);
            assert!(met >= times, "{call} past an open window: met {met} times");
        }
    }
}
