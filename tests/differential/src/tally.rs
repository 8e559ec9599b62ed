//! How often each answer was met, and each thing that has a name.

use crate::calls::Call;
use reference::calls::Drained;
use std::collections::BTreeMap;

/// Answers are 0, 1 to 14 and 101 to 133.
pub const ANSWERS: usize = 134;

pub struct Tally {
    pub calls: u64,
    pub met: [u64; ANSWERS],
    /// By previews, which `met` leaves out.
    pub previewed: [u64; ANSWERS],
    /// By draining, all together.
    pub deliveries: u64,
    pub losses: u64,
    /// What `serials` and `limits` have names for.
    pub named: BTreeMap<&'static str, u64>,
}

impl Default for Tally {
    fn default() -> Tally {
        Tally { calls: 0, met: [0; ANSWERS], previewed: [0; ANSWERS], deliveries: 0, losses: 0, named: BTreeMap::new() }
    }
}

impl Tally {
    pub fn count(&mut self, answer: u32) {
        self.calls += 1;
        self.met[answer as usize] += 1;
    }

    pub fn count_preview(&mut self, answer: u32) {
        self.calls += 1;
        self.previewed[answer as usize] += 1;
    }

    /// Draining that was accepted.
    pub fn count_drain(&mut self, drained: Drained) {
        self.count(0);
        self.deliveries += u64::from(drained.deliveries);
        self.losses += u64::from(drained.losses);
    }

    /// A call on memory, which may be a preview.
    pub fn count_call(&mut self, call: Call, answer: u32) {
        if matches!(call, Call::Preview(_)) {
            self.count_preview(answer);
        } else {
            self.count(answer);
        }
    }

    pub fn count_named(&mut self, name: &'static str, times: u64) {
        *self.named.entry(name).or_default() += times;
    }

    pub fn add(&mut self, other: &Tally) {
        self.calls += other.calls;
        self.deliveries += other.deliveries;
        self.losses += other.losses;
        for (all, more) in [(&mut self.met, other.met), (&mut self.previewed, other.previewed)] {
            all.iter_mut().zip(more).for_each(|(all, more)| *all += more);
        }
        other.named.iter().for_each(|(name, times)| self.count_named(name, *times));
    }
}
