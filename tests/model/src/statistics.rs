//! The counters of arriving telegrams, each modulo 2^32.

use crate::refusal::Refusal;

/// One family's counters; PD and MD have one each.
#[derive(Clone, Debug, Default)]
pub struct Statistics {
    received: u32,
    delivered: u32,
    refused: [u32; 26],
}

impl Statistics {
    /// One for received and one for the outcome.
    pub fn add<T>(&mut self, outcome: &Result<T, Refusal>) {
        self.received = self.received.wrapping_add(1);
        let counter = match outcome {
            Ok(_) => &mut self.delivered,
            Err(refusal) => &mut self.refused[usize::from(refusal.number())],
        };
        *counter = counter.wrapping_add(1);
    }

    /// Received, delivered, then the refusals named, in decimal.
    pub fn told(&self, refusals: &[usize]) -> String {
        let mut words = vec![self.received.to_string(), self.delivered.to_string()];
        words.extend(refusals.iter().map(|number| self.refused[*number].to_string()));
        words.join(" ")
    }
}
