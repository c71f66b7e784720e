//! "Time is up", for subscriptions and sessions alike.

#[derive(Clone, Copy, Debug, PartialEq, Eq)]
pub struct Timing {
    pub start: u64,
    /// microseconds; 0: none
    pub timeout: u32,
}

/// `now` is not before `start` and at least `span` after it.
pub fn has_passed(start: u64, span: u32, now: u64) -> bool {
    now >= start && now - start >= u64::from(span)
}

impl Timing {
    pub fn is_up(&self, now: u64) -> bool {
        self.timeout != 0 && has_passed(self.start, self.timeout, now)
    }
}
