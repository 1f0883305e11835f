//! The counts of a tenant.
use super::cause::{Cause, LABELS};
use super::histogram::Histogram;

/// The counts of a tenant since the opening, or since it got its slot.
#[derive(Clone, Copy, Default)]
pub(crate) struct Count {
    pub(crate) waiting: u32,
    pub(crate) running: u32,
    pub(crate) submitted: u64,
    /// How many were refused, by the causes in the order of their labels.
    refused: [u64; LABELS.len()],
    pub(crate) cancelled: u64,
    pub(crate) late: u64,
    pub(crate) done: u64,
    pub(crate) panicked: u64,
    pub(crate) reports: u64,
    pub(crate) microseconds: u64,
    /// From submit to take,
    pub(crate) wait_times: Histogram,
    /// and from take to end.
    pub(crate) run_times: Histogram,
}

impl Count {
    /// Whether the tenant has requests that wait or run.
    pub(crate) fn is_open(&self) -> bool {
        self.waiting > 0 || self.running > 0
    }

    pub(crate) fn refuse(&mut self, cause: Cause) {
        if let Some(place) = LABELS.iter().position(|label| *label == cause.label()) {
            self.refused[place] += 1;
        }
    }

    /// The labels of the causes for which requests were refused, and how often.
    pub(crate) fn refused(&self) -> impl Iterator<Item = (&'static str, u64)> + '_ {
        LABELS.into_iter().zip(self.refused).filter(|(_, count)| *count > 0)
    }

    /// Adds the counts of a tenant that has left.
    pub(crate) fn add(&mut self, gone: &Count) {
        self.submitted += gone.submitted;
        self.refused.iter_mut().zip(gone.refused).for_each(|(count, more)| *count += more);
        self.cancelled += gone.cancelled;
        self.late += gone.late;
        self.done += gone.done;
        self.panicked += gone.panicked;
        self.reports += gone.reports;
        self.microseconds += gone.microseconds;
        self.wait_times.add_all(&gone.wait_times);
        self.run_times.add_all(&gone.run_times);
    }
}
