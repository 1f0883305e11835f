//! The outcomes of requests by the counts of their callers, beside the counts of the status.
use std::fmt;
use std::iter::Sum;
use std::ops::Add;

use twodfq::{Status, TenantStatus};

use crate::Fault;

#[derive(Clone, Copy, Debug, Default, PartialEq, Eq)]
pub struct Tally {
    /// Ran to the end.
    pub done: u64,
    /// Ran, and ended by a panic.
    pub panicked: u64,
    /// Withdrawn by the caller.
    pub cancelled: u64,
    /// Withdrawn or refused because the deadline passed.
    pub late: u64,
    /// Refused for another cause.
    pub refused: u64,
    /// Futures that were dropped before they returned a permit: each was withdrawn, or got a permit, which went back.
    pub dropped: u64,
}

impl Add for Tally {
    type Output = Tally;

    fn add(self, other: Tally) -> Tally {
        Tally {
            done: self.done + other.done,
            panicked: self.panicked + other.panicked,
            cancelled: self.cancelled + other.cancelled,
            late: self.late + other.late,
            refused: self.refused + other.refused,
            dropped: self.dropped + other.dropped,
        }
    }
}

impl Sum for Tally {
    fn sum<I: Iterator<Item = Tally>>(all: I) -> Tally {
        all.fold(Tally::default(), Tally::add)
    }
}

/// The outcomes that there were, each with its number.
impl fmt::Display for Tally {
    fn fmt(&self, f: &mut fmt::Formatter<'_>) -> fmt::Result {
        let Tally { done, panicked, cancelled, late, refused, dropped } = self;
        write!(f, "{done} done")?;
        let others = [(panicked, "panicked"), (cancelled, "cancelled"), (late, "late"), (refused, "refused")];
        let others = others.into_iter().chain([(dropped, "dropped")]).filter(|(count, _)| **count > 0);
        others.into_iter().try_for_each(|(count, what)| write!(f, ", {count} {what}"))
    }
}

impl Tally {
    /// Checks that the counts of the status are those of the callers, with nothing left.
    pub fn compare(&self, status: &Status) -> Result<(), Fault> {
        let count = |of: fn(&TenantStatus) -> u64| status.tenants.iter().chain([&status.others]).map(of).sum::<u64>();
        let ended = count(|tenant| tenant.done + tenant.cancelled + tenant.late);
        let rows = [
            ("waiting", count(|tenant| tenant.waiting.into()), 0),
            ("running", count(|tenant| tenant.running.into()), 0),
            ("submitted", count(|tenant| tenant.submitted), ended),
            (
                "done or cancelled",
                count(|tenant| tenant.done + tenant.cancelled),
                self.done + self.panicked + self.cancelled + self.dropped,
            ),
            ("panicked", count(|tenant| tenant.panicked), self.panicked),
            ("late or refused", count(|tenant| tenant.late + tenant.refused), self.late + self.refused),
        ];
        match rows.iter().find(|(_, counted, seen)| counted != seen) {
            None => Ok(()),
            Some((what, counted, seen)) => {
                Err(format!("the status counts {counted} {what}, and {seen} are right").into())
            }
        }
    }
}
