//! The status of a pool or of permits.
use std::sync::Arc;

use super::count::Count;
use super::histogram::Histogram;
use super::shared::{Payload, Shared};
use super::state::State;

/// The status of a tenant at some moment. Its counts are since the opening, or since the tenant got its slot.
///
/// ```
/// let pool = twodfq::Pool::builder().tenant("acme", 5).open().unwrap();
/// let status: twodfq::TenantStatus = pool.status().tenants[0].clone();
/// assert_eq!((status.name.as_str(), status.weight, status.waiting), ("acme", 5, 0));
/// ```
#[derive(Clone, Debug, Default, PartialEq, Eq)]
#[non_exhaustive]
pub struct TenantStatus {
    pub name: String,
    /// The present weight.
    pub weight: u32,
    /// How many jobs wait.
    pub waiting: u32,
    /// How many jobs run.
    pub running: u32,
    /// How many jobs were accepted.
    pub submitted: u64,
    /// How many were refused.
    pub refused: u64,
    /// How many were refused for each cause that occurred, by [`Cause::label`](crate::Cause::label).
    pub refused_by: Vec<(&'static str, u64)>,
    /// How many were cancelled while they waited.
    pub cancelled: u64,
    /// How many were withdrawn after their deadline.
    pub late: u64,
    /// How many have ended, with those that panicked.
    pub done: u64,
    /// How many ended by a panic.
    pub panicked: u64,
    /// How many reports of running jobs were noted.
    pub reports: u64,
    /// The sum of the costs of the jobs that have ended.
    pub microseconds: u64,
    /// The waits of jobs that have begun, from submit to start.
    pub wait_times: Histogram,
    /// The times of jobs that have ended, from start to end, whatever they are charged.
    pub run_times: Histogram,
}

/// The status of a pool at some moment. A result may be there a little before its job counts as done.
///
/// ```
/// let pool = twodfq::Pool::builder().workers(2).tenant("acme", 1).open().unwrap();
/// let status: twodfq::Status = pool.join();
/// assert_eq!((status.workers, status.waiting, status.running, status.schedulers), (2, 0, 0, 1));
/// assert_eq!(status.virtual_time, None);
/// ```
#[derive(Clone, Debug, PartialEq, Eq)]
#[non_exhaustive]
pub struct Status {
    /// How many workers are wanted.
    pub workers: u32,
    /// How many jobs wait.
    pub waiting: u32,
    /// How many jobs run.
    pub running: u32,
    /// How many schedulers were opened since the opening, one after another.
    pub schedulers: u64,
    /// Virtual time of the newest of these, in steps, of which a unit has 1,048,576; it begins at 0 with each. None
    /// once the pool is closed and all is done.
    pub virtual_time: Option<u128>,
    /// How many jobs were taken before their time, once the patience was over or where no wait was worth a sleep.
    /// No job is counted where no worker looks: where patience is 0, one tenant alone has jobs in the pool, or jobs of
    /// an older scheduler wait.
    pub early: u64,
    /// How often a worker waited for another job than it would have taken (see `Builder::patience`).
    pub waits: u64,
    /// The sum of these waits in microseconds, of those that have ended.
    pub waited: u64,
    /// The tenants by their numbers: those of the opening, and then those that came by name.
    pub tenants: Vec<TenantStatus>,
    /// The counts of tenants that came by name and have left, and of refused calls without a known tenant. Its name is
    /// empty, and its weight 0.
    pub others: TenantStatus,
}

impl Status {
    /// Under the lock numbers alone are copied, into memory that was taken before, and names that came since are
    /// shared: to copy names takes more than ten times as long.
    pub(crate) fn of<P: Payload>(shared: &Shared<P>) -> Status {
        let settings = &shared.settings;
        let (slots, named) = (settings.tenants.len(), settings.named as usize);
        let mut copy = Copy {
            weights: vec![0; slots],
            counts: vec![Count::default(); slots],
            names: vec![None; slots - named],
            others: Count::default(),
        };
        let mut status = copy.fill(&mut shared.lock());
        let names = (0..).map(|slot: usize| match slot.checked_sub(named) {
            None => settings.tenants.get(slot as u32),
            Some(other) => copy.names[other].as_deref(),
        });
        let tenants = copy.weights.iter().zip(&copy.counts).zip(names);
        let present = tenants.filter_map(|((weight, count), name)| Some(TenantStatus::of(name?, *weight, count)));
        status.tenants = present.collect();
        status.others = TenantStatus::of("", 0, &copy.others);
        status
    }
}

/// The copy of the tenants' weights, counts and names.
struct Copy {
    weights: Vec<u32>,
    counts: Vec<Count>,
    /// The names of the tenants that came by name.
    names: Vec<Option<Arc<str>>>,
    others: Count,
}

impl Copy {
    /// Copies the tenants, and returns the rest of the status.
    fn fill<P: Payload>(&mut self, state: &mut State<P>) -> Status {
        self.weights.copy_from_slice(&state.rolling.weights);
        self.counts.copy_from_slice(&state.counts);
        state.slots.copy_names(&mut self.names);
        self.others = state.others;
        Status {
            workers: state.rolling.workers,
            waiting: state.waiting,
            running: state.running,
            schedulers: state.rolling.opened,
            virtual_time: state.rolling.virtual_time(),
            early: state.patience.early,
            waits: state.patience.waits,
            waited: state.patience.microseconds,
            tenants: Vec::new(),
            others: TenantStatus::default(),
        }
    }
}

impl TenantStatus {
    fn of(name: &str, weight: u32, count: &Count) -> TenantStatus {
        TenantStatus {
            name: name.to_string(),
            weight,
            waiting: count.waiting,
            running: count.running,
            submitted: count.submitted,
            refused: count.refused().map(|(_, count)| count).sum(),
            refused_by: count.refused().collect(),
            cancelled: count.cancelled,
            late: count.late,
            done: count.done,
            panicked: count.panicked,
            reports: count.reports,
            microseconds: count.microseconds,
            wait_times: count.wait_times,
            run_times: count.run_times,
        }
    }
}
