//! How a pool and permits are opened.
use std::mem;
use std::sync::Arc;
use std::time::Instant;

use super::builder::Builder;
use super::cause::BuildFault;
use super::clock::{Clock, Measure};
use super::rolling::Rolling;
use super::shared::{Payload, Shared};
use super::state::State;
use crate::config::{MOST_ENTRIES, MOST_TENANTS};
use crate::permits::Desk;
use crate::pool::{Signals, Sleeping};
use crate::{OpenFault, Permits, Pool};

/// The least room that a scheduler of a pool has: its opening and one job surely take less.
const LEAST_ENTRIES: u32 = 16;

/// How many entries a history has that is kept whole, by default: 48 megabytes of them.
const WHOLE_ENTRIES: u32 = 1_000_000;

impl Builder {
    /// Fills in the settings that the caller left out.
    fn complete(&mut self) -> Result<(), BuildFault> {
        let settings = &mut self.settings;
        if settings.most_workers == 0 {
            settings.most_workers = self.workers;
        }
        if settings.kinds.len() == 0 {
            settings.kinds.push("-");
        }
        settings.entries = self.entries.unwrap_or(if settings.keep == 0 { WHOLE_ENTRIES } else { MOST_ENTRIES });
        self.complete_tenants()?;
        let settings = &mut self.settings;
        settings.kinds.sort()?;
        if settings.entries < LEAST_ENTRIES {
            return Err(BuildFault::Entries(settings.entries));
        }
        self.complete_limits()?;
        let settings = &self.settings;
        if !(0.0..=1.0).contains(&settings.patience) {
            return Err(BuildFault::Patience(settings.patience));
        }
        let may_be = 1..=settings.most_workers;
        may_be.contains(&self.workers).then_some(()).ok_or(BuildFault::Workers(self.workers))
    }

    /// Names the slots of tenants that come, for journals.
    fn complete_tenants(&mut self) -> Result<(), BuildFault> {
        let settings = &mut self.settings;
        settings.named = self.weights.len() as u32;
        let most = self.most_tenants.unwrap_or(settings.named);
        if most < settings.named {
            return Err(BuildFault::MostTenants(most));
        }
        if most > MOST_TENANTS {
            return Err(BuildFault::Scheduler(OpenFault::Tenants));
        }
        (settings.named..most).for_each(|slot| settings.tenants.push(&format!("slot.{slot}")));
        self.weights.resize(most as usize, settings.default_weight);
        settings.tenants.sort()
    }

    fn complete_limits(&mut self) -> Result<(), BuildFault> {
        let settings = &mut self.settings;
        settings.kinds_running = vec![None; settings.kinds.len()];
        for (name, limit) in mem::take(&mut self.limits) {
            let kind = settings.kinds.number(&name).ok_or(BuildFault::NoKind(name))?;
            settings.kinds_running[kind as usize] = Some(limit);
        }
        let others = [settings.room_per_tenant, settings.most_running];
        let is_zero = settings.kinds_running.iter().chain(&others).any(|limit| *limit == Some(0));
        if is_zero {
            Err(BuildFault::Limit)
        } else {
            Ok(())
        }
    }

    /// Opens the pool and starts its threads.
    ///
    /// ```
    /// let pool = twodfq::Pool::builder().tenant("acme", 1).open().unwrap();
    /// assert!(twodfq::Pool::builder().open().is_err()); // there is no tenant
    /// ```
    pub fn open(mut self) -> Result<Pool, BuildFault> {
        self.complete()?;
        Pool::start(self.shared(|_| Sleeping::default(), Signals::default())?).map_err(BuildFault::Thread)
    }

    /// Opens permits. Their only thread is the timekeeper, which starts here where there is patience.
    ///
    /// ```
    /// use twodfq::{BuildFault, Measure, Permits};
    ///
    /// let permits = Permits::builder().tenant("acme", 1).open_permits().unwrap();
    /// let by_processor = Permits::builder().tenant("acme", 1).measure(Measure::Processor);
    /// assert!(matches!(by_processor.open_permits(), Err(BuildFault::Measure)));
    /// ```
    pub fn open_permits(mut self) -> Result<Permits, BuildFault> {
        self.complete()?;
        if self.measure == Measure::Processor {
            return Err(BuildFault::Measure);
        }
        let refresh = self.refresh.as_micros() as u64;
        let desk = |most_workers| Desk::new(most_workers, refresh);
        Permits::start(self.shared(desk, ())?).map_err(BuildFault::Thread)
    }

    /// Opens the first scheduler.
    fn shared<P: Payload>(
        self,
        workers: impl FnOnce(u32) -> P::Workers,
        signals: P::Signals,
    ) -> Result<Arc<Shared<P>>, BuildFault> {
        let most_workers = self.settings.most_workers;
        let rolling =
            Rolling::open(Arc::new(self.settings), self.weights, self.workers).map_err(BuildFault::Scheduler)?;
        let workers = workers(most_workers); // which are not too many, since the scheduler is open
        let clock = Clock { start: Instant::now(), measure: self.measure };
        Ok(Arc::new(Shared::new(State::new(rolling, workers, clock), self.refresh, signals)))
    }
}
