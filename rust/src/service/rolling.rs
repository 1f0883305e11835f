//! Schedulers one after another: before the room of one ends the next is opened, and gets the new requests. Workers
//! take from the older schedulers until these are drained.
use std::mem;
use std::sync::Arc;

use super::requests::Submitted;
use super::settings::{Settings, ONE_REQUEST_AND_CLOSE};
use crate::config::MOST_WORKERS;
use crate::{Foreseen, OpenFault, Refusal, Scheduler, Submit, Taken};

/// The caller in entries that no worker made: no worker has this number.
const CALLER: u32 = MOST_WORKERS;

/// A scheduler that was opened ahead, and the weights that it has.
pub(crate) struct Spare {
    pub(crate) scheduler: Scheduler,
    pub(crate) weights: Vec<u32>,
}

/// A scheduler, and the counts of its entries and requests.
pub(crate) struct History {
    /// How many schedulers of the pool were opened before it.
    pub(crate) number: u64,
    pub(crate) scheduler: Scheduler,
    /// The weights that it was opened with.
    pub(crate) weights: Vec<u32>,
    /// How many calls it has accepted.
    pub(crate) entries: u64,
    /// The number of workers that it has learned.
    workers: u32,
    waiting: u32,
    running: u32,
    closed: bool,
}

impl History {
    fn new(number: u64, scheduler: Scheduler, weights: Vec<u32>, workers: u32) -> History {
        History { number, scheduler, weights, entries: 0, workers, waiting: 0, running: 0, closed: false }
    }

    fn close(&mut self, moment: u64) {
        if !self.closed && self.scheduler.close(CALLER, moment).is_ok() {
            self.closed = true;
            self.entries += 1;
        }
    }

    fn is_over(&self) -> bool {
        self.closed && self.waiting == 0 && self.running == 0
    }

    fn counted<T>(&mut self, reply: Result<T, Refusal>) -> Result<T, Refusal> {
        self.entries += u64::from(reply.is_ok());
        reply
    }
}

/// A dispatch: the number of its history, and the label of its request.
pub(crate) struct Dispatch {
    pub(crate) history: u64,
    pub(crate) label: u64,
}

/// The schedulers that have work or may get some, the oldest first. All but the last are closed.
pub(crate) struct Rolling {
    pub(crate) settings: Arc<Settings>,
    pub(crate) histories: Vec<History>,
    pub(crate) weights: Vec<u32>,
    pub(crate) workers: u32,
    /// How many schedulers were opened.
    pub(crate) opened: u64,
    /// The history that the journal reads or will read next, where there is a journal.
    pub(crate) journal: Option<u64>,
    pub(crate) spare: Option<Spare>,
    pub(crate) is_opening: bool,
    /// Whether the journal of the newest scheduler has ended early, so that it goes on with the next.
    pub(crate) is_cut: bool,
    /// The histories that are over and not yet released.
    pub(crate) over: Vec<History>,
    pub(crate) is_closed: bool,
}

impl Rolling {
    pub(crate) fn open(settings: Arc<Settings>, weights: Vec<u32>, workers: u32) -> Result<Rolling, OpenFault> {
        let mut rolling = Rolling {
            settings,
            histories: Vec::new(),
            weights,
            workers,
            opened: 0,
            journal: None,
            spare: None,
            is_opening: false,
            is_cut: false,
            over: Vec::new(),
            is_closed: false,
        };
        rolling.open_next(0)?;
        Ok(rolling)
    }

    /// Opens the next scheduler, or uses the spare. It gets the present number of workers.
    fn open_next(&mut self, moment: u64) -> Result<(), OpenFault> {
        let spare = self.spare.take().filter(|spare| spare.weights == self.weights);
        let scheduler = match spare {
            Some(spare) => spare.scheduler,
            None => self.settings.open(&self.weights)?,
        };
        let mut next = History::new(self.opened, scheduler, self.weights.clone(), self.workers);
        if self.workers != self.settings.most_workers {
            let reply = next.scheduler.workers(CALLER, moment, self.workers);
            let _ = next.counted(reply); // an empty history has room for it
        }
        self.opened += 1;
        self.is_cut = false;
        self.histories.push(next);
        Ok(())
    }

    /// Closes the newest scheduler once the next is open.
    fn roll(&mut self, moment: u64) -> Result<(), OpenFault> {
        self.open_next(moment)?;
        let last = self.histories.len() - 2;
        self.histories[last].close(moment);
        self.clear(last);
        Ok(())
    }

    /// Puts a history aside if it is over.
    fn clear(&mut self, place: usize) {
        if self.histories[place].is_over() {
            self.over.push(self.histories.remove(place));
        }
    }

    /// Virtual time of the newest scheduler, where not all are over.
    pub(crate) fn virtual_time(&mut self) -> Option<u128> {
        self.histories.last_mut().map(|newest| newest.scheduler.status().virtual_time)
    }

    fn newest(&mut self) -> &mut History {
        self.histories.last_mut().expect("there is one until the pool is closed")
    }

    /// How many entries the newest history has at most, or its journal, where one is written.
    fn room(&self) -> u64 {
        self.journal.map_or(self.settings.entries.into(), |_| self.settings.journal_room())
    }

    /// Whether the next job should begin the next scheduler: a sixteenth of the entries is kept for changes while this
    /// one drains. Where nothing waits and there is a spare an eighth of the room is left unused, so that no job waits
    /// for jobs of this scheduler; or more, where the journal waits for the next.
    fn is_time_to_roll(&self) -> bool {
        let Some(newest) = self.histories.last() else { return false };
        let entries = u64::from(self.settings.entries);
        let to_come = 2 * u64::from(newest.waiting) + u64::from(newest.running) + ONE_REQUEST_AND_CLOSE;
        let is_due = self.is_cut || newest.entries * 8 >= self.room() * 7;
        let is_at_rest = is_due && newest.waiting == 0 && self.spare.is_some();
        is_at_rest || newest.entries + to_come + entries / 16 > entries
    }

    /// Makes a call on the newest scheduler, and on the next where there is no room.
    fn call<T>(
        &mut self,
        moment: u64,
        mut call: impl FnMut(&mut Scheduler) -> Result<T, Refusal>,
    ) -> Result<T, Refusal> {
        let newest = self.newest();
        let full = match call(&mut newest.scheduler) {
            Err(full @ Refusal::Full(_)) => full,
            reply => return newest.counted(reply),
        };
        if self.roll(moment).is_err() {
            return Err(full);
        }
        let newest = self.newest();
        let reply = call(&mut newest.scheduler);
        newest.counted(reply)
    }

    pub(crate) fn submit(&mut self, moment: u64, request: Submit) -> Result<Submitted, Refusal> {
        if self.is_time_to_roll() {
            let _ = self.roll(moment); // without memory it is tried once more when there is no room
        }
        let request = self.call(moment, |scheduler| scheduler.submit(CALLER, moment, request))?;
        let newest = self.newest();
        newest.waiting += 1;
        Ok(Submitted { history: newest.number, request })
    }

    /// A request that waits is withdrawn. Every history has room for that.
    pub(crate) fn withdraw(&mut self, moment: u64, submitted: Submitted) {
        let Some(place) = self.place(submitted.history) else { return };
        let history = &mut self.histories[place];
        let reply = history.scheduler.withdraw(CALLER, moment, submitted.request);
        let reply = history.counted(reply);
        debug_assert!(reply.is_ok(), "{reply:?}");
        history.waiting -= 1;
        self.clear(place);
    }

    /// The worker's next request, by the oldest scheduler that has one for it.
    pub(crate) fn take(&mut self, moment: u64, worker: u32) -> Option<Dispatch> {
        for history in self.histories.iter_mut().filter(|history| history.waiting > 0) {
            if let Ok(Taken::Run { label, .. }) = history.scheduler.take(worker, moment, worker) {
                history.entries += 1;
                history.waiting -= 1;
                history.running += 1;
                return Some(Dispatch { history: history.number, label });
            }
        }
        None
    }

    /// How many workers may take from the oldest scheduler in which a request waits for this worker; none where there is
    /// no such scheduler.
    pub(crate) fn served(&self, worker: u32) -> Option<u32> {
        let waiting = self.histories.iter().filter(|history| history.waiting > 0);
        waiting.map(|history| history.workers.min(self.workers)).find(|workers| worker < *workers)
    }

    /// Whether a head is eligible for the worker in the scheduler that it would take from.
    pub(crate) fn is_eligible(&mut self, moment: u64, worker: u32) -> bool {
        let mut histories = self.histories.iter_mut();
        let oldest = histories.find(|history| history.waiting > 0 && worker < history.workers);
        oldest.is_some_and(|history| {
            let foreseen = history.scheduler.foresee(moment, worker, 0);
            matches!(foreseen, Ok(Foreseen::Run { is_eligible: true, .. }))
        })
    }

    /// The estimate of the job that the worker would take before its time. None while an older scheduler has jobs that
    /// wait: a new job waits for these anyway.
    pub(crate) fn early(&mut self, moment: u64, worker: u32) -> Option<u64> {
        let (newest, older) = self.histories.split_last_mut()?;
        if newest.waiting == 0 || older.iter().any(|history| history.waiting > 0) {
            return None;
        }
        match newest.scheduler.foresee(moment, worker, 0) {
            Ok(Foreseen::Run { estimate, is_eligible: false, .. }) => Some(estimate),
            _ => None,
        }
    }

    fn place(&self, number: u64) -> Option<usize> {
        self.histories.iter().position(|history| history.number == number)
    }

    /// Reports the use of the worker's job. Whether it was noted: it is not where the history has no room for it.
    pub(crate) fn report(&mut self, moment: u64, worker: u32, number: u64, used: u64) -> bool {
        let Some(place) = self.place(number) else { return false };
        let history = &mut self.histories[place];
        let reply = history.scheduler.report(worker, moment, worker, used);
        history.counted(reply).is_ok()
    }

    /// The worker's job has ended.
    pub(crate) fn done(&mut self, moment: u64, worker: u32, number: u64, cost: u64) {
        let Some(place) = self.place(number) else { return };
        let history = &mut self.histories[place];
        let reply = history.scheduler.done(worker, moment, worker, cost);
        let reply = history.counted(reply);
        debug_assert_eq!(reply, Ok(()));
        history.running -= 1;
        self.clear(place);
    }

    /// The tenant has another weight. Older schedulers have it too where they have room.
    pub(crate) fn weight(&mut self, moment: u64, tenant: u32, weight: u32) -> Result<(), Refusal> {
        self.call(moment, |scheduler| scheduler.weight(CALLER, moment, tenant, weight))?;
        self.weights[tenant as usize] = weight;
        self.spare = None;
        self.tell_older(|history| history.scheduler.weight(CALLER, moment, tenant, weight));
        Ok(())
    }

    /// There is another number of workers. Older schedulers know it too where they have room.
    pub(crate) fn workers(&mut self, moment: u64, count: u32) -> Result<(), Refusal> {
        self.call(moment, |scheduler| scheduler.workers(CALLER, moment, count))?;
        self.workers = count;
        self.newest().workers = count;
        self.tell_older(|history| {
            history.scheduler.workers(CALLER, moment, count)?;
            history.workers = count;
            Ok(())
        });
        Ok(())
    }

    fn tell_older(&mut self, call: impl Fn(&mut History) -> Result<(), Refusal>) {
        let older = self.histories.len() - 1;
        for history in &mut self.histories[..older] {
            let reply = call(history);
            let _ = history.counted(reply);
        }
    }

    /// Closes the newest scheduler. A second close has nothing to change.
    pub(crate) fn close(&mut self, moment: u64) {
        if mem::replace(&mut self.is_closed, true) {
            return;
        }
        self.newest().close(moment);
        self.clear(self.histories.len() - 1);
        self.spare = None;
    }

    /// The weights of the scheduler that should be opened ahead, where it is time for that. The caller opens it.
    pub(crate) fn ahead(&mut self) -> Option<Vec<u32>> {
        let newest = self.histories.last()?;
        let is_time = self.is_cut || newest.entries * 4 >= self.room() * 3;
        if !is_time || self.is_opening || self.spare.is_some() {
            return None;
        }
        self.is_opening = true;
        Some(self.weights.clone())
    }
}
