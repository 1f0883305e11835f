//! The journals of a pool's schedulers, written while it runs.
use std::fmt::{self, Write as _};
use std::io::{self, Write};
use std::mem;
use std::panic::{self, AssertUnwindSafe};
use std::sync::{Arc, PoisonError};
use std::thread::{self, JoinHandle};
use std::time::Duration;

use super::panics::{caught, panic_message};
use super::place::Place;
use super::rolling::History;
use super::settings::Settings;
use super::shared::{Payload, Shared};
use super::state::State;
use crate::{Act, Entry, Estimator, Policy};

/// How many entries are read under the lock at once.
const BATCH: usize = 256;

/// How long the journal waits for more once there is news.
const REST: Duration = Duration::from_millis(10);

/// A journal that is being written. Dropped, it is written all the same, and the pool waits for it at its end.
///
/// ```
/// let pool = twodfq::Pool::builder().tenant("acme", 1).open().unwrap();
/// let journal: twodfq::Journal = pool.journal(std::io::sink()).unwrap();
/// pool.join();
/// assert_eq!(journal.join().unwrap().journals, 1);
/// ```
pub struct Journal {
    place: Arc<Place<io::Result<Written>>>,
}

/// The counts of the journals that were written.
///
/// ```
/// let pool = twodfq::Pool::builder().tenant("acme", 1).open().unwrap();
/// let journal = pool.journal(std::io::sink()).unwrap();
/// drop(pool);
/// let written = journal.join().unwrap();
/// assert_eq!(written, twodfq::Written { journals: 1, cut: 0, missed: 0 });
/// ```
#[derive(Clone, Copy, Debug, Default, PartialEq, Eq)]
pub struct Written {
    /// How many journals were written whole, one for each scheduler.
    pub journals: u64,
    /// How many journals end before their schedulers do: the next entry was kept no longer when the writer came to it,
    /// or is beyond those that `twodfq check` reads.
    pub cut: u64,
    /// How many schedulers have no journal, since they were over before the earlier journals were written.
    pub missed: u64,
}

impl fmt::Debug for Journal {
    fn fmt(&self, f: &mut fmt::Formatter<'_>) -> fmt::Result {
        f.debug_struct("Journal").finish_non_exhaustive()
    }
}

impl Journal {
    /// Starts the thread that writes it. Fails where a journal is being written already, or the thread does not start.
    pub(crate) fn start<P: Payload>(
        shared: &Arc<Shared<P>>,
        to: impl Write + Send + 'static,
    ) -> io::Result<(Journal, JoinHandle<()>)> {
        let there_is_one = || io::Error::new(io::ErrorKind::AlreadyExists, "a journal is being written already");
        let reader = Reader::new(shared).ok_or_else(there_is_one)?;
        let place = Arc::new(Place::new());
        let result = place.clone();
        let thread = thread::Builder::new().name("twodfq-journal".to_string());
        let thread = thread.spawn(move || match panic::catch_unwind(AssertUnwindSafe(|| reader.write(to))) {
            Ok(written) => result.put(written),
            Err(payload) => {
                result.put(Err(io::Error::other(panic_message(&*payload))));
                caught(|| drop(payload));
            }
        })?;
        Ok((Journal { place }, thread))
    }

    /// Waits for the pool's end and the journal's, and returns the counts. The first fault of the writer ends the
    /// journal, and not the pool.
    ///
    /// ```
    /// use twodfq::{KindId, Pool};
    ///
    /// let pool = Pool::builder().tenant("acme", 1).open().unwrap();
    /// let no_room: &mut [u8] = Box::leak(Box::new([0; 10]));
    /// let journal = pool.journal(no_room).unwrap();
    /// pool.submit("acme", KindId::FIRST, || ()).unwrap().join().unwrap();
    /// pool.join();
    /// assert_eq!(journal.join().unwrap_err().kind(), std::io::ErrorKind::WriteZero);
    /// ```
    pub fn join(self) -> io::Result<Written> {
        self.place.wait()
    }
}

/// The place of the journal in the histories. While there is a journal, these are kept for it.
pub(crate) struct Reader<P: Payload> {
    shared: Arc<Shared<P>>,
    /// The history that is read, or the least that may be read next.
    next: u64,
    is_begun: bool,
    index: u64,
    written: Written,
}

impl<P: Payload> Drop for Reader<P> {
    fn drop(&mut self) {
        let mut state = self.shared.lock();
        state.rolling.journal = None;
        state.rolling.is_cut = false;
        let over = mem::take(&mut state.rolling.over);
        drop(state);
        drop(over);
    }
}

/// The next piece to write.
enum Piece {
    Head(Vec<u32>),
    Entries(Vec<Entry>),
    /// A journal ends, and its history, if that is over, gives its memory back.
    Ends(#[expect(dead_code, reason = "it is dropped without the lock")] Option<History>),
    Nothing,
    End,
}

impl<P: Payload> Reader<P> {
    /// Begins with the oldest scheduler that is not over; none where there is a journal already.
    pub(crate) fn new(shared: &Arc<Shared<P>>) -> Option<Reader<P>> {
        let mut state = shared.lock();
        if state.rolling.journal.is_some() {
            return None;
        }
        let next = state.rolling.histories.first().map_or(state.rolling.opened, |history| history.number);
        state.rolling.journal = Some(next);
        Some(Reader { shared: shared.clone(), next, is_begun: false, index: 0, written: Written::default() })
    }

    /// Writes all journals until the pool is at its end.
    pub(crate) fn write(mut self, mut to: impl Write) -> io::Result<Written> {
        let shared = self.shared.clone();
        let settings = shared.lock().rolling.settings.clone();
        let mut text = String::new();
        loop {
            let piece = self.piece(&mut shared.lock());
            text.clear();
            match piece {
                Piece::Head(weights) => add_head(&settings, &weights, &mut text),
                Piece::Entries(entries) => entries.iter().for_each(|entry| add_entry(entry, &mut text)),
                Piece::Ends(_) => {}
                Piece::Nothing => {
                    to.flush()?;
                    self.rest();
                }
                Piece::End => return to.flush().map(|()| self.written),
            }
            to.write_all(text.as_bytes())?;
        }
    }

    fn piece(&mut self, state: &mut State<P>) -> Piece {
        if !self.is_begun {
            return self.begin(state);
        }
        let rolling = &mut state.rolling;
        let left = rolling.settings.journal_room() - self.index;
        let mut histories = rolling.histories.iter_mut().chain(&mut rolling.over);
        let history = histories.find(|history| history.number == self.next).expect("it is kept while it is read");
        let is_all = history.entries == self.index;
        let kept = history.scheduler.entries_from(self.index).ok().filter(|_| left > 0 || is_all);
        let Some(entries) = kept.map(|entries| entries.take(BATCH.min(left as usize)).collect::<Vec<Entry>>()) else {
            self.written.cut += 1;
            rolling.is_cut = self.next + 1 == rolling.opened;
            return self.end(state);
        };
        if !entries.is_empty() {
            self.index += entries.len() as u64;
            return Piece::Entries(entries);
        }
        if rolling.over.iter().any(|history| history.number == self.next) {
            self.written.journals += 1;
            return self.end(state);
        }
        Piece::Nothing
    }

    /// Ends the journal, so that the next begins.
    fn end(&mut self, state: &mut State<P>) -> Piece {
        let over = &mut state.rolling.over;
        let place = over.iter().position(|history| history.number == self.next);
        let history = place.map(|place| over.remove(place));
        self.is_begun = false;
        self.next += 1;
        state.rolling.journal = Some(self.next);
        Piece::Ends(history)
    }

    /// Begins with the next history that there is.
    fn begin(&mut self, state: &mut State<P>) -> Piece {
        let rolling = &state.rolling;
        let histories = rolling.histories.iter().chain(&rolling.over).filter(|history| history.number >= self.next);
        let Some(history) = histories.min_by_key(|history| history.number) else {
            return if state.rolling.is_closed { Piece::End } else { Piece::Nothing };
        };
        self.written.missed += history.number - self.next;
        self.next = history.number;
        self.is_begun = true;
        self.index = 0;
        let weights = history.weights.clone();
        state.rolling.journal = Some(self.next);
        Piece::Head(weights)
    }

    /// Sleeps until there are entries to write, and then a little more, so that it is woken seldom.
    fn rest(&self) {
        let mut state = self.shared.lock();
        if self.is_behind(&state) {
            return;
        }
        state.journal_sleeps = true;
        while state.journal_sleeps {
            state = self.shared.written.wait(state).unwrap_or_else(PoisonError::into_inner);
        }
        let is_closed = state.rolling.is_closed;
        drop(state);
        if !is_closed {
            thread::sleep(REST);
        }
    }

    /// Whether there is something to write.
    fn is_behind(&self, state: &State<P>) -> bool {
        if self.next >= state.rolling.opened {
            return state.rolling.is_closed; // the next is not opened yet, or will not be
        }
        let mut live = state.rolling.histories.iter();
        let at = live.find(|history| history.number == self.next);
        at.is_none_or(|history| !self.is_begun || history.entries > self.index)
    }
}

fn add_head(settings: &Settings, weights: &[u32], text: &mut String) {
    let Settings { most_workers, tenants, kinds, room, policy, estimator, initial, .. } = settings;
    let (policy, estimator, entries) = (policy_name(*policy), estimator_name(*estimator), settings.journal_entries());
    // of the third version: requests may be withdrawn later
    add(text, format_args!("journal 3\nconfig {most_workers} {policy} {estimator} {initial} {entries} {room}\n"));
    for (tenant, weight) in tenants.iter().zip(weights) {
        add(text, format_args!("tenant {tenant} {weight}\n"));
    }
    for kind in kinds.iter() {
        add(text, format_args!("kind {kind}\n"));
    }
}

fn add_entry(Entry { who, moment, act }: &Entry, text: &mut String) {
    let mut line = |word: &str, rest: fmt::Arguments| add(text, format_args!("{word} {who} {moment}{rest}\n"));
    match act {
        Act::Submit { request, tenant, kind, declared, label } => {
            line("submit", format_args!(" {request} {tenant} {kind} {declared} {label}"))
        }
        Act::Take { worker, request, estimate } => line("take", format_args!(" {worker} {request} {estimate}")),
        Act::Report { worker, request, used } => line("report", format_args!(" {worker} {request} {used}")),
        Act::Done { worker, request, cost } => line("done", format_args!(" {worker} {request} {cost}")),
        Act::Close => line("close", format_args!("")),
        Act::Weight { tenant, weight } => line("weight", format_args!(" {tenant} {weight}")),
        Act::Workers { count } => line("workers", format_args!(" {count}")),
        Act::Withdraw { request } => line("withdraw", format_args!(" {request}")),
    }
}

fn add(text: &mut String, words: fmt::Arguments) {
    text.write_fmt(words).expect("a text takes all that is written");
}

fn policy_name(policy: Policy) -> &'static str {
    match policy {
        Policy::Wfq => "wfq",
        Policy::Wf2q => "wf2q",
        Policy::Msf2q => "msf2q",
        Policy::TwoDfq => "2dfq",
        Policy::TwoDfqPlus => "2dfq+",
    }
}

fn estimator_name(estimator: Estimator) -> &'static str {
    match estimator {
        Estimator::Declared => "declared",
        Estimator::Recent => "recent",
        Estimator::Pessimistic => "pessimistic",
    }
}
