//! All services under load at once, and the checks at the end.
use std::io;
use std::sync::atomic::AtomicU32;
use std::sync::Arc;
use std::thread::{self, Scope, ScopedJoinHandle};
use std::time::{Duration, Instant};

use twodfq::{Journal, Permits, Pool, Written};

use crate::judge::{self, Judge, Verdicts};
use crate::names::Names;
use crate::random::Random;
use crate::tally::Tally;
use crate::visitors::{self, Times};
use crate::{changes, churn, memory, permits, Fault};

/// The resident set may grow after a fifth of the time by a tenth, and by this number of kilobytes.
const GROWTH: u64 = 8192;

/// The heap of a hundred threads grows for half a minute. A run that is shorter than this does not check it.
const WARM: Duration = Duration::from_secs(60);

/// The services under load, and the journal of each.
struct Soak {
    pool: Pool,
    permits: Permits,
    fair: Pool,
    names: Names,
    times: Arc<Times>,
    held: AtomicU32,
    journals: [(Judge, Journal); 3],
}

/// The callers' counts, and the resident set at a fifth of the time and at the end.
struct Seen {
    pool: Tally,
    permits: Tally,
    fair: Tally,
    resident: [u64; 2],
}

/// Threads of one kind.
type Threads<'scope> = Vec<ScopedJoinHandle<'scope, Result<Tally, Fault>>>;

/// Runs the soak for this time. Returns the line of its results, or the first fault.
pub fn run(time: Duration) -> Result<String, Fault> {
    let soak = Soak::open()?;
    let seen = thread::scope(|scope| soak.load(scope, time))?;
    soak.finish(time, &seen)
}

impl Soak {
    fn open() -> Result<Soak, Fault> {
        let program = judge::program()?;
        let (pool, permits, fair) = (churn::open()?, permits::open()?, visitors::open()?);
        let judged = |begin: &dyn Fn(Judge) -> io::Result<Journal>| -> io::Result<_> {
            let judge = Judge::new(program.clone());
            Ok((judge.clone(), begin(judge)?))
        };
        let of_pool = judged(&|judge| pool.journal(judge))?;
        let of_permits = judged(&|judge| permits.journal(judge))?;
        let of_fair = judged(&|judge| fair.journal(judge))?;
        let journals = [of_pool, of_permits, of_fair];
        let (names, times, held) = (Names::default(), Arc::default(), AtomicU32::new(0));
        Ok(Soak { pool, permits, fair, names, times, held, journals })
    }

    fn load<'scope>(&'scope self, scope: &'scope Scope<'scope, '_>, time: Duration) -> Result<Seen, Fault> {
        let begun = Instant::now();
        let end = begun + time;
        let Soak { pool, permits, fair, names, times, held, .. } = self;
        let random = |thread: u64| Random::new(thread << 32);
        let changes = scope.spawn(move || changes::make(pool, permits, random(0), end));
        let on_pool: Threads = (0..churn::THREADS)
            .map(|thread| scope.spawn(move || churn::submit(pool, names, random(1 + thread), end)))
            .collect();
        let on_permits: Threads = (0..permits::THREADS)
            .map(|thread| scope.spawn(move || permits::ask(permits, names, held, random(100 + thread), end)))
            .collect();
        let floods = (0..visitors::FLOOD_THREADS)
            .map(|thread| scope.spawn(move || visitors::flood(fair, thread, times, random(200 + thread), end)));
        let visitors = (0..visitors::VISITORS)
            .map(|visitor| scope.spawn(move || visitors::visit(fair, visitor, times, random(300 + visitor), end)));
        let on_fair: Threads = floods.chain(visitors).collect();
        thread::sleep(time / 5);
        let early = memory::resident()?;
        thread::sleep(end.saturating_duration_since(Instant::now()));
        let late = memory::resident()?;
        changes.join().map_err(|_| "a thread panicked")??;
        let [pool, permits, fair] = [joined(on_pool)?, joined(on_permits)?, joined(on_fair)?];
        Ok(Seen { pool, permits, fair, resident: [early, late] })
    }

    fn finish(self, time: Duration, seen: &Seen) -> Result<String, Fault> {
        let Seen { pool, permits, fair, resident } = seen;
        self.permits.close();
        permits.compare(&self.permits.status())?;
        pool.compare(&self.pool.join())?;
        fair.compare(&self.fair.join())?;
        let verdict =
            |(judge, journal): (Judge, Journal)| -> io::Result<_> { Ok((journal.join()?, judge.verdicts()?)) };
        let [of_pool, of_permits, of_fair] = self.journals.map(verdict);
        let judged = [of_pool?, of_permits?, of_fair?];
        let [.., (_, of_fair)] = judged;
        Ok(format!(
            "soak: {} s; pool: {pool}; permits: {permits}; beside floods: {fair}; {} tenants came once; {}; {}; {}",
            time.as_secs(),
            self.names.once(),
            journals(&judged),
            memory(time, *resident)?,
            wait(&self.times, of_fair.greatest_cost)?
        ))
    }
}

fn joined(threads: Threads) -> Result<Tally, Fault> {
    threads.into_iter().map(|thread| thread.join().map_err(|_| "a thread panicked")?).sum()
}

fn journals(told: &[(Written, Verdicts)]) -> String {
    let sum = |of: fn(&(Written, Verdicts)) -> u64| told.iter().map(of).sum::<u64>();
    let (legal, cut) = (sum(|(_, verdicts)| verdicts.legal), sum(|(written, _)| written.cut));
    format!("{legal} journals legal, {cut} of them cut, {} missed", sum(|(written, _)| written.missed))
}

fn memory(time: Duration, [early, late]: [u64; 2]) -> Result<String, Fault> {
    let is_warm = time >= WARM;
    if is_warm && late > early + early / 10 + GROWTH {
        return Err(format!("{early} kB resident at a fifth of the time, and {late} kB at the end").into());
    }
    Ok(format!("resident {early} kB, at the end {late} kB{}", if is_warm { "" } else { " (not judged)" }))
}

fn wait(times: &Times, greatest_cost: u64) -> Result<String, Fault> {
    let greatest = times.greatest().max(Duration::from_micros(greatest_cost));
    let (wait, bound) = (times.wait(), visitors::bound(greatest));
    if wait > bound {
        return Err(format!("a visitor waited for {wait:?}, and the bound is {bound:?}").into());
    }
    Ok(format!("longest wait {wait:?} of {bound:?}"))
}
