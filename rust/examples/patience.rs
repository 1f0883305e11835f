//! The worth of patience (`Builder::patience`): cheap tenants at half their share beside costly tenants that always
//! want more. For each way to serve them it prints waits from submit to start, rates, and the workers' load and waits.
//!
//!     cargo run --release --example patience -- 20          # seconds for each, and then any of these words:
//!                                                           # workers 4, log-uniform, nine, alone, empty
//!
//! 50 tenants send a cheap request every so often, of which each takes a worker for about 0.3 milliseconds, asleep, so
//! that together they use half of their share. 50 have two costly requests waiting at all times, of 100 milliseconds,
//! or with `log-uniform` of 1 to 1000. With `nine` 90 tenants are cheap and 10 costly; with `alone` there is one costly
//! tenant, and no other. `empty` measures empty jobs instead, by turns: nanoseconds a job, from its submit to its end.
mod batches;
mod fifo;

use std::cmp::Reverse;
use std::collections::BinaryHeap;
use std::env;
use std::sync::atomic::{AtomicU64, Ordering};
use std::sync::mpsc::{self, Receiver, Sender};
use std::sync::{Arc, Mutex};
use std::thread;
use std::time::{Duration, Instant};

use fifo::Fifo;
use twodfq::{KindId, Policy, Pool, TenantId};

const CHEAP: Duration = Duration::from_micros(300);
const COSTLY: Duration = Duration::from_millis(100);

/// How often each way has its turn.
const TURNS: u32 = 2;

/// The time before a turn is measured: at first the estimates of costly requests are low, and these take all workers.
const WARM_UP: Duration = Duration::from_secs(3);

/// A way to serve: under a policy with a patience, or by one queue.
struct Way {
    name: &'static str,
    policy: Option<Policy>,
    patience: f64,
}

const fn way(name: &'static str, policy: Option<Policy>, patience: f64) -> Way {
    Way { name, policy, patience }
}

const WAYS: [Way; 11] = [
    way("one queue", None, 0.0),
    way("wfq", Some(Policy::Wfq), 0.0),
    way("wf2q", Some(Policy::Wf2q), 0.0),
    way("2dfq", Some(Policy::TwoDfq), 0.0),
    way("2dfq 0.01", Some(Policy::TwoDfq), 0.01),
    way("2dfq 0.02", Some(Policy::TwoDfq), 0.02),
    way("2dfq 0.05", Some(Policy::TwoDfq), 0.05),
    way("2dfq+", Some(Policy::TwoDfqPlus), 0.0),
    way("2dfq+ 0.01", Some(Policy::TwoDfqPlus), 0.01),
    way("2dfq+ 0.02", Some(Policy::TwoDfqPlus), 0.02),
    way("2dfq+ 0.05", Some(Policy::TwoDfqPlus), 0.05),
];

/// The tenants and their requests.
#[derive(Clone, Copy)]
struct Situation {
    workers: u32,
    /// The first tenants are cheap,
    cheap: u32,
    /// and the others costly.
    costly: u32,
    is_log_uniform: bool,
}

/// Numbers that look random, equal in each run.
struct Random(u64);

impl Random {
    /// From 0 to 1.
    fn next(&mut self) -> f64 {
        self.0 = self.0.wrapping_mul(6_364_136_223_846_793_005).wrapping_add(1_442_695_040_888_963_407);
        (self.0 >> 11) as f64 / (1_u64 << 53) as f64
    }
}

/// The record of the requests that began in a turn's measured time.
struct Record {
    begun: Instant,
    over: Instant,
    /// How long cheap and costly requests waited.
    waits: [Mutex<Vec<Duration>>; 2],
    /// Nanoseconds for which workers ran requests.
    busy: AtomicU64,
}

impl Record {
    /// Runs a request.
    fn run(&self, kind: usize, submitted: Instant, time: Duration) {
        let start = Instant::now();
        thread::sleep(time);
        let end = Instant::now();
        if self.begun <= start && start < self.over {
            self.waits[kind].lock().unwrap().push(start - submitted);
        }
        let within = end.min(self.over).saturating_duration_since(start.max(self.begun));
        self.busy.fetch_add(within.as_nanos() as u64, Ordering::Relaxed);
    }
}

enum Service {
    Fair(Pool),
    Fifo(Fifo),
}

impl Service {
    fn open(way: &Way, situation: Situation) -> Service {
        let Situation { workers, cheap, costly, .. } = situation;
        let Some(policy) = way.policy else { return Service::Fifo(Fifo::open(workers)) };
        let builder = Pool::builder().workers(workers).policy(policy).patience(way.patience);
        let builder = (0..cheap + costly).fold(builder, |builder, i| builder.tenant(&format!("t{i}"), 1));
        Service::Fair(builder.open().expect("a pool of these tenants opens"))
    }

    fn submit(&self, tenant: u32, job: impl FnOnce() + Send + 'static) {
        match self {
            Service::Fair(pool) => drop(pool.submit(TenantId::new(tenant), KindId::FIRST, job)),
            Service::Fifo(fifo) => fifo.submit(job),
        }
    }
}

/// Sends cheap requests, each when it is due, until the end.
fn visit(service: &Service, situation: Situation, period: Duration, record: &Arc<Record>) {
    let mut random = Random(1);
    let first = |tenant| Reverse((Instant::now() + period.mul_f64(random.next()), tenant));
    let mut due: BinaryHeap<Reverse<(Instant, u32)>> = (0..situation.cheap).map(first).collect();
    while let Some(Reverse((moment, tenant))) = due.pop().filter(|due| due.0 .0 < record.over) {
        thread::sleep(moment.saturating_duration_since(Instant::now()));
        due.push(Reverse((moment + period.mul_f64(0.5 + random.next()), tenant)));
        let (record, submitted) = (record.clone(), Instant::now());
        service.submit(tenant, move || record.run(0, submitted, CHEAP));
    }
}

/// Sends the next costly request of a tenant whenever one has begun, until the end.
fn flood(service: &Service, situation: Situation, record: &Arc<Record>, begins: Sender<u32>, begun: Receiver<u32>) {
    let mut random = Random(2);
    while let Ok(tenant) = begun.recv() {
        let submitted = Instant::now();
        if submitted >= record.over {
            return;
        }
        let time = if situation.is_log_uniform { CHEAP.mul_f64(1000_f64.powf(random.next()) / 0.3) } else { COSTLY };
        let (record, begins) = (record.clone(), begins.clone());
        service.submit(tenant, move || {
            let _ = begins.send(tenant);
            record.run(1, submitted, time);
        });
    }
}

/// The counts of a way in all its turns.
#[derive(Default)]
struct Measured {
    waits: [Vec<Duration>; 2],
    busy: u64,
    seconds: f64,
    early: u64,
    patient: u64,
}

/// Serves by a way for some time.
fn turn(way: &Way, situation: Situation, period: Duration, time: Duration, measured: &mut Measured) {
    let begun = Instant::now() + WARM_UP;
    let record = Arc::new(Record { begun, over: begun + time, waits: Default::default(), busy: AtomicU64::new(0) });
    let service = Service::open(way, situation);
    let (begins, starts) = mpsc::channel();
    let ahead = 2.max(2 * situation.workers / situation.costly);
    for tenant in 0..situation.costly * ahead {
        begins.send(situation.cheap + tenant % situation.costly).expect("it is received below");
    }
    thread::scope(|scope| {
        scope.spawn(|| flood(&service, situation, &record, begins, starts));
        scope.spawn(|| visit(&service, situation, period, &record));
    });
    if let Service::Fair(pool) = service {
        let status = pool.join();
        measured.early += status.early;
        measured.patient += status.waits;
    }
    for (all, waits) in measured.waits.iter_mut().zip(&record.waits) {
        all.append(&mut waits.lock().unwrap());
    }
    measured.busy += record.busy.load(Ordering::Relaxed);
    measured.seconds += time.as_secs_f64();
}

/// Milliseconds at the 50th, 99th and 99.9th percentile.
fn ranks(waits: &mut [Duration]) -> String {
    waits.sort_unstable();
    let rank = |part: f64| waits.get((waits.len() as f64 * part) as usize).map_or(0.0, |wait| wait.as_secs_f64() * 1e3);
    let [median, most, nearly_all] = [0.5, 0.99, 0.999].map(rank);
    format!("{median:9.2} {most:9.2} {nearly_all:9.2}")
}

fn print(way: &Way, workers: u32, measured: &mut Measured) {
    let [cheap, costly] = &mut measured.waits;
    let [cheap_rate, costly_rate] = [cheap.len(), costly.len()].map(|count| count as f64 / measured.seconds);
    let busy = measured.busy as f64 / 1e9 / f64::from(workers) / measured.seconds;
    let (cheap, costly) = (ranks(cheap), ranks(costly));
    let (early, patient) = (measured.early, measured.patient);
    let rates = format!("{cheap_rate:9.1} {costly_rate:9.2} {busy:7.4}");
    println!("{:10} {cheap} {costly} {rates} {early:8} {patient:8}", way.name);
}

/// How often each cheap tenant sends a request: a sleep takes longer than is asked for, so it is measured first.
fn period(situation: Situation) -> Duration {
    let begun = Instant::now();
    (0..500).for_each(|_| thread::sleep(CHEAP));
    let length = begun.elapsed() / 500;
    let share = f64::from(situation.workers) / f64::from(situation.cheap + situation.costly);
    println!("a cheap request takes {:.0} microseconds", length.as_secs_f64() * 1e6);
    length.div_f64(share / 2.0)
}

fn compare(situation: Situation, time: Duration) {
    let period = period(situation);
    println!(
        "{:10} {:>9} {:>9} {:>9} {:>9} {:>9} {:>9} {:>9} {:>9} {:>7} {:>8} {:>8}",
        "", "cheap 50", "99", "99.9", "costly 50", "99", "99.9", "cheap/s", "costly/s", "busy", "early", "waits"
    );
    let mut all: [Measured; WAYS.len()] = Default::default();
    for _ in 0..TURNS {
        for (way, measured) in WAYS.iter().zip(&mut all) {
            turn(way, situation, period, time / TURNS, measured);
        }
    }
    for (way, measured) in WAYS.iter().zip(&mut all) {
        print(way, situation.workers, measured);
    }
}

/// Empty jobs of sixteen tenants, by pools of different patience.
fn compare_empty() {
    const PARTS: [f64; 4] = [0.0, 0.01, 0.02, 1.0];
    println!("{:>7} {}", "workers", PARTS.map(|part| format!("{part:8}")).join(" "));
    for workers in [1, 4, 16] {
        let open = |part| batches::builder(workers).patience(part).open().expect("a pool of sixteen tenants opens");
        let pools = PARTS.map(open);
        let mut times = PARTS.map(|_| Vec::new());
        for _ in 0..9 {
            for (pool, times) in pools.iter().zip(&mut times) {
                let submit = |number: u32, job: Box<dyn FnOnce() + Send>| batches::submit(pool, number, job);
                times.push(batches::nanoseconds(&submit, Duration::ZERO, 10));
            }
        }
        times.iter_mut().for_each(|times| times.sort_unstable());
        println!("{workers:7} {}", times.map(|times| format!("{:8}", times[4])).join(" "));
    }
}

fn main() {
    let words: Vec<String> = env::args().skip(1).collect();
    let is_said = |word: &str| words.iter().any(|other| other == word);
    if is_said("empty") {
        return compare_empty();
    }
    let number = |place: usize| words.get(place).and_then(|word| word.parse().ok());
    let workers = words.iter().position(|word| word == "workers").and_then(|place| number(place + 1)).unwrap_or(16);
    let (cheap, costly) = match (is_said("alone"), is_said("nine")) {
        (true, _) => (0, 1),
        (_, true) => (90, 10),
        _ => (50, 50),
    };
    let situation = Situation { workers, cheap, costly, is_log_uniform: is_said("log-uniform") };
    compare(situation, Duration::from_secs(number(0).unwrap_or(20).into()));
}
