//! Whose turn it is: permits go by weights, a visitor is served beside a flood, and cheap requests stay on low numbers.
use std::task::Poll;

use twodfq::{Acquire, Builder, Estimator, KindId, Permit, Permits, Policy, Terms};

mod executor;
mod journals;

use executor::poll;
use journals::{judge, Text};

fn builder() -> Builder {
    Permits::builder().estimator(Estimator::Declared).patience(0.0)
}

fn ask(permits: &Permits, tenant: &str, cost: u64) -> Acquire {
    permits.acquire_with(tenant, KindId::FIRST, Terms::default().declared(cost))
}

/// The permit, where it has come.
fn granted(acquire: &mut Acquire) -> Option<Permit> {
    match poll(acquire) {
        Poll::Ready(reply) => Some(reply.unwrap()),
        Poll::Pending => None,
    }
}

/// Tenants that always have requests of one cost waiting.
struct Flood {
    permits: Permits,
    waits: Vec<(&'static str, u64, Vec<Acquire>)>,
    held: Vec<(&'static str, u64, Permit)>,
}

impl Flood {
    fn open(permits: Permits, tenants: &[(&'static str, u64)]) -> Flood {
        let mut flood = Flood { permits, waits: Vec::new(), held: Vec::new() };
        for (tenant, cost) in tenants {
            flood.waits.push((tenant, *cost, Vec::new()));
        }
        flood.turn();
        flood
    }

    /// Fills up the waiting requests, and notes the permits that are granted. How many each tenant was given.
    fn turn(&mut self) -> Vec<usize> {
        let mut given = Vec::new();
        for (tenant, cost, waits) in &mut self.waits {
            while waits.len() < 10 {
                waits.push(ask(&self.permits, tenant, *cost));
            }
            let before = self.held.len();
            waits.retain_mut(|acquire| {
                let permit = granted(acquire);
                let waits = permit.is_none();
                self.held.extend(permit.map(|permit| (*tenant, *cost, permit)));
                waits
            });
            given.push(self.held.len() - before);
        }
        given
    }

    fn end(&mut self, place: usize) {
        let (_, cost, permit) = self.held.remove(place);
        permit.finish(cost);
    }
}

#[test]
fn permits_go_by_weights() {
    let permits = builder().workers(1).tenant("acme", 1).tenant("globex", 3).open_permits().unwrap();
    let mut flood = Flood::open(permits, &[("acme", 1_000_000), ("globex", 1_000_000)]);
    let mut sums = [0, 0];
    for _ in 0..400 {
        flood.end(0);
        let given = flood.turn();
        sums.iter_mut().zip(given).for_each(|(sum, given)| *sum += given);
    }
    assert_eq!(sums.iter().sum::<usize>(), 400);
    assert!((90..=110).contains(&sums[0]), "{sums:?}");
}

#[test]
fn a_visitor_is_next_beside_a_flood() {
    let permits = builder().workers(2).tenant("acme", 1).tenant("globex", 1).open_permits().unwrap();
    let mut flood = Flood::open(permits, &[("acme", 1_000_000)]);
    for _ in 0..50 {
        flood.end(0);
        flood.turn();
    }
    let mut visit = ask(&flood.permits, "globex", 1000);
    assert!(granted(&mut visit).is_none());
    flood.end(0);
    assert!(granted(&mut visit).is_some());
}

/// The mean number of the permits that a tenant had.
fn mean_worker(journal: &str, tenant: &str) -> f64 {
    let rows = |word: &str| {
        let rows: Vec<Vec<u64>> = journal
            .lines()
            .filter_map(|line| line.strip_prefix(word)?.strip_prefix(' '))
            .map(|line| line.split(' ').map(|number| number.parse().unwrap()).collect())
            .collect();
        rows
    };
    let owners: Vec<&str> = rows("submit").iter().map(|row| ["cheap", "costly"][row[3] as usize]).collect();
    let workers: Vec<u64> =
        rows("take").iter().filter(|row| owners[row[3] as usize] == tenant).map(|row| row[2]).collect();
    workers.iter().sum::<u64>() as f64 / workers.len() as f64
}

/// The mean numbers of the permits that cheap and costly requests get.
fn mean_workers(policy: Policy) -> [f64; 2] {
    let text = Text::default();
    let builder = builder().policy(policy).workers(8).tenant("cheap", 1).tenant("costly", 1);
    let permits = builder.open_permits().unwrap();
    let journal = permits.journal(text.clone()).unwrap();
    let mut flood = Flood::open(permits, &[("cheap", 10_000), ("costly", 1_000_000)]);
    for round in 0..4000 {
        // cheap requests end a hundred times as often
        let wanted = if round % 101 == 0 { "costly" } else { "cheap" };
        let place = flood.held.iter().position(|(tenant, ..)| *tenant == wanted).unwrap_or(0);
        flood.end(place);
        flood.turn();
    }
    drop(flood);
    journal.join().unwrap();
    let journal = &text.journals()[0];
    judge(journal);
    ["cheap", "costly"].map(|tenant| mean_worker(journal, tenant))
}

#[test]
fn cheap_requests_stay_on_low_numbers() {
    for policy in [Policy::TwoDfq, Policy::TwoDfqPlus] {
        let [cheap, costly] = mean_workers(policy);
        assert!(cheap + 2.0 < costly, "{cheap} {costly}");
    }
    let [cheap, costly] = mean_workers(Policy::Wf2q); // which knows no difference
    assert!((cheap - costly).abs() < 1.0, "{cheap} {costly}");
}
