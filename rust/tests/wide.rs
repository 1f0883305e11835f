//! More permits, tenants and weight than the texts of the program have.
use std::thread;
use std::time::Duration;

use twodfq::{Acquire, Cause, Estimator, KindId, Permit, Permits, Pool, TenantId};

mod executor;
mod journals;

use executor::poll;
use journals::{check, Text};

const PERMITS: u32 = 1000;
const TENANTS: u32 = 20_000;

fn name(number: u32) -> String {
    format!("tenant {number}")
}

/// The workers that the takes of a journal name.
fn takers(journal: &str) -> Vec<u32> {
    let takes = journal.lines().filter_map(|line| line.strip_prefix("take "));
    takes.map(|line| line.split(' ').nth(2).unwrap().parse().unwrap()).collect()
}

#[test]
fn each_of_a_thousand_permits_is_given_once_and_all_come_back() {
    let text = Text::default();
    let builder = Permits::builder().workers(10).most_workers(PERMITS).patience(0.0).most_tenants(TENANTS);
    let permits = builder.default_weight(100_000).open_permits().unwrap();
    let journal = permits.journal(text.clone()).unwrap();
    permits.workers(PERMITS).unwrap();
    for round in 0..3 {
        let take = |i| permits.try_acquire(&name(round * PERMITS + i), KindId::FIRST).unwrap();
        let held: Vec<Permit> = (0..PERMITS).map(take).collect();
        assert_eq!(permits.try_acquire("one more", KindId::FIRST).unwrap_err(), Cause::NoneFree);
        held.into_iter().for_each(|permit| permit.finish(1));
    }
    permits.workers(1).unwrap();
    let one = permits.try_acquire("one more", KindId::FIRST).unwrap();
    assert_eq!(permits.try_acquire("two more", KindId::FIRST).unwrap_err(), Cause::NoneFree);
    drop(one);
    drop(permits);
    assert_eq!(journal.join().unwrap().journals, 1);
    let takers = takers(&text.journals()[0]);
    for round in takers.chunks(PERMITS as usize).take(3) {
        let mut round = round.to_vec();
        round.sort_unstable();
        assert_eq!(round, (0..PERMITS).collect::<Vec<_>>());
    }
    assert_eq!(takers.len() as u32, 3 * PERMITS + 1);
}

#[test]
fn twenty_thousand_tenants_are_each_served() {
    let builder = Permits::builder().workers(PERMITS).most_tenants(TENANTS).room(TENANTS).kind("get").kind("scan");
    let permits = builder.patience(0.02).open_permits().unwrap();
    let held: Vec<Permit> = (0..PERMITS).map(|_| permits.try_acquire("flood", KindId::FIRST).unwrap()).collect();
    let mut waits: Vec<Acquire> = (1..TENANTS).map(|i| permits.acquire(&name(i), KindId::new(i % 2))).collect();
    assert!(waits.iter_mut().all(|acquire| poll(acquire).is_pending()));
    assert_eq!(permits.acquire("nobody", KindId::FIRST).wait().unwrap_err(), Cause::NoSlot);
    drop(held);
    drop(waits);
    let status = permits.status();
    assert_eq!((status.tenants.len() as u32, status.waiting, status.running), (TENANTS, 0, 0));
    let (done, cancelled) = status.tenants.iter().fold((0, 0), |sum, t| (sum.0 + t.done, sum.1 + t.cancelled));
    assert_eq!(done + cancelled, u64::from(PERMITS + TENANTS - 1));
    assert!(done >= u64::from(2 * PERMITS));
}

#[test]
fn a_held_permit_reports_by_itself_among_a_thousand() {
    let permits = Permits::builder().workers(PERMITS).tenant("acme", 1).refresh(Duration::from_millis(1));
    let permits = permits.open_permits().unwrap();
    let held: Vec<Permit> = (1..PERMITS).map(|_| permits.try_acquire("acme", KindId::FIRST).unwrap()).collect();
    held[0].used(1); // which reports no more by itself
    thread::sleep(Duration::from_millis(5));
    let before = permits.status().tenants[0].reports;
    drop(permits.try_acquire("acme", KindId::FIRST).unwrap());
    let reports = permits.status().tenants[0].reports - before;
    assert_eq!(reports, u64::from(PERMITS - 2));
    drop(held);
    assert_eq!(permits.status().running, 0);
}

/// A journal of permits with one request of each tenant, and then another weight of the first tenant.
fn journal_of(workers: u32, weight: u32) -> String {
    let text = Text::default();
    let permits = Permits::builder().workers(workers).tenant("acme", 1).tenant("globex", 2).open_permits().unwrap();
    let journal = permits.journal(text.clone()).unwrap();
    (0..2).for_each(|tenant| drop(permits.try_acquire(TenantId::new(tenant), KindId::FIRST).unwrap()));
    permits.weight("acme", weight).unwrap();
    drop(permits);
    assert_eq!(journal.join().unwrap().journals, 1);
    text.journals().remove(0)
}

#[test]
fn check_names_the_place_of_what_no_text_of_its_has() {
    let journal = journal_of(100, 1);
    assert!(
        journal.starts_with("journal 3\nconfig 100 2dfq+ pessimistic 1000 1048576 10000\ntenant acme 1\n"),
        "{journal}"
    );
    if let Some([verdict, message]) = check(&journal) {
        assert_eq!((verdict.as_str(), message.as_str()), ("", "twodfq: line 2: field 2 is out of range\n"));
    }
    let journal = journal_of(64, 5000);
    let given = journal.lines().find(|line| line.starts_with("weight ")).unwrap();
    assert!(given.starts_with("weight 4096 ") && given.ends_with(" 0 5000"), "{given}");
    if let Some([verdict, _]) = check(&journal) {
        assert_eq!(verdict, format!("entry 7 is not legal\ngiven {given}\nreply refused weight 5000\n"));
    }
}

#[test]
fn the_journal_of_a_large_room_has_room_for_what_waits() {
    let text = Text::default();
    let pool =
        Pool::builder().workers(2).tenant("acme", 1).estimator(Estimator::Declared).room(1_048_576).open().unwrap();
    let journal = pool.journal(text.clone()).unwrap();
    for _ in 0..100 {
        pool.submit("acme", KindId::FIRST, || ()).unwrap().join().unwrap();
    }
    assert_eq!(pool.join().schedulers, 1);
    assert_eq!(journal.join().unwrap().journals, 1);
    let journal = text.journals().remove(0);
    assert!(journal.starts_with("journal 3\nconfig 2 2dfq+ declared 1000 4194304 1048576\n"), "{journal}");
    assert_eq!(takers(&journal).len(), 100);
}
