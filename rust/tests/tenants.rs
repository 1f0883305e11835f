//! Tenants that come by name and go.
use std::sync::atomic::{AtomicU64, Ordering};
use std::thread;

use twodfq::{BuildFault, Builder, Cause, KindId, OpenFault, Permit, Permits, Pool, Status, TenantId, TenantStatus};

mod executor;
mod journals;

use executor::poll;
use journals::{judge, Text};

const KIND: KindId = KindId::FIRST;

fn builder() -> Builder {
    Permits::builder().workers(4)
}

fn hold(permits: &Permits, name: &str) -> Permit {
    permits.try_acquire(name, KIND).unwrap()
}

fn names(status: &Status) -> Vec<&str> {
    status.tenants.iter().map(|tenant| tenant.name.as_str()).collect()
}

#[test]
fn who_was_without_a_request_for_longest_goes_first() {
    let permits = builder().tenant("acme", 5).most_tenants(3).open_permits().unwrap();
    assert_eq!(names(&permits.status()), ["acme"]);
    drop(hold(&permits, "a"));
    drop(hold(&permits, "b"));
    let [a, b] = ["a", "b"].map(|name| permits.tenant(name).unwrap());
    drop(permits.try_acquire(a, KIND).unwrap());
    drop(hold(&permits, "c")); // b has been idle for longer than a
    assert_eq!(names(&permits.status()), ["acme", "a", "c"]);
    assert_eq!(permits.try_acquire(b, KIND).unwrap_err(), Cause::NoTenant);
    assert_eq!(permits.weight(b, 7), Err(Cause::NoTenant));
    assert_eq!(permits.tenant("b"), None);
    assert_eq!(permits.tenant("a"), Some(a));
    drop(hold(&permits, "b"));
    let again = permits.tenant("b").unwrap();
    assert_ne!(again, b);
    assert!(permits.try_acquire(again, KIND).is_ok() && permits.try_acquire(b, KIND).is_err());
    assert_eq!(permits.tenant("acme"), Some(TenantId::new(0)));
    for slot in [1, 2, 3, 9] {
        assert_eq!(permits.try_acquire(TenantId::new(slot), KIND).unwrap_err(), Cause::NoTenant);
    }
}

#[test]
fn who_has_a_request_keeps_its_slot() {
    let permits = builder().workers(1).most_running(1).most_tenants(3).open_permits().unwrap();
    let runs = hold(&permits, "runs");
    let mut waits = permits.acquire("waits", KIND);
    let mut held = permits.acquire("runs", KIND);
    assert!(poll(&mut waits).is_pending() && poll(&mut held).is_pending());
    assert_eq!(permits.try_acquire("third", KIND).unwrap_err(), Cause::NoneFree);
    assert_eq!(names(&permits.status()), ["runs", "waits"]); // a refused tenant takes no slot
    let mut last = permits.acquire("fourth", KIND);
    assert!(poll(&mut last).is_pending());
    assert_eq!(permits.acquire_blocking("fifth", KIND).unwrap_err(), Cause::NoSlot);
    assert_eq!(permits.status().others.refused, 2); // third's and fifth's
    drop((last, waits, held, runs));
    drop(hold(&permits, "sixth"));
    assert_eq!(names(&permits.status()), ["runs", "waits", "sixth"]); // fourth has been idle for longest
}

#[test]
fn without_slots_for_others_a_name_is_not_known() {
    let permits = builder().tenant("acme", 1).open_permits().unwrap();
    assert_eq!(permits.try_acquire("globex", KIND).unwrap_err(), Cause::NoTenant);
    assert_eq!(permits.weight("globex", 5), Err(Cause::NoTenant));
    assert_eq!(permits.status().others.refused, 1);
}

#[test]
fn any_text_is_a_name() {
    let pool = Pool::builder().most_tenants(5).open().unwrap();
    let long = "n".repeat(256);
    for name in ["two words", "\"\\\n\0", "slot.0", "Ünïcödé", &long] {
        assert_eq!(pool.submit(name, KIND, || 42).unwrap().join(), Ok(42));
        assert!(pool.tenant(name).is_some());
    }
    for name in ["", &format!("{long}n")] {
        assert_eq!(pool.submit(name, KIND, || ()).unwrap_err().cause, Cause::Name);
    }
}

#[test]
fn a_weight_stays_for_a_name_that_comes_back() {
    let permits = builder().tenant("acme", 3).most_tenants(2).default_weight(2).open_permits().unwrap();
    let weight = || permits.status().tenants[1].weight;
    permits.weight("globex", 9).unwrap();
    assert_eq!(names(&permits.status()), ["acme"]); // it takes no slot yet
    for (name, wanted) in [("hooli", 2), ("globex", 9), ("hooli", 2), ("globex", 9)] {
        drop(hold(&permits, name));
        assert_eq!(weight(), wanted);
    }
    permits.weight(permits.tenant("globex").unwrap(), 4).unwrap();
    assert_eq!(weight(), 4);
    permits.weight("acme", 8).unwrap();
    for (name, wanted) in [("hooli", 2), ("globex", 4)] {
        drop(hold(&permits, name));
        assert_eq!(weight(), wanted);
    }
    permits.weight("globex", 2).unwrap(); // as any other
    drop(hold(&permits, "hooli"));
    drop(hold(&permits, "globex"));
    assert_eq!((weight(), permits.status().tenants[0].weight), (2, 8));
    assert_eq!(permits.weight("initech", 100_001), Err(Cause::Weight(100_001)));
    assert_eq!(permits.weight("globex", 0), Err(Cause::Weight(0)));
}

fn total(status: &Status, value: fn(&TenantStatus) -> u64) -> u64 {
    status.tenants.iter().chain([&status.others]).map(value).sum()
}

#[test]
fn what_is_counted_of_tenants_that_left_stays() {
    let permits = builder().most_tenants(3).open_permits().unwrap();
    let mut before = 0;
    for i in 0..50_u64 {
        hold(&permits, &format!("tenant {}", i % 7)).finish(i + 1);
        let status = permits.status();
        assert_eq!(total(&status, |tenant| tenant.done), i + 1);
        assert_eq!(total(&status, |tenant| tenant.submitted), i + 1);
        let cost = total(&status, |tenant| tenant.microseconds);
        assert_eq!(cost, before + i + 1);
        before = cost;
    }
    assert_eq!(permits.status().tenants.len(), 3);
}

#[test]
fn many_threads_and_names_share_few_slots() {
    const THREADS: u64 = 8;
    const EACH: u64 = 2000;
    let text = Text::default();
    let pool = Pool::builder().workers(3).tenant("acme", 1).most_tenants(6).entries(5000).open().unwrap();
    let journal = pool.journal(text.clone()).unwrap();
    let (ran, refused) = (AtomicU64::new(0), AtomicU64::new(0));
    thread::scope(|scope| {
        for thread in 0..THREADS {
            let (pool, ran, refused) = (&pool, &ran, &refused);
            scope.spawn(move || {
                for i in 0..EACH {
                    let name = format!("tenant {}", (i * 7 + thread * 13) % 40);
                    let name = if i % 9 == 0 { "acme" } else { &name };
                    if i % 50 == 0 {
                        pool.weight(name, 1 + (i % 5) as u32).unwrap();
                    }
                    match pool.submit(name, KIND, || ()) {
                        Ok(handle) if i % 4 == 0 => handle.join().unwrap(),
                        Ok(_) => {}
                        Err(rejected) => {
                            assert!(matches!(rejected.cause, Cause::NoSlot | Cause::TenantFull(_)), "{rejected}");
                            refused.fetch_add(1, Ordering::SeqCst);
                            continue;
                        }
                    }
                    ran.fetch_add(1, Ordering::SeqCst);
                }
            });
        }
    });
    let status = pool.join();
    assert_eq!((ran.load(Ordering::SeqCst) + refused.load(Ordering::SeqCst)), THREADS * EACH);
    assert_eq!(total(&status, |tenant| tenant.done), ran.into_inner());
    assert_eq!(total(&status, |tenant| tenant.refused), refused.into_inner());
    assert_eq!(journal.join().unwrap().cut, 0);
    let journals = text.journals();
    assert!(journals[0].contains("\ntenant acme 1\ntenant slot.1 1\ntenant slot.2 1\n"), "{}", &journals[0][..200]);
    journals.iter().for_each(|journal| judge(journal));
}

#[test]
fn how_many_tenants_there_may_be() {
    let fault = |builder: Builder| builder.open_permits().unwrap_err();
    assert!(matches!(fault(builder().tenant("a", 1).tenant("b", 1).most_tenants(1)), BuildFault::MostTenants(1)));
    assert!(matches!(fault(builder().most_tenants(0)), BuildFault::Scheduler(OpenFault::Tenants)));
    assert!(matches!(fault(builder().most_tenants(65_537)), BuildFault::Scheduler(OpenFault::Tenants)));
    assert!(matches!(fault(builder().most_tenants(9).default_weight(0)), BuildFault::Scheduler(OpenFault::Weight)));
    assert!(
        matches!(fault(builder().tenant("slot.1", 1).most_tenants(2)), BuildFault::Twice(name) if name == "slot.1")
    );
    assert!(builder().most_tenants(65_536).open_permits().is_ok());
}
