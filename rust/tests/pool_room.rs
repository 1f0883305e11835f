//! Room for each tenant: a flood takes no place of another tenant's own, and not all shared places.
use std::sync::atomic::{AtomicBool, AtomicU64, Ordering};
use std::sync::mpsc;
use std::thread;
use std::time::Duration;

use twodfq::{BuildFault, Builder, Cause, KindId, Pool};

mod held;

use held::held;

const NAMES: [&str; 4] = ["acme", "globex", "hooli", "initech"];

fn builder() -> Builder {
    NAMES.iter().fold(Pool::builder(), |builder, name| builder.tenant(name, 1)).workers(1)
}

/// Hands in jobs until one is refused: how many are accepted, and the cause of the refusal.
fn fill(pool: &Pool, tenant: &str) -> (u32, Cause) {
    let mut taken = 0;
    loop {
        match pool.submit(tenant, KindId::FIRST, || ()) {
            Ok(_) => taken += 1,
            Err(rejected) => return (taken, rejected.cause),
        }
    }
}

/// How many shared places a tenant gets where this number of them are free.
fn part(free: u32) -> u32 {
    (0..=free).find(|part| part + part >= free).unwrap()
}

#[test]
fn a_flood_leaves_half_of_what_is_shared() {
    for room in [4, 5, 8, 100, 1000, 1001] {
        let (pool, sender) = held(builder().room(room));
        let own = (room / 8).max(1);
        let mut free = room - 4 * own;
        for name in NAMES {
            let places = own + part(free);
            free -= part(free);
            let (taken, cause) = fill(&pool, name);
            assert_eq!(taken, places, "of {room}");
            let is_full = pool.status().waiting == room;
            assert_eq!(cause, if is_full { Cause::TooManyWait(room) } else { Cause::TenantFull(places) });
        }
        drop(sender);
        pool.join();
    }
}

#[test]
fn places_that_are_given_back_are_free_again() {
    let pool = builder().room(64).open().unwrap();
    for round in 0..50 {
        let (sender, receiver) = mpsc::channel::<()>();
        let (begins, begun) = mpsc::channel();
        let hold = move || {
            begins.send(()).unwrap();
            let _ = receiver.recv();
        };
        pool.submit("acme", KindId::FIRST, hold).unwrap();
        begun.recv().unwrap();
        let name = NAMES[round % 4];
        assert_eq!(fill(&pool, name), (8 + 16, Cause::TenantFull(24)), "round {round}");
        drop(sender);
        while pool.status().waiting > 0 {
            thread::yield_now();
        }
    }
}

#[test]
fn where_there_are_more_tenants_than_places_all_are_shared() {
    let (pool, _sender) = held(builder().room(3));
    assert_eq!(fill(&pool, "acme"), (2, Cause::TenantFull(2)));
    assert_eq!(fill(&pool, "globex"), (1, Cause::TooManyWait(3)));
    assert_eq!(fill(&pool, "hooli"), (0, Cause::TooManyWait(3)));
}

#[test]
fn a_tenant_alone_has_the_whole_room() {
    let (pool, _sender) = held(Pool::builder().tenant("acme", 1).workers(1).room(10));
    assert_eq!(fill(&pool, "acme"), (10, Cause::TooManyWait(10)));
}

#[test]
fn a_room_of_so_many_for_each_tenant() {
    let (pool, _sender) = held(builder().room(100).room_per_tenant(60));
    assert_eq!(fill(&pool, "acme"), (60, Cause::TenantFull(60)));
    assert_eq!(fill(&pool, "globex"), (40, Cause::TooManyWait(100)));
    assert!(matches!(builder().room_per_tenant(0).open(), Err(BuildFault::Limit)));
}

#[test]
fn a_trickle_beside_a_flood_is_never_refused() {
    let pool = builder().workers(2).room(100).open().unwrap();
    let (is_over, refused) = (AtomicBool::new(false), AtomicU64::new(0));
    let flood = || {
        while !is_over.load(Ordering::SeqCst) {
            if let Err(rejected) = pool.submit("acme", KindId::FIRST, || thread::sleep(Duration::from_micros(100))) {
                assert!(matches!(rejected.cause, Cause::TenantFull(_)), "{}", rejected.cause);
                refused.fetch_add(1, Ordering::SeqCst);
                thread::sleep(Duration::from_micros(20));
            }
        }
    };
    thread::scope(|scope| {
        scope.spawn(flood);
        for i in (0..1_000_000).take_while(|i| *i < 300 || refused.load(Ordering::SeqCst) < 100) {
            let handle = pool.submit(NAMES[1 + i % 3], KindId::FIRST, || ()).expect("a trickle has its places");
            if i % 10 == 9 {
                handle.join().unwrap();
            }
        }
        is_over.store(true, Ordering::SeqCst);
    });
    assert_eq!(pool.status().tenants[0].refused, refused.into_inner());
}
