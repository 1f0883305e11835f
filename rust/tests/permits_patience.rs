//! Patience of permits: a free permit is kept a little for a cheap request, and no longer.
use std::task::Poll;
use std::time::{Duration, Instant};

use twodfq::{Acquire, Builder, Cause, Estimator, KindId, Permit, Permits, Policy, Terms};

mod executor;

use executor::{block_on, poll};

/// The greatest cost that may be declared.
const GREATEST: u64 = 1_000_000_000;

fn builder() -> Builder {
    let builder = Permits::builder().tenant("acme", 1).tenant("globex", 1).tenant("hooli", 1);
    builder.estimator(Estimator::Declared)
}

/// Permits of which some are held. Acme holds one, for a request with an estimate of a thousand seconds, so that no
/// further request of acme's is due for long; globex holds the others.
struct Scene {
    held: Vec<Permit>,
    permits: Permits,
}

impl Scene {
    fn open(builder: Builder, workers: u32, free: u32) -> Scene {
        let permits = builder.workers(workers).open_permits().unwrap();
        let mut scene = Scene { held: Vec::new(), permits };
        scene.hold("acme", GREATEST);
        (1 + free..workers).for_each(|_| scene.hold("globex", 1));
        scene
    }

    fn ask(&self, tenant: &str, cost: u64) -> Acquire {
        self.permits.acquire_with(tenant, KindId::FIRST, Terms::default().declared(cost))
    }

    fn hold(&mut self, tenant: &str, cost: u64) {
        self.held.push(self.ask(tenant, cost).wait().unwrap());
    }
}

fn seconds(count: u64) -> u64 {
    count * 1_000_000
}

#[test]
fn who_is_due_comes_first_and_the_close_ends_the_wait() {
    for policy in [Policy::Wf2q, Policy::Msf2q, Policy::TwoDfq, Policy::TwoDfqPlus] {
        let scene = Scene::open(builder().policy(policy).patience(1.0), 16, 1);
        drop(scene.ask("hooli", 1).wait()); // so that the permit has just become free
        let mut costly = scene.ask("acme", seconds(15));
        assert!(poll(&mut costly).is_pending());
        assert_eq!(scene.permits.status().waits, 1);
        for _ in 0..3 {
            drop(scene.ask("hooli", 1).wait().unwrap());
        }
        // declared at its initial estimate, it would be early, too
        assert_eq!(scene.permits.try_acquire("acme", KindId::FIRST).unwrap_err(), Cause::NoneFree);
        assert!(poll(&mut costly).is_pending());
        scene.permits.close();
        assert!(matches!(poll(&mut costly), Poll::Ready(Ok(_))));
    }
}

#[test]
fn a_wait_ends_after_its_part_of_the_estimate() {
    let scene = Scene::open(builder().patience(0.5), 8, 1);
    let begun = Instant::now();
    drop(scene.ask("hooli", 1).wait());
    drop(block_on(scene.ask("acme", seconds(1))).unwrap());
    let waited = begun.elapsed();
    assert!(Duration::from_millis(499) < waited && waited < Duration::from_secs(12), "{waited:?}");
    let status = scene.permits.status();
    assert_eq!(status.waits, 1);
    assert!(status.early >= 1); // a cheap request may come a microsecond before its time
    assert!(0 < status.waited && u128::from(status.waited) <= waited.as_micros());
}

#[test]
fn without_patience_the_first_has_it_at_once() {
    let scene = Scene::open(builder().patience(0.0), 4, 1);
    assert!(matches!(poll(&mut scene.ask("acme", seconds(15))), Poll::Ready(Ok(_))));
    let status = scene.permits.status();
    assert_eq!((status.early, status.waits, status.waited), (0, 0, 0));
}

#[test]
fn one_tenant_alone_never_waits() {
    let permits = builder().workers(4).patience(1.0).open_permits().unwrap();
    let ask = || permits.acquire_with("acme", KindId::FIRST, Terms::default().declared(seconds(1)));
    let held: Vec<_> = (0..4).map(|_| poll(&mut ask())).collect();
    assert!(held.iter().all(|polled| matches!(polled, Poll::Ready(Ok(_)))));
    assert_eq!((permits.status().early, permits.status().waits), (0, 0));
}

#[test]
fn the_end_of_a_request_ends_the_wait_where_it_cost_little() {
    let mut scene = Scene::open(builder().patience(1.0), 16, 1);
    drop(scene.ask("hooli", 1).wait());
    let mut costly = scene.ask("acme", seconds(15));
    assert!(poll(&mut costly).is_pending());
    scene.held.remove(0).finish(1); // acme's, whose estimate was high
    assert!(matches!(poll(&mut costly), Poll::Ready(Ok(_))));
}

#[test]
fn a_costly_request_that_is_given_up_ends_the_wait() {
    let scene = Scene::open(builder().patience(1.0), 16, 1);
    drop(scene.ask("hooli", 1).wait());
    let mut costly = scene.ask("acme", seconds(15));
    assert!(poll(&mut costly).is_pending());
    drop(costly);
    let status = scene.permits.status();
    assert_eq!((status.waiting, status.tenants[0].cancelled), (0, 1));
    assert!(matches!(poll(&mut scene.ask("hooli", 1)), Poll::Ready(Ok(_))));
}
