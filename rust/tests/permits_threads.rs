//! Permits under many threads, while schedulers follow one another: none is lost, and journals are legal.
use std::sync::atomic::{AtomicBool, AtomicU32, Ordering};
use std::task::Poll;
use std::thread;
use std::time::{Duration, Instant};

use twodfq::{Builder, Cause, Estimator, KindId, Permit, Permits, Policy, TenantId, Terms};

mod executor;
mod journals;

use executor::{block_on, poll};
use journals::{judge, Text};

/// The time limit of a call that ends at once on a processor of its own.
const LIMIT: Duration = Duration::from_secs(20);

fn builder() -> Builder {
    Permits::builder().workers(4).tenant("acme", 1).tenant("globex", 2).tenant("hooli", 3).kind("get").kind("scan")
}

/// Takes this number of permits, each of which comes soon; then none is free.
fn take_all(permits: &Permits, count: u32) {
    let take = |i| permits.acquire_timeout(TenantId::new(i % 3), KindId::FIRST, LIMIT).unwrap();
    let held: Vec<Permit> = (0..count).map(take).collect();
    assert_eq!(permits.try_acquire("acme", KindId::FIRST).unwrap_err(), Cause::NoneFree);
    drop(held);
}

/// Holds permits for a moment from several threads, of which some give up, and counts how many are held at once.
struct Crowd<'a> {
    permits: &'a Permits,
    now: AtomicU32,
    most: AtomicU32,
    held: AtomicU32,
}

impl Crowd<'_> {
    fn hold(&self, permit: Permit, i: u32) {
        self.most.fetch_max(self.now.fetch_add(1, Ordering::SeqCst) + 1, Ordering::SeqCst);
        self.held.fetch_add(1, Ordering::SeqCst);
        if i % 4 == 0 {
            thread::yield_now();
        }
        self.now.fetch_sub(1, Ordering::SeqCst);
        if i % 3 == 0 {
            permit.finish(u64::from(i % 100));
        }
    }

    /// One request, in one of the ways to ask.
    fn ask(&self, i: u32) {
        let (tenant, kind) = (TenantId::new(i % 3), KindId::new(i % 2));
        let reply = match i % 6 {
            0 => self.permits.acquire_blocking(tenant, kind),
            1 => self.permits.acquire_timeout(tenant, kind, Duration::from_micros(50)),
            2 => self.permits.try_acquire(tenant, kind),
            3 => block_on(self.permits.acquire_by(tenant, kind, Instant::now() + Duration::from_micros(50))),
            4 => block_on(self.permits.acquire(tenant, kind)),
            _ => {
                let mut gives_up = self.permits.acquire(tenant, kind);
                let polled = poll(&mut gives_up);
                if i % 12 == 5 {
                    thread::yield_now();
                }
                if let Poll::Ready(reply) = polled {
                    reply
                } else {
                    return;
                }
            }
        };
        match reply {
            Ok(permit) => self.hold(permit, i),
            Err(cause) => assert!(matches!(cause, Cause::Late | Cause::NoneFree), "{cause}"),
        }
    }
}

/// Eight threads ask, while the number of permits and the weights change.
fn ask_from_all_sides(crowd: &Crowd) {
    let goes_on = AtomicBool::new(true);
    thread::scope(|scope| {
        let ask = |t: u32| scope.spawn(move || (0..1500).for_each(|i| crowd.ask(i + t)));
        let askers: Vec<_> = (0..8_u32).map(ask).collect();
        let goes_on = &goes_on;
        scope.spawn(move || {
            for count in (1..=6).cycle().take_while(|_| goes_on.load(Ordering::SeqCst)) {
                crowd.permits.workers(count).unwrap();
                crowd.permits.weight(TenantId::new(count % 3), count * 100).unwrap();
                thread::sleep(Duration::from_micros(300));
            }
        });
        askers.into_iter().for_each(|asker| asker.join().unwrap());
        goes_on.store(false, Ordering::SeqCst);
    });
    crowd.permits.workers(6).unwrap();
}

#[test]
fn no_permit_and_no_wake_up_is_lost_under_many_threads() {
    for (policy, patience) in [(Policy::TwoDfqPlus, 0.02), (Policy::TwoDfq, 1.0), (Policy::Wfq, 0.0)] {
        let text = Text::default();
        let builder = builder().policy(policy).patience(patience).workers(3).most_workers(6).entries(3000);
        let permits = builder.open_permits().unwrap();
        let journal = permits.journal(text.clone()).unwrap();
        let [now, most, held] = [(); 3].map(|()| AtomicU32::new(0));
        let crowd = Crowd { permits: &permits, now, most, held };
        ask_from_all_sides(&crowd);
        let status = permits.status();
        let sum = |value: fn(&twodfq::TenantStatus) -> u64| status.tenants.iter().map(value).sum::<u64>();
        assert_eq!((status.waiting, status.running), (0, 0));
        assert_eq!(sum(|tenant| tenant.done + tenant.cancelled + tenant.late), sum(|tenant| tenant.submitted));
        // a permit that its dropped future never saw is done, too
        assert!(u64::from(crowd.held.load(Ordering::SeqCst)) <= sum(|tenant| tenant.done));
        assert!(crowd.most.load(Ordering::SeqCst) <= 6);
        take_all(&permits, 6);
        drop(permits);
        assert_eq!(journal.join().unwrap().cut, 0);
        text.journals().iter().for_each(|journal| judge(journal));
    }
}

#[test]
fn journals_of_permits_are_legal_under_each_policy_and_estimator() {
    for policy in [Policy::Wfq, Policy::Wf2q, Policy::Msf2q, Policy::TwoDfq, Policy::TwoDfqPlus] {
        for estimator in [Estimator::Declared, Estimator::Recent, Estimator::Pessimistic] {
            let text = Text::default();
            let builder = builder().policy(policy).estimator(estimator).entries(200).refresh(Duration::ZERO);
            let permits = builder.open_permits().unwrap();
            let journal = permits.journal(text.clone()).unwrap();
            let mut held = Vec::new();
            for i in 0..200_u32 {
                let terms = Terms::default().declared(1 + u64::from(i % 7) * 1000);
                let mut acquire = permits.acquire_with(TenantId::new(i % 3), KindId::new(i % 2), terms);
                let first = poll(&mut acquire);
                if i % 5 > 0 && held.len() > 3 {
                    drop(held.remove(i as usize % 3));
                }
                match first {
                    Poll::Ready(Ok(permit)) => held.push(permit),
                    Poll::Ready(Err(cause)) => panic!("{cause}"),
                    Poll::Pending => held.extend(match poll(&mut acquire) {
                        Poll::Ready(reply) => reply.ok(),
                        Poll::Pending => None, // and it is dropped
                    }),
                }
            }
            drop((held, permits));
            assert_eq!(journal.join().unwrap().cut, 0);
            let texts = text.journals();
            assert!(!texts.is_empty());
            texts.iter().for_each(|journal| judge(journal));
        }
    }
}

#[test]
fn all_are_served_while_old_schedulers_drain_and_permits_come_and_go() {
    for entries in [16, 24, 48] {
        let permits = builder().workers(1).most_workers(6).patience(0.0).entries(entries).open_permits().unwrap();
        let mut held = vec![permits.try_acquire("acme", KindId::FIRST).unwrap()];
        let mut waits: Vec<_> = (0..90).map(|i| permits.acquire(TenantId::new(i % 3), KindId::FIRST)).collect();
        assert!(waits.iter_mut().all(|acquire| poll(acquire).is_pending()));
        assert!(permits.status().schedulers >= 6);
        for round in 0..400 {
            permits.workers(1 + round % 6).unwrap();
            let status = permits.status();
            assert!(status.running > 0 || status.waiting == 0, "none is given: {status:?}");
            waits.retain_mut(|acquire| match poll(acquire) {
                Poll::Ready(reply) => {
                    held.push(reply.unwrap());
                    false
                }
                Poll::Pending => true,
            });
            drop(held.drain(..held.len().min(1)));
        }
        assert_eq!((waits.len(), held.len()), (0, 0));
    }
}
