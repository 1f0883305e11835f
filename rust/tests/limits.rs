//! Limits on the running requests: of each tenant, and of a kind of each tenant.
use std::collections::HashMap;
use std::sync::atomic::{AtomicU32, Ordering};
use std::sync::{mpsc, Arc, Mutex};
use std::task::Poll;
use std::thread;
use std::time::{Duration, Instant};

use twodfq::{Acquire, BuildFault, Builder, Cause, Handle, JoinError, KindId, Permit, Permits, Pool, TenantId, Terms};

mod executor;
mod journals;

use executor::poll;
use journals::{judge, Text};

const GET: KindId = KindId::new(0);
const SCAN: KindId = KindId::new(1);

fn builder() -> Builder {
    Pool::builder().workers(8).tenant("acme", 1).tenant("globex", 2).kind("get").kind("scan")
}

/// How many run at once, and how many did at most.
#[derive(Default)]
struct Level {
    now: AtomicU32,
    most: AtomicU32,
}

impl Level {
    fn during(&self, call: impl FnOnce()) {
        self.most.fetch_max(self.now.fetch_add(1, Ordering::SeqCst) + 1, Ordering::SeqCst);
        call();
        self.now.fetch_sub(1, Ordering::SeqCst);
    }

    fn most(&self) -> u32 {
        self.most.load(Ordering::SeqCst)
    }
}

/// The most that run at once: of each tenant, and of each tenant's scans.
fn levels(builder: Builder) -> [[u32; 2]; 2] {
    let pool = builder.open().unwrap();
    let levels: Arc<[[Level; 2]; 2]> = Arc::default();
    let handles: Vec<Handle<()>> = (0..400_usize)
        .map(|i| {
            let (tenant, kind, levels) = (i % 2, i / 2 % 2, levels.clone());
            let work = || thread::sleep(Duration::from_micros(300));
            let job = move || {
                levels[0][tenant].during(|| {
                    if kind == 1 {
                        levels[1][tenant].during(work);
                    } else {
                        work();
                    }
                })
            };
            pool.submit(TenantId::new(tenant as u32), KindId::new(kind as u32), job).unwrap()
        })
        .collect();
    handles.into_iter().for_each(|handle| handle.join().unwrap());
    assert_eq!(pool.join().tenants.iter().map(|tenant| tenant.done).collect::<Vec<_>>(), [200, 200]);
    levels.each_ref().map(|levels| levels.each_ref().map(Level::most))
}

#[test]
fn no_more_run_than_may_and_as_many_as_may() {
    assert_eq!(levels(builder().most_running(2))[0], [2, 2]);
    assert_eq!(levels(builder().kind_most_running("scan", 1))[1], [1, 1]);
    let [all, scans] = levels(builder().most_running(3).kind_most_running("scan", 1));
    assert_eq!((all, scans), ([3, 3], [1, 1]));
    let [all, _] = levels(builder().kind_most_running("scan", 1));
    assert!(all.iter().all(|most| *most > 1), "{all:?}");
}

#[test]
fn the_workers_that_a_limit_leaves_serve_others() {
    let pool = builder().workers(2).most_running(1).open().unwrap();
    let (sender, receiver) = mpsc::channel::<()>();
    let _long = pool.submit("acme", GET, move || receiver.recv().is_ok()).unwrap();
    let held: Vec<_> = (0..10).map(|i| pool.submit("acme", GET, move || i).unwrap()).collect();
    for i in 0..10 {
        assert_eq!(pool.submit("globex", GET, move || i).unwrap().join(), Ok(i));
    }
    assert_eq!((pool.status().tenants[0].waiting, held.iter().filter(|handle| handle.is_done()).count()), (10, 0));
    drop(sender);
    let results: Vec<_> = held.into_iter().map(|handle| handle.join().unwrap()).collect();
    assert_eq!(results, (0..10).collect::<Vec<_>>());
}

/// The permit, where it has come.
fn granted(acquire: &mut Acquire) -> Option<Permit> {
    match poll(acquire) {
        Poll::Ready(reply) => Some(reply.unwrap()),
        Poll::Pending => None,
    }
}

/// Requests of acme's that wait, of these kinds.
fn waiting<const N: usize>(permits: &Permits, kinds: [KindId; N]) -> [Acquire; N] {
    kinds.map(|kind| {
        let mut acquire = permits.acquire("acme", kind);
        assert!(granted(&mut acquire).is_none());
        acquire
    })
}

#[test]
fn what_came_first_goes_first_of_the_kinds_that_may_go() {
    let permits = builder().most_running(2).kind_most_running("scan", 1).open_permits().unwrap();
    let [scan, get] = [SCAN, GET].map(|kind| permits.try_acquire("acme", kind).unwrap());
    let [mut second, mut third, mut fourth] = waiting(&permits, [SCAN, GET, GET]);
    drop(get); // a scan runs still, so the scan that came before may not go
    let third = granted(&mut third).expect("the first get goes");
    assert!(granted(&mut second).is_none() && granted(&mut fourth).is_none());
    drop(scan);
    let second = granted(&mut second).expect("the scan came before the other get");
    assert!(granted(&mut fourth).is_none());
    drop((second, third));
    assert!(granted(&mut fourth).is_some());
}

#[test]
fn what_is_held_back_is_withdrawn_and_makes_room() {
    let permits = builder().room(3).room_per_tenant(3).most_running(1).open_permits().unwrap();
    let held = permits.try_acquire("acme", GET).unwrap();
    let [first, second, mut third] = waiting(&permits, [GET, SCAN, GET]);
    assert_eq!(permits.acquire("acme", GET).wait().unwrap_err(), Cause::TooManyWait(3));
    drop(first);
    assert_eq!((permits.status().waiting, permits.status().tenants[0].cancelled), (2, 1));
    assert_eq!(permits.try_acquire("acme", GET).unwrap_err(), Cause::NoneFree);
    let soon = Instant::now() + Duration::from_millis(5);
    assert_eq!(permits.acquire_by("acme", GET, soon).wait().unwrap_err(), Cause::Late);
    drop(second);
    drop(held);
    assert!(granted(&mut third).is_some());
}

#[test]
fn a_request_that_was_withdrawn_in_the_scheduler_lets_the_next_go() {
    let pool = builder().workers(1).most_running(2).open().unwrap();
    let (sender, receiver) = mpsc::channel::<()>();
    let (begins, begun) = mpsc::channel();
    let hold = move || {
        begins.send(()).unwrap();
        receiver.recv().is_ok()
    };
    let _runs = pool.submit("acme", GET, hold).unwrap();
    begun.recv().unwrap();
    let [waits, held, later] = [(); 3].map(|()| pool.submit("acme", GET, || 42).unwrap());
    assert!(waits.cancel() && later.cancel());
    drop(sender);
    assert_eq!((held.join(), later.join()), (Ok(42), Err(JoinError::Cancelled)));
}

#[test]
fn a_closed_pool_runs_what_is_held_back() {
    for entries in [16, 1000] {
        let text = Text::default();
        let pool = builder().workers(2).most_running(1).entries(entries).open().unwrap();
        let journal = pool.journal(text.clone()).unwrap();
        let order: Arc<Mutex<Vec<u32>>> = Arc::default();
        for i in 0..60_u32 {
            let order = order.clone();
            pool.submit("acme", KindId::new(i % 2), move || order.lock().unwrap().push(i)).unwrap();
        }
        pool.close();
        assert_eq!(pool.submit("acme", GET, || ()).unwrap_err().cause, Cause::Closed);
        let status = pool.join();
        assert_eq!((status.waiting, status.tenants[0].done), (0, 60));
        assert_eq!(*order.lock().unwrap(), (0..60).collect::<Vec<_>>());
        let written = journal.join().unwrap();
        assert_eq!((written.journals + written.missed, written.cut), (status.schedulers, 0));
        text.journals().iter().for_each(|journal| judge(journal));
    }
}

/// The open requests of a tenant, and of a tenant's scans, never exceed these limits in the journal.
fn obeys(journal: &str, tenant_limit: i32, scan_limit: i32) {
    let (mut open, mut owners) = (HashMap::new(), HashMap::new());
    let numbers = |line: &str| line.split(' ').skip(1).map(|word| word.parse().unwrap()).collect::<Vec<u64>>();
    for line in journal.lines() {
        let (word, _) = line.split_once(' ').unwrap_or((line, ""));
        let (request, change) = match word {
            "submit" => {
                let row = numbers(line);
                owners.insert(row[2], (row[3], row[4]));
                (row[2], 1)
            }
            "done" => (numbers(line)[3], -1),
            "withdraw" => (numbers(line)[2], -1),
            _ => continue,
        };
        let (tenant, kind) = owners[&request];
        for key in [(tenant, None), (tenant, Some(kind))] {
            *open.entry(key).or_insert(0) += change;
        }
        assert!(open[&(tenant, None)] <= tenant_limit, "{line}");
        assert!(kind == 0 || open[&(tenant, Some(kind))] <= scan_limit, "{line}");
    }
}

#[test]
fn a_scheduler_never_has_more_than_may_run() {
    let text = Text::default();
    let pool = builder().workers(4).most_running(3).kind_most_running("scan", 1).entries(100_000).open().unwrap();
    let journal = pool.journal(text.clone()).unwrap();
    thread::scope(|scope| {
        for thread in 0..4_u32 {
            let pool = &pool;
            scope.spawn(move || {
                for i in 0..1000 {
                    let deadline = Terms::default().deadline(Instant::now() + Duration::from_micros(300));
                    let terms = if i % 5 == 0 { deadline } else { Terms::default() };
                    let (tenant, kind) = (TenantId::new((i + thread) % 2), KindId::new(i / 2 % 2));
                    let Ok(handle) = pool.submit_with(tenant, kind, terms, || ()) else { continue };
                    if i % 3 == 0 {
                        handle.cancel();
                    }
                    if i % 50 == 0 {
                        let _ = handle.join();
                    }
                }
            });
        }
    });
    pool.join();
    assert_eq!(journal.join().unwrap().journals, 1);
    let journals = text.journals();
    obeys(&journals[0], 3, 1);
    judge(&journals[0]);
}

#[test]
fn what_no_limit_may_be() {
    let fault = |builder: Builder| builder.open().unwrap_err();
    assert!(matches!(fault(builder().most_running(0)), BuildFault::Limit));
    assert!(matches!(fault(builder().kind_most_running("get", 0)), BuildFault::Limit));
    assert!(matches!(fault(builder().kind_most_running("put", 1)), BuildFault::NoKind(name) if name == "put"));
}
