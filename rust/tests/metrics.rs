//! Counts and events: refusals by cause, histograms, the text for Prometheus, and the hook.
use std::sync::{Arc, Mutex};
use std::thread;
use std::time::{Duration, Instant};

use twodfq::{Builder, Cause, Hook, JoinError, KindId, Permits, Pool, Status, Terms, Traced, Withdrawn};

const KIND: KindId = KindId::FIRST;

fn builder() -> Builder {
    Permits::builder().workers(1).tenant("acme", 1).kind("get")
}

fn lines<'a>(text: &'a str, begin: &str) -> Vec<&'a str> {
    text.lines().filter(|line| line.starts_with(begin)).collect()
}

#[test]
fn refusals_are_counted_by_their_causes() {
    let permits = builder().room(1).room_per_tenant(1).most_tenants(2).open_permits().unwrap();
    let held = permits.try_acquire("acme", KIND).unwrap();
    let refused = |tenant: &str, kind, terms| permits.acquire_with(tenant, kind, terms).wait().unwrap_err();
    assert_eq!(permits.try_acquire("acme", KIND).unwrap_err(), Cause::NoneFree);
    assert_eq!(permits.try_acquire("acme", KIND).unwrap_err(), Cause::NoneFree);
    assert_eq!(refused("acme", KindId::new(1), Terms::default()), Cause::Kind(KindId::new(1)));
    assert_eq!(refused("acme", KIND, Terms::default().declared(0)), Cause::Cost(0));
    assert_eq!(refused("", KIND, Terms::default()), Cause::Name);
    let past = Terms::default().deadline(Instant::now() - Duration::from_secs(1));
    assert_eq!(refused("acme", KIND, past), Cause::Late);
    permits.close();
    assert_eq!(refused("acme", KIND, Terms::default()), Cause::Closed);
    drop(held);
    let status = permits.status();
    let acme = &status.tenants[0];
    let wanted = [("closed", 1), ("kind", 1), ("cost", 1), ("late", 1), ("none_free", 2)];
    assert_eq!((acme.refused, &acme.refused_by[..]), (6, &wanted[..]));
    assert_eq!((status.others.refused, &status.others.refused_by[..]), (1, &[("name", 1)][..]));
    let text = status.prometheus();
    let series: Vec<_> = lines(&text, "twodfq_jobs_refused_total");
    let of_acme =
        |(cause, count): (&str, u64)| format!("twodfq_jobs_refused_total{{tenant=\"acme\",cause=\"{cause}\"}} {count}");
    let mut expected: Vec<String> = wanted.into_iter().map(of_acme).collect();
    expected.push("twodfq_jobs_refused_total{tenant=\"\",cause=\"name\"} 1".to_string());
    assert_eq!(series, expected);
}

/// How many took no longer than each bound of a series, as the text has them.
fn buckets(text: &str, name: &str) -> Vec<(String, u64)> {
    let row = |line: &&str| {
        let (labels, count) = line.rsplit_once(' ').unwrap();
        let bound = labels.split_once("le=\"").unwrap().1.trim_end_matches("\"}");
        (bound.to_string(), count.parse().unwrap())
    };
    lines(text, &format!("{name}_bucket{{tenant=\"acme\"")).iter().map(row).collect()
}

#[test]
fn waits_and_runs_are_in_histograms() {
    let permits = builder().open_permits().unwrap();
    let held = permits.try_acquire("acme", KIND).unwrap();
    let waits = thread::scope(|scope| {
        let waiter = scope.spawn(|| permits.acquire_blocking("acme", KIND).map(drop));
        while permits.status().waiting == 0 {
            thread::yield_now();
        }
        thread::sleep(Duration::from_millis(3));
        drop(held);
        waiter.join().unwrap()
    });
    assert_eq!(waits, Ok(()));
    let status = permits.status();
    let acme = &status.tenants[0];
    assert_eq!((acme.wait_times.count(), acme.run_times.count()), (2, 2));
    assert!(acme.wait_times.microseconds() >= 3000 && acme.run_times.microseconds() >= 3000);
    assert_eq!(acme.wait_times.buckets().find(|(bound, _)| *bound == 2500).unwrap().1, 1);
    let text = status.prometheus();
    for (name, sum) in [("twodfq_jobs_wait_seconds", acme.wait_times), ("twodfq_jobs_run_seconds", acme.run_times)] {
        let rows = buckets(&text, name);
        let bounds: Vec<&str> = rows.iter().map(|(bound, _)| bound.as_str()).collect();
        let wanted = "0.0001 0.00025 0.0005 0.001 0.0025 0.005 0.01 0.025 0.05 0.1 0.25 0.5 1 2.5 5 10 +Inf";
        assert_eq!(bounds.join(" "), wanted);
        assert!(rows.windows(2).all(|pair| pair[0].1 <= pair[1].1) && rows[16].1 == 2);
        let seconds = format!("{}.{:06}", sum.microseconds() / 1_000_000, sum.microseconds() % 1_000_000);
        assert!(text.contains(&format!("{name}_sum{{tenant=\"acme\"}} {seconds}\n{name}_count{{tenant=\"acme\"}} 2\n")));
        assert!(text.contains(&format!("# TYPE {name} histogram\n")));
    }
}

#[test]
fn names_are_escaped_and_totals_stay() {
    let permits = Permits::builder().most_tenants(1).open_permits().unwrap();
    drop(permits.try_acquire("a \"b\" \\ c\nd", KIND));
    let text = permits.status().prometheus();
    assert_eq!(lines(&text, "twodfq_jobs_done_total"), [r#"twodfq_jobs_done_total{tenant="a \"b\" \\ c\nd"} 1"#]);
    drop(permits.try_acquire("next", KIND));
    let text = permits.status().prometheus();
    let wanted = ["twodfq_jobs_done_total{tenant=\"next\"} 1", "twodfq_jobs_done_total{tenant=\"\"} 1"];
    assert_eq!(lines(&text, "twodfq_jobs_done_total"), wanted);
    assert_eq!(lines(&text, "twodfq_weight{"), ["twodfq_weight{tenant=\"next\"} 1"]); // no tenant that has left has one
    assert_eq!(lines(&text, "twodfq_jobs_run_seconds_count").len(), 2);
}

/// The events, in the order of the hook's calls.
#[derive(Clone, Default)]
struct Told(Arc<Mutex<Vec<String>>>);

impl Told {
    fn push(&self, word: &str, request: Traced) {
        let Traced { number, tenant, kind, .. } = request;
        self.0.lock().unwrap().push(format!("{word} {number} {tenant} {kind}"));
    }

    fn take(&self) -> Vec<String> {
        std::mem::take(&mut self.0.lock().unwrap())
    }
}

impl Hook for Told {
    fn submitted(&self, request: Traced) {
        self.push("submitted", request);
    }

    fn refused(&self, request: Traced, cause: Cause) {
        self.push(&format!("refused {}", cause.label()), request);
    }

    fn begun(&self, request: Traced, waited: Duration) {
        assert!(waited < Duration::from_secs(60));
        self.push("begun", request);
    }

    fn ended(&self, request: Traced, cost: u64, panicked: bool) {
        assert!(cost >= 1);
        self.push(if panicked { "panicked" } else { "ended" }, request);
    }

    fn withdrawn(&self, request: Traced, why: Withdrawn) {
        self.push(&format!("withdrawn {why:?}"), request);
    }
}

#[test]
fn a_hook_is_told_of_permits_in_order() {
    let told = Told::default();
    let permits = builder().most_tenants(2).hook(told.clone()).open_permits().unwrap();
    let held = permits.try_acquire("acme", KIND).unwrap();
    assert_eq!(told.take(), ["submitted 0 acme get", "begun 0 acme get"]);
    assert!(permits.try_acquire("new\n", KIND).is_err());
    assert!(permits.try_acquire("", KindId::new(9)).is_err());
    assert_eq!(told.take(), ["refused none_free 1 new\n get", "refused name 1  "]);
    let soon = Duration::from_millis(5);
    assert_eq!(permits.acquire_timeout("new\n", KIND, soon).unwrap_err(), Cause::Late);
    assert_eq!(told.take(), ["submitted 1 new\n get", "withdrawn Late 1 new\n get"]);
    held.finish(5);
    assert_eq!(told.take(), ["ended 0 acme get"]);
}

#[test]
fn a_hook_is_told_of_jobs() {
    let told = Told::default();
    let pool = builder().hook(told.clone()).open().unwrap();
    assert!(pool.submit("acme", KIND, || Vec::<u8>::new()[0]).unwrap().join().is_err());
    drop(pool);
    assert_eq!(told.take(), ["submitted 0 acme get", "begun 0 acme get", "panicked 0 acme get"]);
}

#[test]
fn a_hook_may_call_its_pool_and_panic() {
    struct Panics(Arc<Mutex<Option<Permits>>>, Arc<Mutex<Option<Status>>>);
    impl Hook for Panics {
        fn submitted(&self, _: Traced) {
            let permits = self.0.lock().unwrap().clone();
            *self.1.lock().unwrap() = permits.map(|permits| permits.status());
            panic!("a hook");
        }
    }
    let (permits, status) = (Arc::default(), Arc::default());
    let opened = builder().hook(Panics(Arc::clone(&permits), Arc::clone(&status))).open_permits().unwrap();
    *permits.lock().unwrap() = Some(opened.clone());
    assert!(opened.try_acquire("acme", KIND).is_ok());
    assert_eq!(status.lock().unwrap().as_ref().unwrap().running, 1);
    permits.lock().unwrap().take();
}

#[test]
fn a_cancelled_job_is_told_once() {
    let told = Told::default();
    let pool: Pool = builder().hook(told.clone()).open().unwrap();
    let (sender, receiver) = std::sync::mpsc::channel::<()>();
    let first = pool.submit("acme", KIND, move || receiver.recv().is_err()).unwrap();
    let second = pool.submit("acme", KIND, || ()).unwrap();
    assert!(second.cancel() && !second.cancel());
    drop(sender);
    assert_eq!((first.join(), second.join()), (Ok(true), Err(JoinError::Cancelled)));
    drop(pool);
    let told = told.take();
    assert_eq!(told.iter().filter(|line| line.ends_with(" 1 acme get")).count(), 2); // submitted and withdrawn
    assert!(told.contains(&"withdrawn Cancelled 1 acme get".to_string()), "{told:?}");
}
