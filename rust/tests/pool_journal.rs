//! The journals that a pool writes, and its counts.
use std::collections::VecDeque;
use std::io::{self, Write};
use std::sync::mpsc;
use std::thread;
use std::time::{Duration, Instant};

use twodfq::{Builder, Estimator, KindId, Policy, Pool, TenantId, Terms, Written};

mod journals;

use journals::{judge, Text};

fn builder() -> Builder {
    Pool::builder().workers(3).most_workers(4).tenant("acme", 1).tenant("globex", 2).kind("get").kind("scan")
}

/// The numbers of the lines that begin with this word, line by line.
fn lines(journal: &str, word: &str) -> Vec<Vec<u64>> {
    let rows = journal.lines().filter_map(|line| line.strip_prefix(word)?.strip_prefix(' '));
    rows.map(|row| row.split(' ').map(|number| number.parse().unwrap()).collect()).collect()
}

/// The journals of a pool that rolls over, under a policy, an estimator and a patience.
fn each_job_in_a_journal(policy: Policy, estimator: Estimator, patience: f64) {
    let text = Text::default();
    let builder = builder().policy(policy).estimator(estimator).patience(patience);
    let pool = builder.entries(200).refresh(Duration::ZERO).open().unwrap();
    let journal = pool.journal(text.clone()).unwrap();
    for i in 0..1000_u32 {
        let job = move || {
            twodfq::tick();
            thread::sleep(Duration::from_micros(u64::from(i % 4) * 20));
        };
        pool.submit_with(
            TenantId::new(i % 2),
            KindId::new(i / 2 % 2),
            Terms::default().declared(1 + u64::from(i % 4) * 20),
            job,
        )
        .unwrap();
        if i % 100 == 0 {
            pool.weight(TenantId::new(i % 2), 1 + i).unwrap();
            pool.workers(1 + i / 100 % 4).unwrap();
        }
        if i % 250 == 0 {
            thread::sleep(Duration::from_millis(2));
        }
        while pool.status().waiting > 40 {
            thread::yield_now();
        }
    }
    let status = pool.join();
    let Written { journals, cut, missed } = journal.join().unwrap();
    assert_eq!((journals + missed, cut), (status.schedulers, 0));
    let texts = text.journals();
    assert_eq!(texts.len() as u64, journals);
    for journal in &texts {
        let numbers = |word, place: usize| lines(journal, word).iter().map(|row| row[place]).collect::<Vec<_>>();
        let submitted = numbers("submit", 2);
        assert_eq!(submitted, (0..submitted.len() as u64).collect::<Vec<_>>());
        for word in ["take", "done"] {
            let mut requests = numbers(word, 3);
            requests.sort_unstable();
            assert_eq!(requests, submitted);
        }
        assert!(numbers("done", 4).iter().all(|&cost| cost >= 1));
        assert_eq!(lines(journal, "close").len(), 1);
        judge(journal);
    }
    let done: usize = texts.iter().map(|journal| lines(journal, "done").len()).sum();
    let reports: usize = texts.iter().map(|journal| lines(journal, "report").len()).sum();
    let counted: u64 = status.tenants.iter().map(|tenant| tenant.reports).sum();
    if missed == 0 {
        assert_eq!((done, reports as u64), (1000, counted));
    }
}

#[test]
fn each_job_stands_once_in_a_journal() {
    for policy in [Policy::Wfq, Policy::Wf2q, Policy::Msf2q, Policy::TwoDfq, Policy::TwoDfqPlus] {
        for estimator in [Estimator::Declared, Estimator::Recent, Estimator::Pessimistic] {
            for patience in [0.0, 0.02, 1.0] {
                each_job_in_a_journal(policy, estimator, patience);
            }
        }
    }
}

#[test]
fn the_journal_comes_while_the_pool_runs() {
    let text = Text::default();
    let pool = builder().open().unwrap();
    let _dropped = pool.journal(text.clone()).unwrap();
    assert_eq!(pool.journal(io::sink()).err().unwrap().kind(), io::ErrorKind::AlreadyExists);
    pool.submit("globex", KindId::new(1), || ()).unwrap().join().unwrap();
    let begun = Instant::now();
    while text.journals().first().is_none_or(|journal| lines(journal, "done").len() != 1) {
        assert!(begun.elapsed() < Duration::from_secs(10));
        thread::sleep(Duration::from_millis(1));
    }
    let head = "journal 3\nconfig 4 2dfq+ pessimistic 1000 1048576 10000\ntenant acme 1\ntenant globex 2\nkind get\n\
                kind scan\nworkers 4096 0 3\nsubmit 4096 ";
    assert!(text.journals()[0].starts_with(head), "{}", text.journals()[0]);
}

/// A writer that waits at every call.
struct Slow(Text);

impl Write for Slow {
    fn write(&mut self, bytes: &[u8]) -> io::Result<usize> {
        thread::sleep(Duration::from_millis(5));
        self.0.write(bytes)
    }

    fn flush(&mut self) -> io::Result<()> {
        Ok(())
    }
}

#[test]
fn a_slow_journal_holds_nobody_up_and_leaves_out_whole_histories() {
    let text = Text::default();
    let pool = builder().entries(30).open().unwrap();
    let journal = pool.journal(Slow(text.clone())).unwrap();
    for i in 0..2000_u32 {
        pool.submit(TenantId::new(i % 2), KindId::FIRST, || ()).unwrap();
    }
    let status = pool.join();
    let Written { journals, cut, missed } = journal.join().unwrap();
    assert_eq!((journals + missed, cut), (status.schedulers, 0));
    assert!(missed > 0 && journals > 0);
    for journal in text.journals() {
        assert_eq!(lines(&journal, "done").len(), lines(&journal, "submit").len());
        judge(&journal);
    }
}

#[test]
fn a_slow_journal_of_few_kept_entries_ends_early_and_the_next_begins() {
    let text = Text::default();
    let pool = builder().workers(1).entries(1000).keep(64).open().unwrap();
    let journal = pool.journal(Slow(text.clone())).unwrap();
    for i in 0..2000_u32 {
        pool.submit(TenantId::new(i % 2), KindId::FIRST, || ()).unwrap();
        if i % 100 == 99 {
            while pool.status().waiting > 0 {
                thread::yield_now();
            }
        }
    }
    let status = pool.join();
    let Written { journals, cut, missed } = journal.join().unwrap();
    assert_eq!(journals + cut + missed, status.schedulers);
    assert!(cut > 0);
    let texts = text.journals();
    assert_eq!(texts.len() as u64, journals + cut);
    for journal in &texts {
        judge(journal);
    }
    let whole = texts.iter().filter(|journal| lines(journal, "close").len() == 1);
    assert!(whole.count() as u64 >= journals);
}

#[test]
fn a_journal_that_keeps_up_has_all_though_few_entries_are_kept() {
    let text = Text::default();
    let pool = builder().entries(100_000).keep(1000).open().unwrap();
    let journal = pool.journal(text.clone()).unwrap();
    for i in 0..5000_u32 {
        pool.submit(TenantId::new(i % 2), KindId::FIRST, || ()).unwrap();
        if i % 100 == 99 {
            let written = || text.journals().first().map_or(0, |journal| lines(journal, "submit").len());
            while written() <= i as usize {
                thread::sleep(Duration::from_millis(1));
            }
        }
    }
    pool.join();
    assert_eq!(journal.join().unwrap(), Written { journals: 1, cut: 0, missed: 0 });
    let texts = text.journals();
    assert_eq!(lines(&texts[0], "done").len(), 5000);
    judge(&texts[0]);
}

/// Hands in jobs of which some wait at any time.
fn hand_in_without_rest(pool: &Pool, jobs: usize) {
    let mut held = VecDeque::new();
    for _ in 0..jobs {
        let (sender, receiver) = mpsc::channel::<()>();
        held.push_back((sender, pool.submit("acme", KindId::FIRST, move || receiver.recv().is_ok()).unwrap()));
        if held.len() > 3 {
            let (sender, oldest) = held.pop_front().unwrap();
            drop(sender);
            oldest.join().unwrap();
        }
    }
}

#[test]
fn a_journal_of_a_long_history_ends_where_no_more_is_judged_and_the_next_begins_at_a_rest() {
    let text = Text::default();
    let pool = builder().workers(1).room(10).judged(200).open().unwrap();
    let journal = pool.journal(text.clone()).unwrap();
    hand_in_without_rest(&pool, 70);
    for number in 0..80 {
        while pool.status().waiting > 0 {
            thread::yield_now();
        }
        pool.submit(TenantId::new(number % 2), KindId::FIRST, || ()).unwrap();
    }
    let status = pool.join();
    let Written { journals, cut, missed } = journal.join().unwrap();
    assert_eq!((journals + cut + missed, cut), (status.schedulers, 1));
    let texts = text.journals();
    texts.iter().for_each(|journal| judge(journal));
    let closes: Vec<usize> = texts.iter().map(|journal| lines(journal, "close").len()).collect();
    assert!(closes.len() > 1 && closes[0] == 0 && closes[1..].iter().all(|&count| count == 1), "{closes:?}");
    // of 200 entries 20 are kept for 10 jobs that wait, 4 for the workers, and 4 for one job more and the close
    assert_eq!(texts[0].lines().skip_while(|line| !line.starts_with("workers")).count(), 172);
}

#[test]
fn a_writer_that_fails_ends_the_journal_alone() {
    struct Fails;
    impl Write for Fails {
        fn write(&mut self, _: &[u8]) -> io::Result<usize> {
            Err(io::Error::from(io::ErrorKind::StorageFull))
        }

        fn flush(&mut self) -> io::Result<()> {
            Ok(())
        }
    }
    let pool = builder().entries(16).open().unwrap();
    let journal = pool.journal(Fails).unwrap();
    assert_eq!(journal.join().unwrap_err().kind(), io::ErrorKind::StorageFull);
    for _ in 0..100 {
        pool.submit("acme", KindId::FIRST, || ()).unwrap().join().unwrap();
    }
    assert!(pool.journal(io::sink()).is_ok()); // there may be another
    assert_eq!(pool.join().tenants[0].done, 100);
}

#[test]
fn the_status_counts_everything() {
    let pool = builder().workers(1).room(2).room_per_tenant(2).refresh(Duration::ZERO).open().unwrap();
    let (sender, receiver) = mpsc::channel::<()>();
    let (begins, begun) = mpsc::channel();
    let job = move || {
        begins.send(()).unwrap();
        receiver.recv().unwrap();
        twodfq::tick();
        thread::sleep(Duration::from_millis(2));
        panic!("on purpose");
    };
    pool.submit("acme", KindId::FIRST, job).unwrap();
    begun.recv().unwrap();
    pool.submit("globex", KindId::FIRST, || ()).unwrap();
    pool.submit("globex", KindId::new(1), || ()).unwrap();
    assert!(pool.submit("acme", KindId::FIRST, || ()).is_err());
    pool.weight("globex", 7).unwrap();
    let status = pool.status();
    assert_eq!((status.workers, status.waiting, status.running), (1, 2, 1));
    let [acme, globex] = &status.tenants[..] else { panic!("two tenants") };
    assert_eq!((acme.waiting, acme.running, acme.submitted, acme.refused, acme.done), (0, 1, 1, 1, 0));
    assert_eq!((globex.weight, globex.waiting, globex.running, globex.submitted, globex.refused), (7, 2, 0, 2, 0));
    sender.send(()).unwrap();
    let status = pool.join();
    let [acme, globex] = &status.tenants[..] else { panic!("two tenants") };
    assert_eq!((acme.done, acme.panicked, acme.reports, acme.running), (1, 1, 1, 0));
    assert!(acme.microseconds >= 2000);
    assert_eq!((globex.done, globex.panicked, globex.waiting), (2, 0, 0));
    let text = status.prometheus();
    for line in [
        "# HELP twodfq_jobs_waiting Jobs that wait.",
        "# TYPE twodfq_jobs_waiting gauge",
        "twodfq_workers 1",
        "twodfq_weight{tenant=\"globex\"} 7",
        "twodfq_jobs_refused_total{tenant=\"acme\",cause=\"too_many_wait\"} 1",
        "twodfq_jobs_panicked_total{tenant=\"acme\"} 1",
        "twodfq_jobs_done_total{tenant=\"globex\"} 2",
        "twodfq_reports_total{tenant=\"acme\"} 1",
    ] {
        assert!(text.lines().any(|other| other == line), "{line}");
    }
    let (whole, part) = (acme.microseconds / 1_000_000, acme.microseconds % 1_000_000);
    let seconds = format!("twodfq_cost_seconds_total{{tenant=\"acme\"}} {whole}.{part:06}");
    assert!(text.lines().any(|line| line == seconds), "{seconds}");
}
