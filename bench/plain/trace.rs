//! Traces, and the history that a pool of workers makes of one.
use crate::scheduler::{Scheduler, Tenant};
use crate::text::{fail, row};
use crate::tree::{Key, Tree};
use std::collections::HashMap;

/// The microseconds between two reports of a running request, and the estimate before any completion.
const REFRESH: u64 = 10_000;
const INITIAL: u64 = 1_000;

pub struct TraceRow {
    pub moment: u64,
    pub submitter: u32,
    pub tenant: u32,
    pub kind: u32,
    pub declared: u64,
    pub cost: u64,
}

#[derive(Default)]
pub struct Trace {
    pub tenants: Vec<String>,
    pub weights: Vec<u32>,
    pub kinds: Vec<String>,
    pub rows: Vec<TraceRow>,
}

/// Reads a trace that has no quoted field.
pub fn read(input: &str) -> Trace {
    let mut trace = Trace::default();
    let (mut tenants, mut kinds) = (HashMap::new(), HashMap::new());
    for (at, line) in input.lines().enumerate() {
        let fields: Vec<&str> = line.split(',').collect();
        let number = |k: usize| fields[k].parse::<u64>().unwrap_or_else(|_| fail(at + 1));
        match (fields[0], fields.len()) {
            ("tenant", 3) => {
                tenants.insert(fields[1], trace.tenants.len() as u32);
                trace.tenants.push(fields[1].to_string());
                trace.weights.push(number(2) as u32);
            }
            ("request", 7) => {
                let kind = *kinds.entry(fields[4]).or_insert_with(|| {
                    trace.kinds.push(fields[4].to_string());
                    trace.kinds.len() as u32 - 1
                });
                trace.rows.push(TraceRow {
                    moment: number(1),
                    submitter: number(2) as u32,
                    tenant: *tenants.get(fields[3]).unwrap_or_else(|| fail(at + 1)),
                    kind,
                    declared: number(5),
                    cost: number(6),
                });
            }
            _ => fail(at + 1),
        }
    }
    trace
}

/// The request of a worker: its begin, its cost, and its use at its next event.
#[derive(Clone, Copy)]
struct Work {
    begun: u64,
    cost: u64,
    due: u64,
}

/// The next events of workers, and the idle workers.
struct Staff {
    works: Vec<Option<Work>>,
    next: Tree,
    idle: Tree,
}

impl Staff {
    fn open(workers: u32) -> Staff {
        let mut staff = Staff {
            works: vec![None; workers as usize],
            next: Tree::new(workers as usize),
            idle: Tree::new(workers as usize),
        };
        (0..workers).for_each(|worker| staff.set(worker, None));
        staff
    }
    fn set(&mut self, worker: u32, work: Option<Work>) {
        self.works[worker as usize] = work;
        let key = |a: u64, b: bool| Key {
            a: a as i128,
            b: b as i128,
            c: worker,
        };
        self.next
            .set(worker, work.map(|w| key(w.begun + w.due, w.due == w.cost)));
        self.idle.set(worker, work.is_none().then(|| key(0, false)));
    }
}

/// The simulated history of a trace.
pub fn simulate(trace: &Trace, workers: u32, is_plus: bool) -> Scheduler {
    let rows = &trace.rows;
    let reports: u64 = rows.iter().map(|row| (row.cost - 1) / REFRESH).sum();
    let entries = (3 * rows.len() as u64 + 1 + reports).max(4) as u32;
    let requests = rows.len().max(1) as u32;
    let tenants = trace
        .weights
        .iter()
        .map(|&weight| Tenant {
            weight,
            ..Tenant::default()
        })
        .collect();
    let numbers = [workers, entries, requests, trace.kinds.len().max(1) as u32];
    let mut s = Scheduler::open(numbers, is_plus, INITIAL, tenants);
    let first = rows.iter().map(|row| row.submitter + 1).max().unwrap_or(1);
    let mut staff = Staff::open(workers);
    let (mut moment, mut submitted) = (0, 0);
    loop {
        let timed = staff.next.first();
        let arrival = rows.get(submitted).map(|row| row.moment);
        let comes = timed.map(|(_, key)| key.a as u64).into_iter().chain(arrival).min();
        if s.waiting > 0 && comes.is_none_or(|m| m > moment) {
            if let Some((worker, _)) = staff.idle.first() {
                let Ok(Some((request, _, _))) = s.take(first + worker, moment, worker) else {
                    unreachable!()
                };
                let cost = rows[request as usize].cost;
                let due = REFRESH.min(cost);
                staff.set(
                    worker,
                    Some(Work {
                        begun: moment,
                        cost,
                        due,
                    }),
                );
                continue;
            }
        }
        let Some(next) = comes else { break };
        moment = next;
        match timed {
            Some((worker, key)) if key.a as u64 == moment => {
                let work = staff.works[worker as usize].unwrap();
                if work.due < work.cost {
                    let _ = s.report(first + worker, moment, worker, work.due);
                    let due = (work.due + REFRESH).min(work.cost);
                    staff.set(worker, Some(Work { due, ..work }));
                } else {
                    let _ = s.done(first + worker, moment, worker, work.cost);
                    staff.set(worker, None);
                }
            }
            _ => {
                let r = &rows[submitted];
                let _ = s.submit(r.submitter, moment, r.tenant, r.kind, r.declared, submitted as u64);
                submitted += 1;
            }
        }
    }
    let _ = s.close(0, moment);
    s
}

/// The head of the journal of a trace's history.
pub fn head(out: &mut Vec<u8>, trace: &Trace, s: &Scheduler) {
    let numbers = [INITIAL, s.entries as u64, s.requests as u64];
    let policy = if s.pace.is_some() { "2dfq+" } else { "2dfq" };
    row(out, &format!("config {} {policy} pessimistic", s.rows.len()), &numbers);
    for (name, &weight) in trace.tenants.iter().zip(&trace.weights) {
        row(out, &format!("tenant {name}"), &[weight as u64]);
    }
    trace
        .kinds
        .iter()
        .for_each(|name| row(out, &format!("kind {name}"), &[]));
}
