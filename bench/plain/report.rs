//! The lag report of a history, by the levels of an ideal server's slots.
use crate::entry::{Act, Entry};
use crate::trace::Trace;
use std::io::Write;

const MOST_CELLS: u64 = 4_000_000;

/// A request: its tenant, the moments of its submit, take and done, and its cost.
#[derive(Clone, Copy, Default)]
struct Course {
    tenant: u32,
    submit: u64,
    taken: u64,
    ended: u64,
    cost: u64,
}

#[derive(Clone, Copy)]
struct Backlog {
    units: u64,
    weight: u32,
}

/// The level of a slot: each backlog as a whole, or at most this number of 1024ths of a unit for each weight of 1.
#[derive(Clone, Copy)]
enum Level {
    All,
    At(u64),
}

fn give(level: Level, b: Backlog) -> u64 {
    match level {
        Level::All => b.units,
        Level::At(x) => gift(x, b),
    }
}

fn gift(x: u64, b: Backlog) -> u64 {
    (b.units as u128).min(x as u128 * b.weight as u128 / 1024) as u64
}

fn gifts(x: u64, rows: &[Backlog]) -> u64 {
    rows.iter().map(|&b| gift(x, b)).sum()
}

fn break_point(b: &Backlog) -> u64 {
    (b.units * 1024).div_ceil(b.weight as u64)
}

/// The level at which a capacity is shared, found by break points.
fn level(cap: u64, rows: &[Backlog]) -> Level {
    if rows.iter().map(|b| b.units).sum::<u64>() <= cap {
        return Level::All;
    }
    let mut sorted = rows.to_vec();
    sorted.sort_by_cached_key(break_point);
    let served = sorted.partition_point(|b| gifts(break_point(b), &sorted) <= cap);
    let (whole, left) = sorted.split_at(served);
    let room = (cap - whole.iter().map(|b| b.units).sum::<u64>()) as u128 * 1024;
    let weights = left.iter().map(|b| b.weight as u128).sum::<u128>();
    let mut low = (room / weights) as u64;
    let mut high = ((room + 1023 * left.len() as u128) / weights + 1).min(break_point(&left[0]) as u128) as u64;
    while high - low > 1 {
        let middle = low + (high - low) / 2;
        if gifts(middle, &sorted) <= cap {
            low = middle
        } else {
            high = middle
        }
    }
    Level::At(low)
}

/// The level of each slot, of requests in the order of their submissions.
fn levels(courses: &[Course], weights: &[u32], workers: u64, slot: u64, slots: u64) -> Vec<Level> {
    let (mut costs, mut served) = (vec![0u64; weights.len()], vec![0u64; weights.len()]);
    let (mut backlogged, mut wants): (Vec<u32>, Vec<Backlog>) = (Vec::new(), Vec::new());
    let mut joined = 0;
    let mut levels = Vec::with_capacity(slots as usize);
    for k in 0..slots {
        while joined < courses.len() && courses[joined].submit <= k * slot {
            let t = courses[joined].tenant as usize;
            if served[t] == costs[t] && courses[joined].cost > 0 {
                backlogged.push(t as u32);
            }
            costs[t] += courses[joined].cost;
            joined += 1;
        }
        wants.clear();
        wants.extend(backlogged.iter().map(|&t| Backlog {
            units: costs[t as usize] - served[t as usize],
            weight: weights[t as usize],
        }));
        let level = level(workers * slot, &wants);
        for (&t, &b) in backlogged.iter().zip(&wants) {
            served[t as usize] += give(level, b);
        }
        backlogged.retain(|&t| served[t as usize] < costs[t as usize]);
        levels.push(level);
    }
    levels
}

/// The fluid service of a tenant up to the end of each slot.
fn services(own: &[Course], weight: u32, levels: &[Level], slot: u64) -> Vec<u64> {
    let (mut joined, mut cost, mut served) = (0, 0, 0);
    let mut services = Vec::with_capacity(levels.len());
    for (k, &level) in levels.iter().enumerate() {
        while joined < own.len() && own[joined].submit <= k as u64 * slot {
            cost += own[joined].cost;
            joined += 1;
        }
        let units = cost - served;
        served += give(level, Backlog { units, weight });
        services.push(served);
    }
    services
}

/// The work done on a request by a moment.
fn worked(c: &Course, moment: u64) -> u64 {
    if c.ended <= moment {
        c.cost
    } else if moment <= c.taken {
        0
    } else {
        (c.cost as u128 * (moment - c.taken) as u128 / (c.ended - c.taken) as u128) as u64
    }
}

/// The lags after each slot.
fn lags(own: &[Course], services: &[u64], slot: u64) -> Vec<i64> {
    let mut gains = vec![0u64; services.len()];
    for c in own {
        let mut before = 0;
        for k in c.taken.saturating_sub(1) / slot..c.ended.saturating_sub(1) / slot + 1 {
            let after = worked(c, (k + 1) * slot);
            gains[k as usize] += after - before;
            before = after;
        }
    }
    let mut work = 0;
    let lag = |(&served, gain): (&u64, u64)| {
        work += gain;
        served as i64 - work as i64
    };
    services.iter().zip(gains).map(lag).collect()
}

/// The least lag, percentiles 50, 90 and 99, and the greatest.
fn ranks(lags: &mut [i64]) -> [i64; 5] {
    let count = lags.len();
    let place = |p: usize| (p * count).div_ceil(100) - 1;
    let (least, greatest) = (*lags.iter().min().unwrap(), *lags.iter().max().unwrap());
    let p50 = *lags.select_nth_unstable(place(50)).1;
    let p90 = *lags[place(50)..].select_nth_unstable(place(90) - place(50)).1;
    let p99 = *lags[place(90)..].select_nth_unstable(place(99) - place(90)).1;
    [least, p50, p90, p99, greatest]
}

fn courses(past: &[Entry]) -> Vec<Course> {
    let mut courses: Vec<Course> = Vec::new();
    for e in past {
        match e.act {
            Act::Submit { tenant, .. } => courses.push(Course {
                tenant,
                submit: e.moment,
                ..Course::default()
            }),
            Act::Take { request, .. } => courses[request as usize].taken = e.moment,
            Act::Done { request, cost, .. } => {
                let course = &mut courses[request as usize];
                (course.ended, course.cost) = (e.moment, cost);
            }
            _ => (),
        }
    }
    courses
}

/// The report of a history whose requests are all done, with the automatic slot.
pub fn report(out: &mut Vec<u8>, past: &[Entry], trace: &Trace, workers: u32) -> std::io::Result<()> {
    let end = past.last().map_or(0, |e| e.moment);
    let mut slot = 1000;
    while (end / slot + 1) * trace.tenants.len() as u64 > MOST_CELLS {
        slot *= 2;
    }
    let slots = end / slot + 1;
    let mut courses = courses(past);
    let levels = levels(&courses, &trace.weights, workers as u64, slot, slots);
    courses.sort_by_key(|c| c.tenant);
    write!(out, "report 1\nslot {slot} slots {slots}\n")?;
    for (t, own) in (0..).zip(trace.tenants.iter().zip(&trace.weights)) {
        let from = courses.partition_point(|c| c.tenant < t);
        let to = courses.partition_point(|c| c.tenant <= t);
        let (name, weight, own) = (own.0, *own.1, &courses[from..to]);
        let services = services(own, weight, &levels, slot);
        let fluid = services[services.len() - 1];
        let charged: u64 = own.iter().map(|c| c.cost).sum();
        let [least, p50, p90, p99, greatest] = ranks(&mut lags(own, &services, slot));
        let requests = own.len();
        write!(
            out,
            "tenant {name} weight {weight} requests {requests} charged {charged} fluid {fluid} "
        )?;
        writeln!(out, "lag {least} {p50} {p90} {p99} {greatest}")?;
    }
    writeln!(out, "end {end} entries {}", past.len())
}
