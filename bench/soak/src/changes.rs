//! Changes of workers and weights, and reads of the status.
use std::thread;
use std::time::{Duration, Instant};

use twodfq::{Cause, Permits, Pool};

use crate::names::{returning, STAY};
use crate::random::Random;
use crate::{churn, permits, Fault};

/// The time between two changes.
const REST: Duration = Duration::from_millis(2);

/// Changes the pool and the permits until the end.
pub fn make(pool: &Pool, permits: &Permits, mut random: Random, end: Instant) -> Result<(), Fault> {
    while Instant::now() < end {
        pool.workers(1 + random.below(churn::MOST_WORKERS.into()) as u32)?;
        permits.workers(1 + random.below(permits::MOST_PERMITS.into()) as u32)?;
        let name =
            if random.percent(50) { STAY[random.below(2) as usize].0.to_string() } else { returning(&mut random) };
        for changed in [pool.weight(&name, weight(&mut random)), permits.weight(&name, weight(&mut random))] {
            match changed {
                Ok(()) | Err(Cause::NoSlot) => {}
                Err(other) => return Err(other.into()),
            }
        }
        if random.percent(2) && (pool.status().prometheus().is_empty() || permits.status().prometheus().is_empty()) {
            return Err("a status has no text".into());
        }
        thread::sleep(REST);
    }
    Ok(())
}

fn weight(random: &mut Random) -> u32 {
    1 + random.below(1000) as u32
}
