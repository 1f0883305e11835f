//! Tenants: a few that stay, some that come back, and others that come once.
use std::sync::atomic::{AtomicU64, Ordering};

use crate::random::Random;

/// The tenants that are named at the opening, with their weights.
pub const STAY: [(&str, u32); 2] = [("acme", 1), ("globex", 2)];

/// The number of tenants that come back now and then.
const RETURN: u64 = 500;

/// The number of requests of a tenant that comes once.
const REQUESTS: u64 = 8;

#[derive(Default)]
pub struct Names {
    requests: AtomicU64,
}

impl Names {
    /// The name of a request's tenant: any text may be a name.
    pub fn name(&self, random: &mut Random) -> String {
        match random.below(4) {
            0 => STAY[random.below(2) as usize].0.to_string(),
            1 => returning(random),
            _ => format!("once \"{}\"", self.requests.fetch_add(1, Ordering::Relaxed) / REQUESTS),
        }
    }

    /// The number of tenants that have come once.
    pub fn once(&self) -> u64 {
        self.requests.load(Ordering::Relaxed).div_ceil(REQUESTS)
    }
}

/// The name of a tenant that comes back.
pub fn returning(random: &mut Random) -> String {
    format!("again {}", random.below(RETURN))
}
