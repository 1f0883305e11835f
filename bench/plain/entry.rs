//! The entries of calls, and the causes of refusals.

#[derive(Clone, Copy)]
pub enum Act {
    Submit {
        request: u32,
        tenant: u32,
        kind: u32,
        declared: u64,
        label: u64,
    },
    Take {
        worker: u32,
        request: u32,
        estimate: u64,
    },
    Report {
        worker: u32,
        request: u32,
        used: u64,
    },
    Done {
        worker: u32,
        request: u32,
        cost: u64,
    },
    Close,
}

#[derive(Clone, Copy)]
pub struct Entry {
    pub who: u32,
    pub moment: u64,
    pub act: Act,
}

pub enum Refusal {
    Closed,
    Tenant(u32),
    Kind(u32),
    Cost(u64),
    Slots(u64),
    Full(u64),
    Worker(u32),
    Busy(u32),
    NotRunning,
    Falling(u64, u64),
}
