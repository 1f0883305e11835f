//! Places for requests that wait. Each tenant has places of its own, which no other tenant's flood takes, and all share
//! the rest. A tenant takes at most as many shared places as it leaves free, so one flood leaves half of them
//! (Choudhury and Hahne, 1998).
use super::cause::Cause;

pub(crate) struct Room {
    all: u32,
    /// How many requests of one tenant may wait, where the caller sets a number.
    most: Option<u32>,
    /// Places of each tenant's own.
    own: u32,
    /// How many shared places are free.
    free: u32,
}

impl Room {
    pub(crate) fn new(all: u32, tenants: u32, most: Option<u32>) -> Room {
        let own = match tenants {
            1 => all, // there is nobody to share with
            _ if all < tenants => 0,
            _ => (all / (2 * tenants)).max(1),
        };
        Room { all, most, own, free: all - own * tenants }
    }

    /// Why a tenant gets no further place. `all` requests wait, of which `waiting` are its own.
    pub(crate) fn cause(&self, all: u32, waiting: u32) -> Option<Cause> {
        let has_place = match self.most {
            Some(most) => waiting < most,
            None => waiting < self.own || waiting - self.own < self.free,
        };
        if all >= self.all {
            Some(Cause::TooManyWait(self.all))
        } else if has_place {
            None
        } else {
            Some(Cause::TenantFull(waiting))
        }
    }

    /// A request takes a place; `waiting` of its tenant wait before.
    pub(crate) fn enter(&mut self, waiting: u32) {
        self.free -= u32::from(self.most.is_none() && waiting >= self.own);
    }

    /// A request gives its place back; `waiting` of its tenant wait after.
    pub(crate) fn leave(&mut self, waiting: u32) {
        self.free += u32::from(self.most.is_none() && waiting >= self.own);
    }
}
