//! The requests that wait, each in a place of its own.

/// A request from its admission to its end.
#[derive(Clone, Copy, Debug, PartialEq, Eq, PartialOrd, Ord)]
pub(crate) struct Ticket {
    /// How many requests were admitted before it.
    pub(crate) number: u64,
    place: u32,
}

impl Ticket {
    pub(crate) const FIRST: Ticket = Ticket { number: 0, place: 0 };

    /// Its label in the scheduler. No other waiting request has it.
    pub(crate) fn label(&self) -> u64 {
        self.place.into()
    }
}

/// A request's scheduler, and its number there.
#[derive(Clone, Copy, Debug)]
pub(crate) struct Submitted {
    pub(crate) history: u64,
    pub(crate) request: u32,
}

/// A request that waits.
pub(crate) struct Waiting<P> {
    pub(crate) payload: P,
    pub(crate) tenant: u32,
    pub(crate) kind: u32,
    pub(crate) declared: u64,
    /// The moment of its admission.
    pub(crate) came: u64,
    /// The last moment at which it may begin.
    pub(crate) deadline: Option<u64>,
    /// None while it is held back.
    pub(crate) submitted: Option<Submitted>,
}

/// The requests that wait, each in a place that is free again once it is taken.
pub(crate) struct Requests<P> {
    places: Vec<Option<(Ticket, Waiting<P>)>>,
    free: Vec<u32>,
    /// How many requests were admitted.
    admitted: u64,
}

impl<P> Default for Requests<P> {
    fn default() -> Self {
        Requests { places: Vec::new(), free: Vec::new(), admitted: 0 }
    }
}

impl<P> Requests<P> {
    /// The next request's ticket. Its place stays free until `put`.
    pub(crate) fn next(&mut self) -> Ticket {
        if self.free.is_empty() {
            self.free.push(self.places.len() as u32);
            self.places.push(None);
        }
        Ticket { number: self.admitted, place: self.free[self.free.len() - 1] }
    }

    /// Puts a request at the ticket that `next` gives.
    pub(crate) fn put(&mut self, waiting: Waiting<P>) {
        let ticket = self.next();
        self.free.pop();
        self.admitted += 1;
        self.places[ticket.place as usize] = Some((ticket, waiting));
    }

    /// The request with this label, whose place is free from here on.
    pub(crate) fn take(&mut self, label: u64) -> Option<(Ticket, Waiting<P>)> {
        let request = self.places.get_mut(label as usize)?.take()?;
        self.free.push(label as u32);
        Some(request)
    }

    /// The request, where it still waits.
    pub(crate) fn get_mut(&mut self, ticket: Ticket) -> Option<&mut Waiting<P>> {
        let (other, waiting) = self.places.get_mut(ticket.place as usize)?.as_mut()?;
        (*other == ticket).then_some(waiting)
    }
}
