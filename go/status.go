package twodfq

import "time"

// Histogram counts durations in buckets.
type Histogram struct {
	// Counts has a number for each bucket: Counts[i] is of durations up to Bounds()[i] and above the bound before. The
	// last bucket has the durations above all bounds.
	Counts [len(bounds) + 1]uint64
	Sum    time.Duration // of all durations
}

var bounds = [...]time.Duration{100 * time.Microsecond, 250 * time.Microsecond, 500 * time.Microsecond, time.Millisecond,
	2500 * time.Microsecond, 5 * time.Millisecond, 10 * time.Millisecond, 25 * time.Millisecond, 50 * time.Millisecond,
	100 * time.Millisecond, 250 * time.Millisecond, 500 * time.Millisecond, time.Second, 2500 * time.Millisecond,
	5 * time.Second, 10 * time.Second}

// Bounds returns the upper bounds of the buckets of a Histogram. The last bucket has none.
func Bounds() []time.Duration { return append([]time.Duration(nil), bounds[:]...) }

// Count returns the number of durations.
func (h *Histogram) Count() (count uint64) {
	for _, inBucket := range h.Counts {
		count += inBucket
	}
	return count
}

func (h *Histogram) add(time time.Duration) {
	bucket := 0
	for bucket < len(bounds) && time > bounds[bucket] {
		bucket++
	}
	h.Counts[bucket]++
	h.Sum += time
}

func (h *Histogram) merge(other *Histogram) {
	for i, count := range other.Counts {
		h.Counts[i] += count
	}
	h.Sum += other.Sum
}

// The counts of a tenant while it has its slot.
type counts struct {
	Submitted, Done, Panicked, Cancelled, Late, Reports uint64
	Refused                                             [causes]uint64
	Cost                                                time.Duration
	Waited, Ran                                         Histogram
}

// Counts the end of a request that ran.
func (c *counts) end(ran, cost time.Duration, panicked bool) {
	c.Done++
	if panicked {
		c.Panicked++
	}
	c.Cost += cost
	c.Ran.add(ran)
}

func (c *counts) add(other *counts) {
	c.Submitted += other.Submitted
	c.Done += other.Done
	c.Panicked += other.Panicked
	c.Cancelled += other.Cancelled
	c.Late += other.Late
	c.Reports += other.Reports
	c.Cost += other.Cost
	for cause, count := range other.Refused {
		c.Refused[cause] += count
	}
	c.Waited.merge(&other.Waited)
	c.Ran.merge(&other.Ran)
}

// TenantStatus is the state of a tenant of a pool, with counts since the tenant took its slot.
type TenantStatus struct {
	Name      string // empty in Status.Gone
	Weight    int
	Waiting   int               // the waiting requests
	Held      int               // the waiting requests that a limit holds back
	Running   int               // the running requests
	Submitted uint64            // the accepted requests
	Refused   map[string]uint64 // the refused requests by cause, without causes that never occurred
	Cancelled uint64            // the requests withdrawn while they waited
	Late      uint64            // the requests withdrawn at their deadlines
	Done      uint64            // the requests that ended after they ran, with those that panicked
	Panicked  uint64            // the jobs that panicked
	Reports   uint64            // the reports of running requests
	Cost      time.Duration     // the cost of the ended requests
	Waited    Histogram         // from submit to begin
	Ran       Histogram         // from begin to end
}

// Status is the state of a pool, with counts since its opening. It can be marshalled as JSON; durations are in
// nanoseconds there.
type Status struct {
	Workers    int    // the number of workers
	Waiting    int    // the waiting requests
	Running    int    // the running requests
	Schedulers uint64 // the schedulers opened so far, one after another
	// Early is the number of requests taken before their time, after a wait or where no wait was worth a timer. It is
	// counted while patience may be of use: not where Options.Patience is below 0, a single tenant has requests, an
	// older scheduler has waiting ones, or the pool is closed.
	Early  uint64
	Waits  uint64        // the waits of free workers for better requests
	Waited time.Duration // the time of these waits
	// VirtualTime is that of the newest scheduler, in units. It begins at 0 with each scheduler, and is 0 after the end
	// of the pool.
	VirtualTime float64
	Tenants     []TenantStatus // in the order of their slots
	// Gone has the counts of tenants that lost their slots, and the refusals of names without a slot.
	Gone TenantStatus
}

// Status returns the state of the pool.
func (p *Pool) Status() Status {
	tallies := make([]tally, 0, len(p.tenants.slots)+1)
	status := p.tallied(&tallies)
	last := len(tallies) - 1
	status.Tenants, status.Gone = make([]TenantStatus, last), tallies[last].status()
	for i := range status.Tenants {
		status.Tenants[i] = tallies[i].status()
	}
	return status
}

// All of the status but the tenants, whose tallies are copied as they are to keep the lock for a short time. The last
// tally is that of tenants without a slot.
func (p *Pool) tallied(tallies *[]tally) Status {
	p.lock.Lock()
	defer p.unlock()
	p.patience.settle(p.now())
	for _, s := range p.tenants.slots {
		if s.name != "" {
			*tallies = append(*tallies, s.tally)
		}
	}
	*tallies = append(*tallies, tally{counts: p.tenants.gone})
	return Status{Workers: p.rolling.workers, Waiting: p.room.waiting, Running: p.running, Schedulers: p.rolling.opened,
		Early: p.patience.early, Waits: p.patience.waits, Waited: p.patience.waited, VirtualTime: p.rolling.virtualTime()}
}

func (t *tally) status() TenantStatus {
	c := &t.counts
	refused := make(map[string]uint64)
	for cause, count := range c.Refused {
		if count > 0 {
			refused[causeTexts[cause].label] = count
		}
	}
	return TenantStatus{Name: t.name, Weight: int(t.weight), Waiting: t.waiting, Held: t.held, Running: t.running,
		Submitted: c.Submitted, Refused: refused, Cancelled: c.Cancelled, Late: c.Late, Done: c.Done,
		Panicked: c.Panicked, Reports: c.Reports, Cost: c.Cost, Waited: c.Waited, Ran: c.Ran}
}

func (r *rolling) virtualTime() float64 {
	if len(r.histories) == 0 {
		return 0
	}
	standing, err := r.newest().scheduler.Status()
	if err != nil {
		return 0
	}
	const stepsInUnit = 1 << 20
	return float64(standing.VirtualUnits) + float64(standing.VirtualSteps)/stepsInUnit
}
