package twodfq

import "time"

// Dispatches waiting requests to free workers, as long as there are both and the workers are not patient. Each change
// of the waiting or running requests is followed by a call of it.
func (p *Pool) dispatch(now time.Duration) {
	p.dropLate()
	p.patience.settle(now)
	for {
		history := p.nextHistory()
		if history == nil {
			p.patience.rest()
			return
		}
		worker, longest := p.choose(history, now)
		if longest > 0 {
			p.patience.begin(p.freeFor(history), history.waiting, longest, p.patienceEnds)
			return
		}
		p.take(history, worker, now)
	}
}

// The oldest scheduler with a waiting request and a free worker.
func (p *Pool) nextHistory() *history {
	for _, history := range p.rolling.histories {
		if history.waiting > 0 && !p.freeFor(history).isEmpty() {
			return history
		}
	}
	return nil
}

// The free workers that may take from the scheduler.
func (p *Pool) freeFor(h *history) freeWorkers {
	if h.workers < p.rolling.workers {
		return freeWorkers{p.free, h.workers}
	}
	return freeWorkers{p.free, p.rolling.workers}
}

// Chooses the worker of the next dispatch, or how long to wait for a better request. The lowest worker with an eligible
// request is chosen, so that cheap requests stay on low workers and costly ones on high workers. Where no request is
// eligible for the highest worker either, that worker takes a request before its time, unless it is patient.
func (p *Pool) choose(h *history, now time.Duration) (worker uint32, longest time.Duration) {
	free := p.freeFor(h)
	low, high := uint32(free.lowest()), uint32(free.highest())
	gains := p.mayGain(h)
	if low == high && !gains {
		return low, 0
	}
	next := h.foresee(now, low)
	if next.Eligible {
		return low, 0
	}
	if low != high {
		if next = h.foresee(now, high); next.Eligible {
			return h.lowestEligible(free, low+1, high, now), 0
		}
	}
	if !gains {
		return high, 0
	}
	longest = p.patience.allows(free, h.waiting, next.Estimate, now)
	if longest <= 0 {
		p.patience.takesEarly(high)
	}
	return high, longest
}

// Whether patience may be of use: not where a single tenant has requests, where an older scheduler has waiting ones, or
// once the pool is closed.
func (p *Pool) mayGain(h *history) bool {
	return p.patience.part > 0 && p.tenants.open > 1 && h == p.rolling.newest() && !p.closed
}

func (h *history) foresee(now time.Duration, worker uint32) Foreseen {
	foreseen, err := h.scheduler.Foresee(moment(now), worker, 0)
	if err != nil {
		panic("twodfq: a free worker may not ask: " + err.Error())
	}
	return foreseen
}

// The lowest of the free workers from least on with an eligible request, as the free worker found has one. A request that
// is eligible for a worker is eligible for all above it.
func (h *history) lowestEligible(free freeWorkers, least, found uint32, now time.Duration) uint32 {
	for least < found {
		middle := least + (found-least)/2
		worker := freeWorkers{free.set, int(middle) + 1}.highest()
		if worker >= int(least) && h.foresee(now, uint32(worker)).Eligible {
			found = uint32(worker)
		} else {
			least = middle + 1
		}
	}
	return found
}

// The worker takes a request, which begins.
func (p *Pool) take(h *history, worker uint32, now time.Duration) {
	p.reportHeld(now)
	taken, err := h.scheduler.Take(worker, moment(now), worker)
	if err != nil || taken.Kind != Run {
		panic("twodfq: a request waits, and a free worker is given none")
	}
	r := p.requests[taken.Label]
	delete(p.requests, taken.Label)
	h.waiting--
	h.running++
	p.leaveRoom(r)
	r.slot.running++
	p.running++
	p.free.remove(worker)
	p.patience.freed.leave(worker)
	permit := &Permit{pool: p, request: r, worker: worker, begun: now, reported: now}
	p.permits[worker] = permit
	p.reporting.join(worker)
	r.slot.counts.Waited.add(r.waited(now))
	p.traceBegun(r, now)
	p.resolve(r, permit, nil)
}
