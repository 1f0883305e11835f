package twodfq

import (
	"sort"
	"time"
)

// The default of Options.Patience.
const defaultPatience = 0.02

// How late a timer may be. On Linux the runtime sleeps in whole milliseconds where nothing else runs: of waits from
// 0.02 to 5.5 milliseconds nine in ten ended at most 1.08 milliseconds late. A wait ends this much early, so that it is
// not late, and shorter waits are left out.
const oversleep = 1100 * time.Microsecond

// The budget that a pool saves up is that of this time of each worker.
const savedTime = time.Second

// Patience. Where no waiting request is eligible for a free worker, the worker waits a little before it takes one
// before its time, so that a cheap request that comes meanwhile finds it free. A wait ends at the latest once a part of
// the estimate has passed since the worker became free. All waits together have a budget: this part of the costs of
// requests, and of one second of each worker.
type patience struct {
	part    float64         // of an estimate, and of all costs
	spare   time.Duration   // the budget of further waits
	most    time.Duration   // the limit of the budget
	waiting workerSet       // the workers that wait
	waiters int             // their number
	settled time.Duration   // the moment up to which waits are counted
	timer   *time.Timer     // of the end of the wait
	since   []time.Duration // by worker, when it became free
	freed   line            // the free workers that there are now, in the order in which they became free
	early   uint64          // the requests taken before their time
	waits   uint64          // the number of waits
	waited  time.Duration   // the time of all waits
}

func newPatience(part float64, workers, mostWorkers int) patience {
	if part < 0 {
		part = 0
	}
	most := savedFor(part, workers)
	p := patience{part: part, spare: most, most: most, waiting: newWorkerSet(mostWorkers),
		since: make([]time.Duration, mostWorkers), freed: newLine(mostWorkers)}
	for worker := 0; worker < workers; worker++ {
		p.freed.join(uint32(worker))
	}
	return p
}

func savedFor(part float64, workers int) time.Duration {
	return scaled(part, savedTime*time.Duration(workers))
}

func scaled(part float64, whole time.Duration) time.Duration {
	return time.Duration(part * float64(whole))
}

// A request has ended at this cost.
func (p *patience) earn(cost time.Duration) {
	if p.spare += scaled(p.part, cost); p.spare > p.most {
		p.spare = p.most
	}
}

// The number of workers has changed.
func (p *patience) setWorkers(workers int, free workerSet) {
	if p.most = savedFor(p.part, workers); p.spare > p.most {
		p.spare = p.most
	}
	p.lineUp(free, workers)
}

// Lines up the free workers with numbers below that of the workers.
func (p *patience) lineUp(free workerSet, workers int) {
	var freed []uint32
	for worker := uint32(0); int(worker) < workers; worker++ {
		if free.has(worker) {
			freed = append(freed, worker)
		}
	}
	sort.SliceStable(freed, func(i, j int) bool { return p.since[freed[i]] < p.since[freed[j]] })
	p.freed = newLine(len(p.since))
	for _, worker := range freed {
		p.freed.join(worker)
	}
}

// Counts the waits up to this moment.
func (p *patience) settle(now time.Duration) {
	if now <= p.settled {
		return
	}
	passed := time.Duration(p.waiters) * (now - p.settled)
	p.waited += passed
	p.spare -= passed
	p.settled = now
}

// How long these free workers may still wait, where a request of this estimate would be taken before its time. There is
// no wait where the result is not above 0. The time since the first of them became free counts.
func (p *patience) allows(free freeWorkers, requests int, estimate uint64, now time.Duration) time.Duration {
	allowed := p.since[p.first()] + scaled(p.part, time.Duration(estimate)*time.Microsecond) - now
	if each := p.spare / time.Duration(waiters(free, requests)); allowed > each {
		allowed = each
	}
	return allowed - oversleep
}

// The worker that became free first, where there is a free one.
func (p *patience) first() uint32 {
	first, _ := p.freed.first()
	return first
}

// The number of free workers that lose time by waiting: no more than there are waiting requests.
func waiters(free freeWorkers, requests int) int {
	if count := free.len(); count < requests {
		return count
	}
	return requests
}

// The workers wait, at most this long: of the free ones the highest.
func (p *patience) begin(free freeWorkers, requests int, longest time.Duration, ends func()) {
	members, added := p.waiting.become(free, requests)
	p.waiters = members
	p.waits += uint64(added)
	if p.timer == nil {
		p.timer = time.AfterFunc(longest, ends)
	} else {
		p.timer.Reset(longest)
	}
}

// No worker waits.
func (p *patience) rest() {
	if p.waiters != 0 {
		p.waiters, _ = p.waiting.become(freeWorkers{}, 0)
		p.timer.Stop()
	}
}

// The highest worker takes a request before its time, as the wait of the worker that became free first is over. The two
// exchange their waits, so that no wait counts twice.
func (p *patience) takesEarly(high uint32) {
	if first := p.first(); first != high {
		p.since[first], p.since[high] = p.since[high], p.since[first]
		p.freed.joinBefore(first, high) // which leaves the line
	}
	p.early++
}

// The worker becomes free. It is in the line as long as its number is below that of the workers.
func (p *patience) becomesFree(worker uint32, now time.Duration, workers int) {
	p.since[worker] = now
	if int(worker) < workers {
		p.freed.join(worker)
	}
}

// The timer of a wait has fired.
func (p *Pool) patienceEnds() {
	p.lock.Lock()
	defer p.unlock()
	p.dispatch(p.now())
}
