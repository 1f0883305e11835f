package twodfq

import (
	"context"
	"sync"
	"time"
)

// Pool shares a number of workers fairly among tenants. A Scheduler decides whose request runs next. A worker is not a
// goroutine but a slot to run in: Acquire returns a Permit, which occupies a worker until it is released; Submit, Do
// and Go run jobs that hold such a permit.
//
// A request is charged the time for which it runs, or the cost given to ReleaseCost. Each tenant gets a share of the
// workers in proportion to its weight, and a part of the room for waiting requests (Options.RoomPerTenant). Where a
// free worker has no eligible request, the pool waits a little for a cheap one before it dispatches a costly one before
// its time (Options.Patience).
//
// A pool has no end: once the history of its scheduler is full (Options.Entries) it opens the next one, and workers
// take from the old one until nothing waits there. All methods may be called from any goroutine.
type Pool struct {
	options Options
	kinds   map[string]uint32
	begun   time.Time

	lock       sync.Mutex // of the fields below
	rolling    *rolling
	tenants    *tenants
	room       room
	patience   patience
	deadlines  deadlines
	requests   map[uint64]*request // the waiting requests in the schedulers, by label
	next       uint64              // the label of the next request
	free       workerSet           // the workers that run nothing
	permits    []*Permit           // the held permits by worker
	reporting  line                // the workers whose permits the pool reports, the one that has reported last behind
	running    int
	unfinished int // the number of accepted requests and jobs that have not ended
	tracing    int // the number of goroutines that call functions of Trace
	closed     bool
	drained    chan struct{} // closed at the end of the pool
	starts     []start       // the dispatched jobs, to start without the lock
	events     []func()      // the events to trace without the lock
}

// NewPool opens a pool. Its error wraps ErrOptions, or is an OpenFault.
func NewPool(options Options) (*Pool, error) {
	options, err := options.complete()
	if err != nil {
		return nil, err
	}
	p := &Pool{options: options, begun: time.Now(), kinds: make(map[string]uint32), tenants: newTenants(&options),
		room: newRoom(options.Room, options.MostTenants, options.RoomPerTenant), requests: make(map[uint64]*request),
		patience: newPatience(options.Patience, options.Workers, options.MostWorkers), free: newWorkerSet(options.MostWorkers),
		permits: make([]*Permit, options.MostWorkers), reporting: newLine(options.MostWorkers), drained: make(chan struct{})}
	for worker := range p.permits {
		p.free.add(uint32(worker))
	}
	for number, kind := range options.Kinds {
		p.kinds[kind.Name] = uint32(number)
	}
	p.rolling, err = newRolling(&options, p.tenants.slotWeights())
	if err != nil {
		return nil, err
	}
	return p, nil
}

// Gives the lock back, starts the dispatched jobs, and traces the events. Ends a closed pool once all is done.
func (p *Pool) unlock() {
	events, starts := p.events, p.starts
	p.events, p.starts = nil, nil
	if len(events) > 0 {
		p.tracing++
	}
	p.endIfDone()
	p.lock.Unlock()
	for _, start := range starts {
		go start.follow()
	}
	if len(events) > 0 {
		p.trace(events)
	}
}

// Calls the functions of Trace. The pool does not end before they have returned.
func (p *Pool) trace(events []func()) {
	defer func() {
		p.lock.Lock()
		defer p.lock.Unlock()
		p.tracing--
		p.endIfDone()
	}()
	for _, tell := range events {
		tell()
	}
}

// Ends the pool if it is closed and nothing is left to do.
func (p *Pool) endIfDone() {
	if p.closed && p.unfinished == 0 && p.tracing == 0 && p.rolling.histories != nil {
		p.patience.rest()
		p.rolling.end()
		close(p.drained)
	}
}

// The time since the opening of the pool.
func (p *Pool) now() time.Duration { return time.Since(p.begun) }

// Tenant returns the number of a tenant, for AcquireID and SubmitID, which look up no name. A new tenant takes a slot
// (Options.MostTenants), and keeps it while it has requests. The refusals are ErrName, ErrUnknownTenant, ErrNoSlot,
// ErrNoMemory and ErrClosed.
func (p *Pool) Tenant(name string) (TenantID, error) {
	p.lock.Lock()
	defer p.unlock()
	if p.closed {
		return TenantID{}, ErrClosed
	}
	s, err := p.slotOf(name, p.now())
	if err != nil {
		return TenantID{}, err
	}
	if s.idle != nil && !s.isOpen() {
		p.tenants.idle.MoveToBack(s.idle)
	}
	return TenantID{s.number, s.generation}, nil
}

// Kind returns the number of a kind, or ErrUnknownKind.
func (p *Pool) Kind(name string) (KindID, error) {
	number, ok := p.kinds[name]
	if !ok {
		return KindID{}, ErrUnknownKind
	}
	return KindID{number + 1}, nil
}

// The slot of the tenant. A new tenant takes one.
func (p *Pool) slotOf(name string, now time.Duration) (*slot, error) {
	if s, ok := p.tenants.byName[name]; ok {
		return s, nil
	}
	s, err := p.tenants.vacant(name)
	if err != nil {
		return nil, err
	}
	weight := p.tenants.weightOf(name)
	if weight != s.weight {
		if err := p.rolling.setWeight(now, s.number, weight); err != nil {
			return nil, err
		}
	}
	p.tenants.give(s, name, weight)
	return s, nil
}

// Notes the end of the last request of the tenant.
func (p *Pool) closesIfIdle(s *slot) {
	if !s.isOpen() {
		p.tenants.closes(s)
	}
}

// SetWeight sets the weight of a tenant, 1 to 100,000. The name of a tenant without a slot keeps it for the time when it
// comes. The refusals are ErrWeight, ErrName, ErrUnknownTenant, ErrClosed and ErrNoMemory. An older scheduler whose
// history is full keeps its weights until it is drained.
func (p *Pool) SetWeight(tenant string, weight int) error {
	if weight < 1 || weight > greatestWeight {
		return ErrWeight
	}
	p.lock.Lock()
	defer p.unlock()
	s, ok := p.tenants.byName[tenant]
	switch {
	case p.closed:
		return ErrClosed
	case ok:
		if err := p.reweigh(s, uint32(weight)); err != nil {
			return err
		}
	case !isName(tenant):
		return ErrName
	case !p.tenants.isDynamic():
		return ErrUnknownTenant
	}
	p.tenants.keepWeight(tenant, uint32(weight))
	return nil
}

func (p *Pool) reweigh(s *slot, weight uint32) error {
	now := p.now()
	if err := p.rolling.setWeight(now, s.number, weight); err != nil {
		return err
	}
	s.weight = weight
	p.dispatch(now)
	return nil
}

// SetWorkers sets the number of requests that may run at once, 1 to Options.MostWorkers. Requests that run go on. The
// refusals are ErrWorkers, ErrClosed and ErrNoMemory.
func (p *Pool) SetWorkers(count int) error {
	if count < 1 || count > p.options.MostWorkers {
		return ErrWorkers
	}
	p.lock.Lock()
	defer p.unlock()
	if p.closed {
		return ErrClosed
	}
	now := p.now()
	if err := p.rolling.setWorkers(now, count); err != nil {
		return err
	}
	p.patience.setWorkers(count, p.free)
	p.dispatch(now)
	return nil
}

// Close refuses new requests from here on, and waits until all accepted ones have ended: jobs are run, and waiting
// callers of Acquire get their permits. Then it frees the memory of the scheduler. A second call only waits. A job must
// not call it.
func (p *Pool) Close() { _ = p.Shutdown(context.Background()) }

// Shutdown is Close with an end: once the context ends it returns the context's error, and the accepted requests go on.
func (p *Pool) Shutdown(ctx context.Context) error {
	p.lock.Lock()
	if !p.closed {
		p.closed = true
		p.dispatch(p.now())
	}
	p.unlock()
	select {
	case <-p.drained:
		return nil
	case <-ctx.Done():
		return ctx.Err()
	}
}
