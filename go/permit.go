package twodfq

import (
	"context"
	"time"
)

// Permit allows its holder to run a request. It occupies a worker of its pool until it is released. Its methods may be
// called from any goroutine.
type Permit struct {
	pool     *Pool
	request  *request
	worker   uint32
	begun    time.Duration
	reported time.Duration // the moment of the begin, or of the last report by the pool
	used     uint64        // the reported cost, in microseconds
	isOver   bool
}

// Acquire waits for the turn of a request of this tenant and kind, and returns a permit to run it. If the context ends
// or its deadline passes first, the request is withdrawn: it costs nothing, and Acquire returns the context's error. A
// permit that is granted while the context ends goes back at once, and the moment between is charged.
//
// A RefusalError is returned at once. Its cause is ErrClosed, ErrUnknownKind, ErrCost, ErrName, ErrUnknownTenant,
// ErrNoSlot, ErrTooManyWait, ErrTenantFull or ErrNoMemory. A request that is held back by a limit may also end with
// ErrNoMemory, where there is no memory for the next scheduler.
func (p *Pool) Acquire(ctx context.Context, tenant, kind string, options ...RequestOption) (*Permit, error) {
	return p.acquire(ctx, named{tenant, kind}, options)
}

// AcquireID is Acquire by numbers. Once the slot of the tenant has gone to another one the cause is ErrTenantGone.
func (p *Pool) AcquireID(ctx context.Context, tenant TenantID, kind KindID, options ...RequestOption) (*Permit, error) {
	return p.acquire(ctx, numbered{tenant, kind}, options)
}

func (p *Pool) acquire(ctx context.Context, origin origin, options []RequestOption) (*Permit, error) {
	r := &request{ctx: ctx, ready: make(chan struct{})}
	if err := p.enter(r, origin, options); err != nil {
		return nil, err
	}
	return p.await(r)
}

// TryAcquire returns a permit if the request may run now. If not, it is refused with ErrNoneFree and leaves nothing
// waiting. Its other refusals are those of Acquire.
func (p *Pool) TryAcquire(tenant, kind string, options ...RequestOption) (*Permit, error) {
	return p.tryAcquire(named{tenant, kind}, options)
}

// TryAcquireID is TryAcquire by numbers.
func (p *Pool) TryAcquireID(tenant TenantID, kind KindID, options ...RequestOption) (*Permit, error) {
	return p.tryAcquire(numbered{tenant, kind}, options)
}

func (p *Pool) tryAcquire(origin origin, options []RequestOption) (*Permit, error) {
	r := &request{ctx: context.Background(), ready: make(chan struct{})}
	r.apply(options, p.options.Initial)
	p.lock.Lock()
	defer p.unlock()
	now := p.now()
	err := p.identify(r, origin, now)
	if err == nil && (freeWorkers{p.free, p.rolling.workers}.isEmpty() || !p.mayGo(r.slot, r.kind)) {
		err = ErrNoneFree
	}
	if err == nil {
		err = p.accept(r, now)
	}
	if err != nil {
		return nil, p.refuse(r, origin, err)
	}
	p.dispatch(now)
	if p.withdraw(r, ErrNoneFree, now) {
		p.dispatch(now)
		return nil, p.refuse(r, origin, ErrNoneFree)
	}
	p.traceFirst(func() { p.traceSubmitted(r) })
	return r.permit, nil
}

// Waits until the request has begun or ended.
func (p *Pool) await(r *request) (*Permit, error) {
	select {
	case <-r.ready:
	case <-r.ctx.Done():
		p.cancel(r, r.ctx.Err())
		<-r.ready // withdrawn, or granted before
	}
	if r.err != nil {
		return nil, r.err
	}
	if err := r.ctx.Err(); err != nil { // the caller gave up while the permit was granted
		r.permit.Release()
		return nil, err
	}
	return r.permit, nil
}

// Withdraws the request if it waits, and reports whether it did.
func (p *Pool) cancel(r *request, cause error) bool {
	p.lock.Lock()
	defer p.unlock()
	now := p.now()
	waited := p.withdraw(r, cause, now)
	if waited {
		p.dispatch(now)
	}
	return waited
}

// Used reports the cost of the request so far. A cost below an earlier one changes nothing. After the first call the
// pool no longer reports by itself (Options.Refresh).
func (t *Permit) Used(cost time.Duration) {
	t.pool.lock.Lock()
	defer t.pool.unlock()
	if t.isOver {
		return
	}
	now := t.pool.now()
	t.pool.reporting.leave(t.worker)
	t.report(now, cost)
	t.pool.dispatch(now)
}

// Release ends the request, and charges the time for which it ran. A permit is released once: later calls of Release
// and ReleaseCost do nothing, so that Release may be deferred.
func (t *Permit) Release() {
	now := t.pool.now()
	t.end(now, now-t.begun, false)
}

// ReleaseCost ends the request at a measured cost. The charge is at least a microsecond, at least the reported cost,
// and at most 1,000 seconds. A pool whose costs are not times of running should have Options.Refresh below 0, since
// otherwise it reports such times.
func (t *Permit) ReleaseCost(cost time.Duration) { t.end(t.pool.now(), cost, false) }

func (t *Permit) end(now, cost time.Duration, panicked bool) {
	t.pool.lock.Lock()
	defer t.pool.unlock()
	t.pool.endPermit(t, now, cost, panicked)
}

// Ends the request of the permit.
func (p *Pool) endPermit(t *Permit, now, cost time.Duration, panicked bool) {
	if t.isOver {
		return
	}
	t.isOver = true
	charge := microseconds(cost)
	if charge < t.used {
		charge = t.used
	}
	cost = time.Duration(charge) * time.Microsecond
	r := t.request
	if err := r.history.scheduler.Done(t.worker, moment(now), t.worker, charge); err != nil {
		panic("twodfq: a running request can't end: " + err.Error())
	}
	r.history.running--
	p.patience.earn(cost)
	p.vacate(t, now)
	r.slot.counts.end(now-t.begun, cost, panicked)
	p.traceEnded(t, now, cost)
	p.closesIfIdle(r.slot)
	p.leaveScheduler(r, now)
	p.rolling.free()
	p.dispatch(now)
	p.finish(r)
}

// Frees the worker of the permit.
func (p *Pool) vacate(t *Permit, now time.Duration) {
	p.permits[t.worker] = nil
	p.reporting.leave(t.worker)
	p.free.add(t.worker)
	p.patience.becomesFree(t.worker, now, p.rolling.workers)
	p.running--
	t.request.slot.running--
}

// Reports the cost so far. A history without room for it goes on without the report.
func (t *Permit) report(now, cost time.Duration) {
	used := microseconds(cost)
	if used < t.used || t.request.history.scheduler.Report(t.worker, moment(now), t.worker, used) != nil {
		return
	}
	t.used = used
	t.request.slot.counts.Reports++
}

// Reports the time of running of each permit that was held for Refresh since its last report.
func (p *Pool) reportHeld(now time.Duration) {
	for p.options.Refresh > 0 {
		worker, ok := p.reporting.first()
		if !ok || now-p.permits[worker].reported < p.options.Refresh {
			return
		}
		permit := p.permits[worker]
		permit.reported = now
		permit.report(now, now-permit.begun)
		p.reporting.join(worker)
	}
}
