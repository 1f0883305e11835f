package twodfq

import (
	"context"
	"time"
)

// Trace has functions that a pool calls at the events of each request, with the context of its Acquire or Submit. Nil
// functions are left out. The calls are made without the lock of the pool, by the goroutine that caused the event: one
// that submits, releases a permit or withdraws. So two events of a request may be reported by two goroutines, in either
// order. Close waits for the calls, and none of them may call it.
type Trace struct {
	Submitted func(ctx context.Context, tenant, kind string)
	Refused   func(ctx context.Context, refusal *RefusalError)
	// Begun gets the time from submit to begin.
	Begun func(ctx context.Context, tenant, kind string, waited time.Duration)
	// Ended gets the time from begin to end, and the charge.
	Ended func(ctx context.Context, tenant, kind string, ran, cost time.Duration)
	// Withdrawn gets the time since the submit, and the context's error or ErrNoMemory.
	Withdrawn func(ctx context.Context, tenant, kind string, waited time.Duration, cause error)
}

// Adds an event to report without the lock.
func (p *Pool) tell(event func()) { p.events = append(p.events, event) }

// Adds events before those that are there.
func (p *Pool) traceFirst(trace func()) {
	later := p.events
	p.events = nil
	trace()
	p.events = append(p.events, later...)
}

func (p *Pool) kindName(r *request) string { return p.options.Kinds[r.kind].Name }

func (p *Pool) traceSubmitted(r *request) {
	if tell := p.options.Trace.Submitted; tell != nil {
		tenant, kind := r.slot.name, p.kindName(r)
		p.tell(func() { tell(r.ctx, tenant, kind) })
	}
}

func (p *Pool) traceRefused(ctx context.Context, refusal *RefusalError) {
	if tell := p.options.Trace.Refused; tell != nil {
		p.tell(func() { tell(ctx, refusal) })
	}
}

func (p *Pool) traceBegun(r *request, now time.Duration) {
	if tell := p.options.Trace.Begun; tell != nil {
		tenant, kind := r.slot.name, p.kindName(r)
		p.tell(func() { tell(r.ctx, tenant, kind, r.waited(now)) })
	}
}

func (p *Pool) traceEnded(t *Permit, now, cost time.Duration) {
	if tell := p.options.Trace.Ended; tell != nil {
		r, tenant, kind := t.request, t.request.slot.name, p.kindName(t.request)
		p.tell(func() { tell(r.ctx, tenant, kind, now-t.begun, cost) })
	}
}

func (p *Pool) traceWithdrawn(r *request, now time.Duration, cause error) {
	if tell := p.options.Trace.Withdrawn; tell != nil {
		tenant, kind := r.slot.name, p.kindName(r)
		p.tell(func() { tell(r.ctx, tenant, kind, r.waited(now), cause) })
	}
}
