package twodfq

import (
	"context"
	"time"
)

// The tenant and kind of a request, by names or by numbers.
type origin interface {
	tenant(p *Pool, now time.Duration) (*slot, error)
	kind(p *Pool) (uint32, error)
	names(p *Pool) named // empty where the number is unknown
}

type named struct{ tenantName, kindName string }

func (n named) tenant(p *Pool, now time.Duration) (*slot, error) { return p.slotOf(n.tenantName, now) }

func (n named) kind(p *Pool) (uint32, error) {
	number, ok := p.kinds[n.kindName]
	if !ok {
		return 0, ErrUnknownKind
	}
	return number, nil
}

func (n named) names(*Pool) named { return n }

type numbered struct {
	tenantID TenantID
	kindID   KindID
}

func (n numbered) tenant(p *Pool, _ time.Duration) (*slot, error) { return p.tenants.byID(n.tenantID) }

func (n numbered) kind(p *Pool) (uint32, error) {
	if n.kindID.after == 0 || int(n.kindID.after) > len(p.options.Kinds) {
		return 0, ErrUnknownKind
	}
	return n.kindID.after - 1, nil
}

func (n numbered) names(p *Pool) (names named) {
	if s, err := p.tenants.byID(n.tenantID); err == nil {
		names.tenantName = s.name
	}
	if number, err := n.kind(p); err == nil {
		names.kindName = p.options.Kinds[number].Name
	}
	return names
}

// Applies the options of a request.
func (r *request) apply(options []RequestOption, initial time.Duration) {
	r.declared, r.deadline, r.late = initial, never, -1
	for _, option := range options {
		option(r)
	}
}

// Takes a request, which then waits unless it begins at once. A context that has ended is an error of its own, and no
// refusal.
func (p *Pool) enter(r *request, origin origin, options []RequestOption) error {
	if err := r.ctx.Err(); err != nil {
		return err
	}
	r.apply(options, p.options.Initial)
	p.lock.Lock()
	defer p.unlock()
	now := p.now()
	if deadline, ok := r.ctx.Deadline(); ok {
		if r.deadline = deadline.Sub(p.begun); r.deadline <= now {
			return context.DeadlineExceeded
		}
	}
	err := p.identify(r, origin, now)
	if err == nil {
		err = p.accept(r, now)
	}
	if err != nil {
		return p.refuse(r, origin, err)
	}
	p.traceSubmitted(r)
	p.dispatch(now)
	return nil
}

// Finds tenant and kind, or the first cause to refuse the request.
func (p *Pool) identify(r *request, origin origin, now time.Duration) (err error) {
	if p.closed {
		return ErrClosed
	}
	if r.kind, err = origin.kind(p); err != nil {
		return err
	}
	if r.declared < time.Microsecond || r.declared > greatestCost {
		return ErrCost
	}
	r.slot, err = origin.tenant(p, now)
	return err
}

// Counts the refusal.
func (p *Pool) refuse(r *request, origin origin, err error) error {
	cause, ok := err.(Cause)
	if !ok {
		panic("twodfq: a pool makes no call that is refused so: " + err.Error())
	}
	counts := &p.tenants.gone
	if r.slot != nil {
		counts = &r.slot.counts
	}
	counts.Refused[cause]++
	names := origin.names(p)
	refusal := &RefusalError{names.tenantName, names.kindName, cause}
	p.traceRefused(r.ctx, refusal)
	return refusal
}
