package twodfq

import (
	"context"
	"log"
	"runtime/debug"
)

// The result of a job.
type outcome[T any] struct {
	value    T
	err      error
	panicked bool
}

// Runs the job and recovers its panic. Does not return where the job calls runtime.Goexit.
func (o *outcome[T]) of(ctx context.Context, job func(context.Context) (T, error)) {
	o.err = ErrExited
	if !o.returns(ctx, job) && !o.panicked {
		o.err, o.panicked = &PanicError{}, true // it called panic(nil)
	}
}

func (o *outcome[T]) returns(ctx context.Context, job func(context.Context) (T, error)) (returned bool) {
	defer func() {
		if value := recover(); value != nil {
			o.err, o.panicked = &PanicError{value, debug.Stack()}, true
		}
	}()
	o.value, o.err = job(ctx)
	return true
}

// Handle is a job of a pool, and its result once the job has ended.
type Handle[T any] struct {
	pool    *Pool
	request *request
	done    chan struct{}
	outcome outcome[T]
}

// Submit has the pool run a job in its tenant's turn. If the context ends or its deadline passes before the job has
// begun, the job never runs and costs nothing; its result is the context's error. The job gets the context, with its
// permit (PermitFromContext). The refusals are those of Acquire, and ErrNoJob.
//
// A job that panics has a PanicError as its result, and one that calls runtime.Goexit has ErrExited. A waiting job
// takes a goroutine only where its context can end.
func Submit[T any](ctx context.Context, pool *Pool, tenant, kind string, job func(context.Context) (T, error),
	options ...RequestOption) (*Handle[T], error) {
	return submit(ctx, pool, named{tenant, kind}, job, options)
}

// SubmitID is Submit by numbers. Once the slot of the tenant has gone to another one the cause is ErrTenantGone.
func SubmitID[T any](ctx context.Context, pool *Pool, tenant TenantID, kind KindID,
	job func(context.Context) (T, error), options ...RequestOption) (*Handle[T], error) {
	return submit(ctx, pool, numbered{tenant, kind}, job, options)
}

func submit[T any](ctx context.Context, pool *Pool, origin origin, job func(context.Context) (T, error),
	options []RequestOption) (*Handle[T], error) {
	if job == nil {
		return nil, pool.refuseNoJob(ctx, origin)
	}
	r := &request{ctx: ctx, isJob: true, ready: make(chan struct{})}
	h := &Handle[T]{pool: pool, request: r, done: make(chan struct{})}
	var run start = func() start { return h.run(job) }
	hasEnd := ctx.Done() != nil // so that a goroutine waits for it
	if !hasEnd {
		r.start = run
	}
	if err := pool.enter(r, origin, options); err != nil {
		return nil, err
	}
	if hasEnd {
		go run.follow()
	}
	return h, nil
}

// A start runs a job, and returns the next job for the same goroutine, if there is one.
type start func() start

// Runs jobs one after another.
func (s start) follow() {
	for s != nil {
		s = s()
	}
}

// Runs the job once its request has begun, and publishes its result.
func (h *Handle[T]) run(job func(context.Context) (T, error)) (next start) {
	permit, err := h.pool.await(h.request)
	returns := false
	defer func() {
		next = h.pool.endJob(permit, h.outcome.panicked, h.done)
		if !returns { // runtime.Goexit ends this goroutine
			go next.follow()
		}
	}()
	if err != nil {
		h.outcome.err = err
	} else {
		h.outcome.of(ContextWithPermit(h.request.ctx, permit), job)
	}
	returns = true
	return nil
}

// Publishes the result of a job. Returns the next job to run, if the end of this one dispatched any.
func (p *Pool) endJob(permit *Permit, panicked bool, done chan struct{}) (next start) {
	now := p.now()
	p.lock.Lock()
	defer p.unlock()
	if permit != nil {
		p.endPermit(permit, now, now-permit.begun, panicked)
	}
	p.unfinished--
	close(done)
	if last := len(p.starts) - 1; last >= 0 {
		next, p.starts = p.starts[last], p.starts[:last]
	}
	return next
}

// Done returns a channel that is closed once the job has ended, or was withdrawn.
func (h *Handle[T]) Done() <-chan struct{} { return h.done }

// Wait returns the result of the job once it has ended. If the context ends first, Wait returns the context's error;
// the job goes on, and Wait may be called again.
func (h *Handle[T]) Wait(ctx context.Context) (T, error) {
	select {
	case <-h.done:
	default:
		select {
		case <-h.done:
		case <-ctx.Done():
			var none T
			return none, ctx.Err()
		}
	}
	return h.outcome.value, h.outcome.err
}

// Cancel withdraws the job if it still waits, and reports whether it did. A withdrawn job never runs, and its result is
// context.Canceled.
func (h *Handle[T]) Cancel() bool { return h.pool.cancel(h.request, context.Canceled) }

// Do runs a job in its tenant's turn and in the calling goroutine, and returns its result as Submit and Wait would. A
// job that calls runtime.Goexit ends the calling goroutine.
func Do[T any](ctx context.Context, pool *Pool, tenant, kind string, job func(context.Context) (T, error),
	options ...RequestOption) (T, error) {
	var o outcome[T]
	if job == nil {
		return o.value, pool.refuseNoJob(ctx, named{tenant, kind})
	}
	permit, err := pool.Acquire(ctx, tenant, kind, options...)
	if err != nil {
		return o.value, err
	}
	defer func() {
		now := pool.now()
		permit.end(now, now-permit.begun, o.panicked)
	}()
	o.of(ContextWithPermit(ctx, permit), job)
	return o.value, o.err
}

// Go is Submit for a job without a result. Package log prints the panic of such a job, and its stack.
func (p *Pool) Go(ctx context.Context, tenant, kind string, job func(context.Context), options ...RequestOption) error {
	if job == nil {
		return p.refuseNoJob(ctx, named{tenant, kind})
	}
	_, err := Submit(ctx, p, tenant, kind, func(ctx context.Context) (none struct{}, err error) {
		defer func() {
			if value := recover(); value != nil {
				log.Printf("twodfq: a job of tenant %q panicked: %v\n%s", tenant, value, debug.Stack())
				panic(value) // so that the job counts as panicked
			}
		}()
		job(ctx)
		return
	}, options...)
	return err
}

func (p *Pool) refuseNoJob(ctx context.Context, origin origin) error {
	p.lock.Lock()
	defer p.unlock()
	return p.refuse(&request{ctx: ctx}, origin, ErrNoJob)
}

// The key of a permit in a context.
type permitKey struct{}

// ContextWithPermit returns a context with the permit, for PermitFromContext.
func ContextWithPermit(ctx context.Context, permit *Permit) context.Context {
	return context.WithValue(ctx, permitKey{}, permit)
}

// PermitFromContext returns the permit of the job or HTTP request with this context, or nil. A long job reports its
// cost by it.
func PermitFromContext(ctx context.Context) *Permit {
	permit, _ := ctx.Value(permitKey{}).(*Permit)
	return permit
}
