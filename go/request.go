package twodfq

import (
	"container/heap"
	"container/list"
	"context"
	"math"
	"time"
)

// The state of a request.
type stage uint8

const (
	stageHeld    stage = iota // waiting, before a limit
	stageQueued               // waiting, in the scheduler
	stageGranted              // begun: it has had its permit
	stageEnded                // ended without a begin
)

// The deadline of a request without one.
const never = time.Duration(math.MaxInt64)

// A request, from its submit to its end.
type request struct {
	ctx      context.Context
	isJob    bool // of a job, and not of an Acquire
	slot     *slot
	kind     uint32
	declared time.Duration
	label    uint64 // a number of its own
	came     time.Duration
	deadline time.Duration // the latest moment to begin, or never
	late     int           // its index in the heap of deadlines, or -1

	stage   stage
	place   *list.Element // among the held requests
	history *history      // the scheduler in which it waits or runs
	number  uint32        // its number in that scheduler

	ready  chan struct{} // closed at the begin or the end of the request, after permit and err are set
	permit *Permit
	err    error
	start  start // runs the job, where no goroutine waits for ready
}

// Gives the submitter the permit of the request, which has begun, or the error for which it never will.
func (p *Pool) resolve(r *request, permit *Permit, err error) {
	r.permit, r.err, r.stage = permit, err, stageGranted
	if err != nil {
		r.stage = stageEnded
		p.finish(r)
	}
	close(r.ready)
	if r.start != nil {
		p.starts = append(p.starts, r.start)
	}
}

// The request has ended. A job ends later, with its result.
func (p *Pool) finish(r *request) {
	if !r.isJob {
		p.unfinished--
	}
}

// The time from submit to begin. A request may come while a dispatch of an earlier moment waits for the lock.
func (r *request) waited(now time.Duration) time.Duration {
	if now < r.came {
		return 0
	}
	return now - r.came
}

// Takes a request, to the scheduler or before a limit. A refusal changes nothing.
func (p *Pool) accept(r *request, now time.Duration) error {
	s := r.slot
	if err := p.room.refuses(s.waiting); err != nil {
		return err
	}
	r.came, r.label = now, p.next
	if p.mayGo(s, r.kind) {
		if err := p.handOver(r, now); err != nil {
			return err
		}
	} else {
		p.hold(r)
	}
	p.next++
	p.unfinished++
	if !s.isOpen() {
		p.tenants.opens(s)
	}
	p.room.enter(s.waiting)
	s.waiting++
	s.counts.Submitted++
	if r.deadline != never {
		heap.Push(&p.deadlines, r)
	}
	return nil
}

// Hands a request to the scheduler.
func (p *Pool) handOver(r *request, now time.Duration) error {
	if err := p.rolling.submit(now, r); err != nil {
		return err
	}
	r.stage = stageQueued
	p.requests[r.label] = r
	r.slot.inside++
	r.slot.kinds[r.kind].inside++
	return nil
}

// The request waits no longer: its place is free.
func (p *Pool) leaveRoom(r *request) {
	p.room.leave(r.slot.waiting)
	r.slot.waiting--
	if r.late >= 0 {
		heap.Remove(&p.deadlines, r.late)
	}
}

// A request has left the scheduler, so that a held one of its tenant may go there.
func (p *Pool) leaveScheduler(r *request, now time.Duration) {
	r.slot.inside--
	r.slot.kinds[r.kind].inside--
	p.releaseHeld(r.slot, now)
}

// Withdraws a request if it waits, and reports whether it did. The request costs nothing, and the estimates learn
// nothing from it.
func (p *Pool) withdraw(r *request, cause error, now time.Duration) bool {
	switch r.stage {
	case stageHeld:
		p.unhold(r)
		p.drop(r, cause, now)
	case stageQueued:
		if _, err := r.history.scheduler.Withdraw(caller, moment(now), r.number); err != nil {
			panic("twodfq: a request that waits is not withdrawn: " + err.Error())
		}
		r.history.waiting--
		delete(p.requests, r.label)
		p.drop(r, cause, now)
		p.leaveScheduler(r, now)
		p.rolling.free()
	default:
		return false
	}
	return true
}

// A request that waited ends by this cause.
func (p *Pool) drop(r *request, cause error, now time.Duration) {
	p.leaveRoom(r)
	p.closesIfIdle(r.slot)
	switch cause {
	case ErrNoneFree: // a TryAcquire leaves no trace
		r.slot.counts.Submitted--
	case context.DeadlineExceeded:
		r.slot.counts.Late++
		p.traceWithdrawn(r, now, cause)
	default:
		r.slot.counts.Cancelled++
		p.traceWithdrawn(r, now, cause)
	}
	p.resolve(r, nil, cause)
}

// A heap of requests, the earliest deadline first.
type deadlines []*request

func (d deadlines) Len() int           { return len(d) }
func (d deadlines) Less(i, j int) bool { return d[i].deadline < d[j].deadline }

func (d deadlines) Swap(i, j int) {
	d[i], d[j] = d[j], d[i]
	d[i].late, d[j].late = i, j
}

// Push is of heap.Interface.
func (d *deadlines) Push(r any) {
	r.(*request).late = len(*d)
	*d = append(*d, r.(*request))
}

// Pop is of heap.Interface.
func (d *deadlines) Pop() any {
	last := len(*d) - 1
	r := (*d)[last]
	(*d)[last] = nil
	*d = (*d)[:last]
	r.late = -1
	return r
}

// Withdraws the requests whose deadlines have passed, also where the timers of their contexts are late.
func (p *Pool) dropLate() {
	if len(p.deadlines) == 0 {
		return
	}
	for now := p.now(); len(p.deadlines) > 0 && p.deadlines[0].deadline <= now; {
		p.withdraw(p.deadlines[0], context.DeadlineExceeded, now)
	}
}
