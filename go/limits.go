package twodfq

import (
	"container/list"
	"time"
)

// The requests of a tenant and kind.
type queue struct {
	inside int       // the requests in the scheduler, waiting or running: no more than may run
	held   list.List // the requests held back before the scheduler
}

// Whether one more request of the tenant and kind may go to the scheduler.
func (p *Pool) mayGo(s *slot, kind uint32) bool {
	most := p.options.Kinds[kind].MostRunning
	return (p.options.MostRunning == 0 || s.inside < p.options.MostRunning) && (most == 0 || s.kinds[kind].inside < most)
}

// Holds a request back before the scheduler.
func (p *Pool) hold(r *request) {
	r.stage = stageHeld
	r.place = r.slot.kinds[r.kind].held.PushBack(r)
	r.slot.held++
}

// Takes a request from those held back.
func (p *Pool) unhold(r *request) {
	r.slot.kinds[r.kind].held.Remove(r.place)
	r.slot.held--
}

// Hands the held requests of the tenant to the scheduler as far as the limits allow: those of a kind in their order,
// and of several kinds the oldest one. A request ends where there is no memory for it.
func (p *Pool) releaseHeld(s *slot, now time.Duration) {
	for s.held > 0 {
		next := p.nextHeld(s)
		if next == nil {
			return
		}
		p.unhold(next)
		if err := p.handOver(next, now); err != nil {
			p.drop(next, err, now)
		}
	}
}

func (p *Pool) nextHeld(s *slot) *request {
	var next *request
	for kind := range s.kinds {
		front := s.kinds[kind].held.Front()
		if front == nil || !p.mayGo(s, uint32(kind)) {
			continue
		}
		if first := front.Value.(*request); next == nil || first.label < next.label {
			next = first
		}
	}
	return next
}
