package twodfq

import "container/list"

// TenantID is the number of a tenant. A pool refuses it once the slot of the tenant has gone to another one.
type TenantID struct {
	slot       uint32
	generation uint64 // from 1 on, so that the zero value is no tenant
}

// KindID is the number of a kind.
type KindID struct {
	after uint32 // the number plus 1, so that the zero value is no kind
}

// A tenant of the scheduler, which tenants of the pool have one after another.
type slot struct {
	tally
	number     uint32
	generation uint64
	isFixed    bool
	inside     int // the requests in the scheduler, waiting or running
	kinds      []queue
	idle       *list.Element // its place among the idle slots, unless it is fixed
}

// The part of a slot that a status shows.
type tally struct {
	name          string // empty while the slot is unused
	weight        uint32
	waiting, held int // the requests that wait, and those of them that are held back before the scheduler
	running       int
	counts        counts
}

func (s *slot) isOpen() bool { return s.waiting > 0 || s.running > 0 }

// All slots, and the names of their tenants.
type tenants struct {
	slots         []*slot
	byName        map[string]*slot
	idle          list.List // the slots without requests that are not fixed, the next one to give away at the front
	weights       map[string]uint32
	defaultWeight uint32
	gone          counts // of tenants that left, and of names that never had a slot
	open          int    // the number of tenants with requests
}

func newTenants(o *Options) *tenants {
	t := &tenants{byName: make(map[string]*slot), weights: make(map[string]uint32), defaultWeight: uint32(o.DefaultWeight)}
	for number := 0; number < o.MostTenants; number++ {
		s := &slot{number: uint32(number), generation: 1, kinds: make([]queue, len(o.Kinds))}
		s.weight = t.defaultWeight
		if number < len(o.Tenants) {
			s.name, s.isFixed, s.weight = o.Tenants[number].Name, true, uint32(o.Tenants[number].Weight)
			t.byName[s.name] = s
		} else {
			s.idle = t.idle.PushBack(s)
		}
		t.slots = append(t.slots, s)
	}
	return t
}

// The weight of each slot.
func (t *tenants) slotWeights() []uint32 {
	weights := make([]uint32, len(t.slots))
	for i, s := range t.slots {
		weights[i] = s.weight
	}
	return weights
}

func (t *tenants) isDynamic() bool { return !t.slots[len(t.slots)-1].isFixed }

// The slot of a tenant that has one.
func (t *tenants) byID(id TenantID) (*slot, error) {
	if id.generation == 0 || int(id.slot) >= len(t.slots) {
		return nil, ErrUnknownTenant
	}
	if s := t.slots[id.slot]; s.generation == id.generation {
		return s, nil
	}
	return nil, ErrTenantGone
}

// The weight of a tenant that takes a slot.
func (t *tenants) weightOf(name string) uint32 {
	if weight, ok := t.weights[name]; ok {
		return weight
	}
	return t.defaultWeight
}

// Keeps the weight of a tenant that comes and goes.
func (t *tenants) keepWeight(name string, weight uint32) {
	if weight == t.defaultWeight {
		delete(t.weights, name)
	} else if s, ok := t.byName[name]; !ok || !s.isFixed {
		t.weights[name] = weight
	}
}

// The slot for a new tenant: an unused one, or that of the tenant without requests for longest.
func (t *tenants) vacant(name string) (*slot, error) {
	switch front := t.idle.Front(); {
	case !isName(name):
		return nil, ErrName
	case !t.isDynamic():
		return nil, ErrUnknownTenant
	case front == nil:
		return nil, ErrNoSlot
	default:
		return front.Value.(*slot), nil
	}
}

// Gives the slot to another tenant.
func (t *tenants) give(s *slot, name string, weight uint32) {
	if s.name != "" {
		delete(t.byName, s.name)
		t.gone.add(&s.counts)
		s.generation++
	}
	s.name, s.weight, s.counts = name, weight, counts{}
	t.byName[name] = s
	t.idle.MoveToBack(s.idle)
}

// The first request of the tenant comes.
func (t *tenants) opens(s *slot) {
	t.open++
	if s.idle != nil {
		t.idle.Remove(s.idle)
	}
}

// The last request of the tenant has ended.
func (t *tenants) closes(s *slot) {
	t.open--
	if s.idle != nil {
		s.idle = t.idle.PushBack(s)
	}
}
