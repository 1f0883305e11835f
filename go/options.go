package twodfq

import (
	"fmt"
	"math"
	"time"
	"unicode/utf8"
)

// Tenant is a tenant that a pool knows from its opening on.
type Tenant struct {
	Name   string // 1 to 256 bytes of UTF-8
	Weight int    // 1 to 100,000; 0: DefaultWeight
}

// Kind is a kind of requests. Costs are estimated for each tenant and kind.
type Kind struct {
	Name        string
	MostRunning int // the most requests of a tenant and this kind that run at once; 0: no limit
}

// Options is the configuration of a pool. The zero value of a field stands for the default named at the field; only
// tenants must be given, by Tenants, MostTenants or both.
type Options struct {
	Workers     int // the number of requests that run at once: 1 to 4,096; 0: 4
	MostWorkers int // the limit of SetWorkers: Workers to 4,096; 0: Workers

	// Tenants keep their slots for good.
	Tenants []Tenant
	// MostTenants is the number of slots for tenants: at most 65,536, and at most 1,048,576 pairs of a slot and a kind.
	// A tenant without a slot takes an unused one, or the slot of the tenant that has been without requests for
	// longest. It inherits the cost estimates of that slot, and starts near virtual time. 0: only Tenants exist, and
	// other names are refused.
	MostTenants   int
	DefaultWeight int    // of tenants without a weight of their own: 1 to 100,000; 0: 1
	Kinds         []Kind // at most 64; none: one kind with the empty name

	Room int // the number of requests that may wait at once: 1 to 1,048,576; 0: 10,000
	// RoomPerTenant is the number of requests of one tenant that may wait. 0: each slot has Room / (2 * MostTenants)
	// places of its own, and at least one if Room suffices for that. The other places are shared: of these a tenant may
	// have as many as it leaves free.
	RoomPerTenant int
	MostRunning   int // the most requests of a tenant that run at once; 0: no limit

	Policy   Policy        // which request is dispatched next; 0: TwoDFQPlus
	Estimate Estimator     // its expected cost; 0: Pessimistic
	Initial  time.Duration // the estimate before any completion: a microsecond to 1,000 seconds; 0: a millisecond

	// Refresh is the time after which a running request is charged its use so far. This happens before the next
	// dispatch, and needs no timer. 0: 10 milliseconds; below 0: a request is charged at its end alone.
	Refresh time.Duration
	// Patience is the part of its time that the pool may lose so that cheap requests find a free worker: at most 1. 0:
	// 0.02; below 0: none.
	Patience float64
	// Entries is the length of a history, after which the pool opens the next scheduler: 16 to 4,000,000,000. 0:
	// 4,000,000,000. A request makes three entries, each report and change one.
	Entries uint32

	Trace *Trace // functions to call at the events of requests; nil: none
}

// The greatest numbers of a scheduler.
const (
	workerLimit    = 4096
	mostTenants    = 65_536
	greatestWeight = 100_000
	mostKinds      = 64
	mostPairs      = 1_048_576 // of a tenant and a kind
	mostRequests   = 1_048_576 // that wait at once
	mostEntries    = 4_000_000_000
	greatestCost   = 1_000_000_000 * time.Microsecond
)

// The least number of entries with surely enough room for the opening and one request.
const leastEntries = 16

// Fills in the defaults, in memory of its own, and reports a field out of its range.
func (o Options) complete() (Options, error) {
	o.Tenants = append([]Tenant(nil), o.Tenants...)
	o.Kinds = append([]Kind(nil), o.Kinds...)
	if len(o.Kinds) == 0 {
		o.Kinds = []Kind{{}}
	}
	fill(&o.Workers, 4)
	fill(&o.MostWorkers, o.Workers)
	fill(&o.MostTenants, len(o.Tenants))
	fill(&o.DefaultWeight, 1)
	fill(&o.Room, 10_000)
	fill(&o.Initial, time.Millisecond)
	fill(&o.Refresh, 10*time.Millisecond)
	fill(&o.Patience, defaultPatience)
	fill(&o.Entries, mostEntries)
	fill(&o.Trace, &Trace{})
	trace := *o.Trace
	o.Trace = &trace
	for i := range o.Tenants {
		fill(&o.Tenants[i].Weight, o.DefaultWeight)
	}
	return o, o.check()
}

func fill[T comparable](field *T, value T) {
	var none T
	if *field == none {
		*field = value
	}
}

// A field, its value and its range.
type field struct {
	name               string
	value, least, most int
}

func (o *Options) check() error {
	fields := []field{
		{"MostWorkers", o.MostWorkers, 1, workerLimit}, {"Workers", o.Workers, 1, o.MostWorkers},
		{"MostTenants", o.MostTenants, 1, mostTenants}, {"len(Tenants)", len(o.Tenants), 0, o.MostTenants},
		{"len(Kinds)", len(o.Kinds), 1, mostKinds}, {"MostTenants * len(Kinds)", o.MostTenants * len(o.Kinds), 1, mostPairs},
		{"DefaultWeight", o.DefaultWeight, 1, greatestWeight}, {"Room", o.Room, 1, mostRequests},
		{"RoomPerTenant", o.RoomPerTenant, 0, math.MaxInt}, {"MostRunning", o.MostRunning, 0, math.MaxInt},
		{"Initial", int(o.Initial), int(time.Microsecond), int(greatestCost)},
		{"Entries", int(o.Entries), leastEntries, mostEntries},
		{"Policy", int(o.Policy), 0, int(TwoDFQPlus)}, {"Estimate", int(o.Estimate), 0, int(Pessimistic)},
	}
	for i, tenant := range o.Tenants {
		fields = append(fields, field{fmt.Sprintf("Tenants[%d].Weight", i), tenant.Weight, 1, greatestWeight})
	}
	for i, kind := range o.Kinds {
		fields = append(fields, field{fmt.Sprintf("Kinds[%d].MostRunning", i), kind.MostRunning, 0, math.MaxInt})
	}
	for _, f := range fields {
		if f.value < f.least || f.value > f.most {
			return fmt.Errorf("%w: %s is %d, and may be %d to %d", ErrOptions, f.name, f.value, f.least, f.most)
		}
	}
	if !(o.Patience <= 1) {
		return fmt.Errorf("%w: Patience is %v, and may be at most 1", ErrOptions, o.Patience)
	}
	return o.checkNames()
}

func (o *Options) checkNames() error {
	tenants := make(map[string]int)
	for i, tenant := range o.Tenants {
		if !isName(tenant.Name) {
			return fmt.Errorf("%w: Tenants[%d].Name is %q, and has to be 1 to 256 bytes of UTF-8", ErrOptions, i, tenant.Name)
		}
		if first, ok := tenants[tenant.Name]; ok {
			return fmt.Errorf("%w: Tenants[%d].Name is %q, as Tenants[%d].Name is", ErrOptions, i, tenant.Name, first)
		}
		tenants[tenant.Name] = i
	}
	kinds := make(map[string]int)
	for i, kind := range o.Kinds {
		if first, ok := kinds[kind.Name]; ok {
			return fmt.Errorf("%w: Kinds[%d].Name is %q, as Kinds[%d].Name is", ErrOptions, i, kind.Name, first)
		}
		kinds[kind.Name] = i
	}
	return nil
}

func isName(text string) bool { return 1 <= len(text) && len(text) <= 256 && utf8.ValidString(text) }

// RequestOption is a detail of a request.
type RequestOption func(*request)

// Declare gives the cost of the request, a microsecond to 1,000 seconds, for pools whose Options.Estimate is Declared.
// The default is Options.Initial.
func Declare(cost time.Duration) RequestOption { return func(r *request) { r.declared = cost } }
