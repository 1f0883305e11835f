package twodfq

// #cgo LDFLAGS: -L${SRCDIR}/../c/out/lib -ltwodfq
// #include "twodfq.h"
import "C"

import (
	"fmt"
	"math"
)

// Policy says which waiting request a worker takes. Its zero value stands for TwoDFQPlus.
type Policy uint32

const (
	WFQ        Policy = C.TWODFQ_WFQ + 1       // the least finish tag
	WF2Q       Policy = C.TWODFQ_WF2Q + 1      // the least finish tag of the heads that have started in virtual time
	MSF2Q      Policy = C.TWODFQ_MSF2Q + 1     // as WF2Q, with starts by the virtual time that passed while a tenant was idle
	TwoDFQ     Policy = C.TWODFQ_2DFQ + 1      // as WF2Q, with eligible keys that differ from worker to worker
	TwoDFQPlus Policy = C.TWODFQ_2DFQ_PLUS + 1 // as TwoDFQ, with a virtual time that stays near the service
)

func (p Policy) number() C.uint32_t {
	if p == 0 {
		p = TwoDFQPlus
	}
	return C.uint32_t(p - 1)
}

// Estimator says how the cost of a request is estimated before it is done. Its zero value stands for Pessimistic.
type Estimator uint32

const (
	Declared    Estimator = C.TWODFQ_DECLARED + 1    // the cost that its submitter declared
	Recent      Estimator = C.TWODFQ_RECENT + 1      // the mean of the last eight costs of its tenant and kind
	Pessimistic Estimator = C.TWODFQ_PESSIMISTIC + 1 // the greatest of the costs of its tenant and kind, which decay
)

func (e Estimator) number() C.uint32_t {
	if e == 0 {
		e = Pessimistic
	}
	return C.uint32_t(e - 1)
}

// Config is the configuration of a scheduler. Entries is 4 to 4,194,304, and up to 4,000,000,000 where Keep is not 0.
// An Entries of 0 stands for 1,000,000, and for 4,000,000,000 where Keep is not 0.
type Config struct {
	Workers  uint32   // 1 to 4,096
	Weights  []uint32 // one a tenant, each 1 to 100,000; 1 to 65,536 tenants
	Kinds    uint32   // 1 to 64; tenants times kinds is at most 1,048,576
	Entries  uint32   // how many entries the history may have
	Requests uint32   // how many requests may wait at once: 1 to 1,048,576
	Policy   Policy
	Estimate Estimator
	Initial  uint64 // the estimate before any completion: 1 to 1,000,000,000
	Keep     uint32 // how many of the last entries can be read; 0, and any number above Entries, is all of them
}

// Default gives four workers, 0 for Entries and Keep, 10,000 requests, TwoDFQPlus, Pessimistic and 1,000 microseconds.
func Default(weights ...uint32) Config {
	return Config{Workers: 4, Weights: weights, Kinds: 1, Requests: 10_000, Policy: TwoDFQPlus, Estimate: Pessimistic,
		Initial: 1000}
}

// How many entries the history may have.
func (c Config) entries() uint32 {
	switch {
	case c.Entries != 0:
		return c.Entries
	case c.Keep != 0:
		return mostEntries
	default:
		return 1_000_000
	}
}

// OpenFault is a status of twodfq_open: why there is no scheduler.
type OpenFault uint32

func (f OpenFault) Error() string {
	if f == C.TWODFQ_OPEN_NO_MEMORY {
		return "no memory for a scheduler"
	}
	return fmt.Sprintf("no scheduler has these numbers (TWODFQ_OPEN_..., status %d)", uint32(f))
}

// Refusal is a kind of reply with which a call is refused.
type Refusal uint32

const (
	RefusedClosed     Refusal = C.TWODFQ_REFUSED_CLOSED
	RefusedTenant     Refusal = C.TWODFQ_REFUSED_TENANT
	RefusedKind       Refusal = C.TWODFQ_REFUSED_KIND
	RefusedCost       Refusal = C.TWODFQ_REFUSED_COST
	RefusedSlots      Refusal = C.TWODFQ_REFUSED_SLOTS
	RefusedFull       Refusal = C.TWODFQ_REFUSED_FULL
	RefusedWorker     Refusal = C.TWODFQ_REFUSED_WORKER
	RefusedBusy       Refusal = C.TWODFQ_REFUSED_BUSY
	RefusedIdle       Refusal = C.TWODFQ_REFUSED_NOT_RUNNING
	RefusedFalling    Refusal = C.TWODFQ_REFUSED_FALLING
	RefusedWeight     Refusal = C.TWODFQ_REFUSED_WEIGHT
	RefusedWorkers    Refusal = C.TWODFQ_REFUSED_WORKERS
	RefusedNotWaiting Refusal = C.TWODFQ_REFUSED_NOT_WAITING
	NoScheduler       Refusal = C.TWODFQ_NO_SCHEDULER
)

var refusals = map[Refusal]string{
	RefusedClosed: "closed", RefusedTenant: "no such tenant", RefusedKind: "no such kind", RefusedCost: "no such cost",
	RefusedSlots: "as many requests wait as may", RefusedFull: "the history has no room", RefusedWorker: "no such worker",
	RefusedBusy: "the worker runs a request", RefusedIdle: "the worker runs nothing", RefusedFalling: "less than was reported",
	RefusedWeight: "no such weight", RefusedWorkers: "no such number of workers",
	RefusedNotWaiting: "the request does not wait", NoScheduler: "no scheduler is open",
}

func (r Refusal) Error() string { return "refused: " + refusals[r] }

// Taken is the answer to a Take that is not refused: a request to run, or why there is none.
type Taken struct {
	Kind     TakenKind
	Request  uint32 // these three are of a Run
	Estimate uint64
	Label    uint64
}

// TakenKind is the kind of a Taken.
type TakenKind uint32

const (
	Run     TakenKind = C.TWODFQ_RUN     // the worker runs the request from now on
	Idle    TakenKind = C.TWODFQ_IDLE    // nothing waits; more may come
	Drained TakenKind = C.TWODFQ_DRAINED // nothing waits, and nothing more will come
	Retired TakenKind = C.TWODFQ_RETIRED // the worker is not among those that there are now; it may ask again
)

// Foreseen is the foreseen answer to a Take. All but the kind is of a ForeseenRun.
type Foreseen struct {
	Kind                         ForeseenKind
	Request, Tenant, RequestKind uint32
	Estimate                     uint64
	Eligible                     bool // for the worker; else no tenant's head is
	Smaller                      bool // a head that is eligible for the worker has an estimate below the one asked about
}

// ForeseenKind is the kind of a Foreseen.
type ForeseenKind uint32

const (
	ForeseenNothing ForeseenKind = C.TWODFQ_NOTHING  // nothing waits, whether or not more may come
	ForeseenRun     ForeseenKind = C.TWODFQ_FORESEEN // a Take would give this request
	ForeseenRetired ForeseenKind = C.TWODFQ_RETIRED  // the worker is not among those that there are now
)

// Request is a request to submit.
type Request struct {
	Tenant, Kind uint32
	Declared     uint64 // the cost that its submitter names
	Label        uint64 // any number, which comes back by Take or Withdraw
}

// Scheduler holds a C.twodfq. It may lie in Go's memory: no call keeps a pointer to it, and the pointer in it is to C's
// memory. One call at a time is made on it, and Free at the end.
type Scheduler struct {
	handle C.twodfq
}

// Open takes all the memory that the scheduler will use.
func Open(config Config) (*Scheduler, error) {
	weights := append(make([]uint32, 0, len(config.Weights)+1), config.Weights...)
	opening := C.twodfq_opening{workers: C.uint32_t(config.Workers), kinds: C.uint32_t(config.Kinds),
		entries: C.uint32_t(config.entries()), requests: C.uint32_t(config.Requests), policy: config.Policy.number(),
		estimate: config.Estimate.number(), initial: C.uint64_t(config.Initial), keep: C.uint32_t(config.Keep)}
	s := new(Scheduler)
	first := (*C.uint32_t)(&weights[:1][0]) // the capacity is one more, so that an empty list has an address
	status := C.twodfq_open(&s.handle, &opening, first, C.size_t(len(weights)))
	if status != C.TWODFQ_OPENED {
		return nil, OpenFault(status)
	}
	return s, nil
}

func refusal(reply C.twodfq_reply) error {
	if reply.kind >= C.TWODFQ_REFUSED_CLOSED {
		return Refusal(reply.kind)
	}
	return nil
}

// Submit gives the request the next number.
func (s *Scheduler) Submit(who uint32, moment uint64, request Request) (uint32, error) {
	reply := C.twodfq_submit(&s.handle, C.uint32_t(who), C.uint64_t(moment), C.uint32_t(request.Tenant),
		C.uint32_t(request.Kind), C.uint64_t(request.Declared), C.uint64_t(request.Label))
	return uint32(reply.request), refusal(reply)
}

// Take asks for work for a worker.
func (s *Scheduler) Take(who uint32, moment uint64, worker uint32) (Taken, error) {
	reply := C.twodfq_take(&s.handle, C.uint32_t(who), C.uint64_t(moment), C.uint32_t(worker))
	taken := Taken{Kind: TakenKind(reply.kind), Request: uint32(reply.request)}
	if taken.Kind == Run {
		taken.Estimate, taken.Label = uint64(reply.first), uint64(reply.second)
	}
	return taken, refusal(reply)
}

// Report names the use of the worker's request so far; it runs on.
func (s *Scheduler) Report(who uint32, moment uint64, worker uint32, used uint64) error {
	return refusal(C.twodfq_report(&s.handle, C.uint32_t(who), C.uint64_t(moment), C.uint32_t(worker), C.uint64_t(used)))
}

// Done names the measured cost of the worker's request, which has ended. A tenant whose requests cost 0 may be taken for
// ever while others wait, so count at least 1.
func (s *Scheduler) Done(who uint32, moment uint64, worker uint32, cost uint64) error {
	return refusal(C.twodfq_done(&s.handle, C.uint32_t(who), C.uint64_t(moment), C.uint32_t(worker), C.uint64_t(cost)))
}

// Close says that nothing more is submitted.
func (s *Scheduler) Close(who uint32, moment uint64) error {
	return refusal(C.twodfq_close(&s.handle, C.uint32_t(who), C.uint64_t(moment)))
}

// Weight gives the tenant this weight from now on, 1 to 100,000.
func (s *Scheduler) Weight(who uint32, moment uint64, tenant, weight uint32) error {
	return refusal(C.twodfq_weight(&s.handle, C.uint32_t(who), C.uint64_t(moment), C.uint32_t(tenant), C.uint32_t(weight)))
}

// SetWorkers says how many workers there are from now on, at most as many as at the opening.
func (s *Scheduler) SetWorkers(who uint32, moment uint64, count uint32) error {
	return refusal(C.twodfq_workers(&s.handle, C.uint32_t(who), C.uint64_t(moment), C.uint32_t(count)))
}

// Withdraw withdraws a request that waits: it is never taken, and costs nothing. Its label comes back. The call may
// come after a Close, too.
func (s *Scheduler) Withdraw(who uint32, moment uint64, request uint32) (uint64, error) {
	reply := C.twodfq_withdraw(&s.handle, C.uint32_t(who), C.uint64_t(moment), C.uint32_t(request))
	if err := refusal(reply); err != nil {
		return 0, err
	}
	return uint64(reply.second), nil
}

// Foresee foresees a Take by the worker at this moment, and whether a head that is eligible for the worker then has an
// estimate below this one, in microseconds. It changes nothing, and calls after it may be at earlier moments. Refused as
// a Take would be.
func (s *Scheduler) Foresee(moment uint64, worker uint32, below uint64) (Foreseen, error) {
	reply := C.twodfq_foresee(&s.handle, C.uint64_t(moment), C.uint32_t(worker), C.uint64_t(below))
	if err := refusal(reply); err != nil {
		return Foreseen{}, err
	}
	foreseen := Foreseen{Kind: ForeseenKind(reply.kind)}
	if foreseen.Kind == ForeseenRun {
		foreseen.Request, foreseen.Tenant = uint32(reply.request), uint32(reply.tenant)
		foreseen.RequestKind, foreseen.Estimate = uint32(reply.request_kind), uint64(reply.first)
		foreseen.Eligible, foreseen.Smaller = reply.is_eligible == 1, reply.has_smaller == 1
	}
	return foreseen, nil
}

// Act says which call an entry is of.
type Act uint32

const (
	Submitted     Act = C.TWODFQ_ENTRY_SUBMIT   // Request, Tenant, Kind, Amount: the declared cost, Label
	Dispatched    Act = C.TWODFQ_ENTRY_TAKE     // Request, Worker, Amount: the estimate
	Reported      Act = C.TWODFQ_ENTRY_REPORT   // Request, Worker, Amount: the use
	Completed     Act = C.TWODFQ_ENTRY_DONE     // Request, Worker, Amount: the cost
	Closed        Act = C.TWODFQ_ENTRY_CLOSE    // no number
	WeightChanged Act = C.TWODFQ_ENTRY_WEIGHT   // Tenant, Amount: the weight
	WorkersSet    Act = C.TWODFQ_ENTRY_WORKERS  // Amount: the number of workers
	Withdrawn     Act = C.TWODFQ_ENTRY_WITHDRAW // Request
)

// Entry is an accepted call. Numbers that its act does not use are 0.
type Entry struct {
	Act                           Act
	Who                           uint32
	Moment                        uint64
	Request, Tenant, Kind, Worker uint32
	Amount, Label                 uint64
}

// Entry gives the entry of the history with this index, in order of time, the first with 0, if there is one and it is
// kept.
func (s *Scheduler) Entry(index uint64) (Entry, bool) {
	line := C.twodfq_entry(&s.handle, C.uint64_t(index))
	if line.kind == C.TWODFQ_ENTRY_NONE {
		return Entry{}, false
	}
	return Entry{Act: Act(line.kind), Who: uint32(line.who), Moment: uint64(line.moment), Request: uint32(line.request),
		Tenant: uint32(line.tenant), Kind: uint32(line.request_kind), Worker: uint32(line.worker),
		Amount: uint64(line.amount), Label: uint64(line.label)}, true
}

// FirstKept gives the least index of the entries that are kept, and how many entries there are where none is.
func (s *Scheduler) FirstKept() uint64 {
	return uint64(C.twodfq_entry(&s.handle, math.MaxUint64).amount) // no history has this entry
}

// Standing is the status of a scheduler after its last entry.
type Standing struct {
	Waiting, Running uint32 // how many requests wait, and how many run
	VirtualSteps     uint32 // virtual time beyond its whole units, in steps, of which a unit has 1,048,576
	VirtualUnits     uint64 // virtual time in whole units
	Entries          uint64 // how many entries the history has
	Moment           uint64 // of the last entry, or 0
}

// Status returns the status of the scheduler; NoScheduler is its only refusal.
func (s *Scheduler) Status() (Standing, error) {
	told := C.twodfq_status(&s.handle)
	if told.kind != 0 {
		return Standing{}, Refusal(told.kind)
	}
	return Standing{Waiting: uint32(told.waiting), Running: uint32(told.running), VirtualSteps: uint32(told.virtual_steps),
		VirtualUnits: uint64(told.virtual_units), Entries: uint64(told.entries), Moment: uint64(told.moment)}, nil
}

// Free gives the scheduler's memory back. Calls from here on are refused with NoScheduler.
func (s *Scheduler) Free() { C.twodfq_free(&s.handle) }
