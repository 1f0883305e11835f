package twodfq

import (
	"errors"
	"fmt"
)

// Cause is why a Pool refuses a request or a change. A refused call changes nothing. A request is refused with a
// RefusalError, which wraps the Cause; errors.Is finds it there.
type Cause uint8

const (
	ErrClosed        Cause = iota + 1 // the pool is closed
	ErrNoJob                          // the job is nil
	ErrName                           // the tenant's name isn't 1 to 256 bytes of UTF-8
	ErrUnknownTenant                  // no tenant has this name or number
	ErrTenantGone                     // the TenantID is of a tenant whose slot went to another
	ErrNoSlot                         // the tenant is new, and the tenants of all slots have requests
	ErrUnknownKind                    // no kind has this name or number
	ErrCost                           // a declared cost out of its range, a microsecond to 1,000 seconds
	ErrTooManyWait                    // the room is full
	ErrTenantFull                     // the tenant's part of the room is full; other tenants may still submit
	ErrNoneFree                       // a TryAcquire found no free worker
	ErrNoMemory                       // there is no memory for the next scheduler
	ErrWeight                         // a weight out of its range, 1 to 100,000
	ErrWorkers                        // a number of workers out of its range, 1 to Options.MostWorkers
	causes                            // one more than the last
)

// The label of each cause in metrics, and its text.
var causeTexts = [causes]struct{ label, text string }{
	ErrClosed:        {"closed", "the pool is closed"},
	ErrNoJob:         {"no_job", "the job is nil"},
	ErrName:          {"name", "a tenant's name has 1 to 256 bytes of UTF-8"},
	ErrUnknownTenant: {"unknown_tenant", "there is no such tenant"},
	ErrTenantGone:    {"tenant_gone", "the tenant's slot went to another"},
	ErrNoSlot:        {"no_slot", "the tenants of all slots have requests"},
	ErrUnknownKind:   {"unknown_kind", "there is no such kind"},
	ErrCost:          {"cost", "a declared cost is one microsecond to 1,000 seconds"},
	ErrTooManyWait:   {"too_many_wait", "the room is full"},
	ErrTenantFull:    {"tenant_full", "the tenant's part of the room is full"},
	ErrNoneFree:      {"none_free", "no worker is free for it now"},
	ErrNoMemory:      {"no_memory", "there is no memory for the next scheduler"},
	ErrWeight:        {"weight", "a weight is 1 to 100,000"},
	ErrWorkers:       {"workers", "the workers are 1 to Options.MostWorkers"},
}

func (c Cause) Error() string { return "twodfq: " + causeTexts[c].text }

// RefusalError is the refusal of a request.
type RefusalError struct {
	Tenant, Kind string // empty where the number of an ID is unknown
	Cause        Cause
}

func (e *RefusalError) Error() string {
	return fmt.Sprintf("twodfq: a request of tenant %q, kind %q is refused: %s", e.Tenant, e.Kind, causeTexts[e.Cause].text)
}

func (e *RefusalError) Unwrap() error { return e.Cause }

// PanicError is the result of a job that panicked. It wraps the value of the panic where that is an error.
type PanicError struct {
	Value any    // the value of the panic
	Stack []byte // the stack of the job at the panic
}

func (e *PanicError) Error() string { return fmt.Sprintf("twodfq: a job panicked: %v", e.Value) }

func (e *PanicError) Unwrap() error {
	err, _ := e.Value.(error)
	return err
}

// ErrExited is the result of a job that called runtime.Goexit.
var ErrExited = errors.New("twodfq: a job ended its goroutine")

// ErrOptions is wrapped by the errors of NewPool for fields out of range. The error names the field and its range.
var ErrOptions = errors.New("twodfq: no pool has these options")
