package twodfq

import (
	"bytes"
	"context"
	"errors"
	"log"
	"os"
	"runtime"
	"strings"
	"sync"
	"sync/atomic"
	"testing"
	"time"
)

// Each job of many submitters is run once, while schedulers of few entries follow one another.
func TestEachJobRunsOnce(t *testing.T) { withPatience(t, eachJobRunsOnce) }

func eachJobRunsOnce(t *testing.T, patience float64) {
	const submitters, each = 8, 2000
	leavesNoGoroutine(t, func() {
		pool := open(t, Options{Tenants: tenantsOf(1, 2, 3), Entries: 1000, Room: submitters * each,
			RoomPerTenant: submitters * each, Patience: patience})
		runs := make([]int32, submitters*each)
		var done sync.WaitGroup
		for submitter := 0; submitter < submitters; submitter++ {
			done.Add(1)
			go func(first int) {
				defer done.Done()
				for i := first; i < first+each; i++ {
					i := i
					hand(t, pool, string(rune('0'+i%3)), func() { atomic.AddInt32(&runs[i], 1) })
				}
			}(submitter * each)
		}
		done.Wait()
		pool.Close()
		for i, count := range runs {
			if count != 1 {
				t.Fatalf("job %d ran %d times", i, count)
			}
		}
		if schedulers := pool.Status().Schedulers; schedulers < 3*submitters*each/1000 {
			t.Errorf("%d schedulers have followed one another", schedulers)
		}
	})
}

// A job is served before another tenant's queue of costly jobs.
func TestATenantIsServedInItsTurn(t *testing.T) { withPatience(t, aTenantIsServedInItsTurn) }

func aTenantIsServedInItsTurn(t *testing.T, patience float64) {
	pool := open(t, Options{Workers: 1, Tenants: tenantsOf(1, 1), Patience: patience})
	var order []string // of the single worker
	begin := make(chan struct{})
	hand(t, pool, "0", func() { <-begin })
	for i := 0; i < 10; i++ {
		hand(t, pool, "0", func() { time.Sleep(2 * time.Millisecond); order = append(order, "flood") })
	}
	hand(t, pool, "1", func() { order = append(order, "other") })
	close(begin)
	pool.Close()
	if len(order) != 11 || (order[0] != "other" && order[1] != "other") {
		t.Fatalf("served in the order %v", order)
	}
}

func TestRefusals(t *testing.T) { withPatience(t, refusalsOf) }

func refusalsOf(t *testing.T, patience float64) {
	pool := open(t, Options{Workers: 1, Tenants: tenantsOf(1), Room: 2, Kinds: []Kind{{Name: "get"}}, Patience: patience})
	var none context.Context = background
	submit := func(tenant, kind string, options ...RequestOption) error {
		return pool.Go(none, tenant, kind, func(context.Context) {}, options...)
	}
	wants(t, submit("1", "get"), ErrUnknownTenant)
	wants(t, submit("0", "scan"), ErrUnknownKind)
	wants(t, submit("0", "get", Declare(0)), ErrCost)
	wants(t, submit("0", "get", Declare(1000*time.Second+1)), ErrCost)
	wants(t, pool.Go(none, "0", "get", nil), ErrNoJob)
	_, err := Submit[int](none, pool, "0", "get", nil)
	wants(t, err, ErrNoJob)
	_, err = Do[int](none, pool, "0", "get", nil)
	wants(t, err, ErrNoJob)
	var refusal *RefusalError
	if err := submit("none", "get"); !errors.As(err, &refusal) || refusal.Tenant != "none" || refusal.Kind != "get" {
		t.Errorf("%v", err)
	}
	permit, err := pool.Acquire(none, "0", "get")
	wants(t, err, nil)
	wants(t, submit("0", "get"), nil)
	wants(t, submit("0", "get"), nil)
	wants(t, submit("0", "get"), ErrTooManyWait)
	permit.Release()
	pool.Close()
	wants(t, submit("0", "get"), ErrClosed)
	wants(t, pool.SetWeight("0", 1), ErrClosed)
	wants(t, pool.SetWorkers(1), ErrClosed)
	refused := statusOf(t, pool, "0").Refused
	if refused["too_many_wait"] != 1 || pool.Status().Gone.Refused["unknown_tenant"] != 2 {
		t.Errorf("refused are counted as %v, %v", refused, pool.Status().Gone.Refused)
	}
}

// A job may end its goroutine, and may panic: all waiting jobs are run, and the log has each panic.
func TestJobsThatDoNotReturn(t *testing.T) { withPatience(t, jobsThatDoNotReturn) }

func jobsThatDoNotReturn(t *testing.T, patience float64) {
	var told bytes.Buffer
	log.SetOutput(&told)
	defer log.SetOutput(os.Stderr)
	pool := open(t, Options{Workers: 2, Tenants: tenantsOf(1), Patience: patience})
	var ran int32
	for i := 0; i < 30; i++ {
		hand(t, pool, "0", runtime.Goexit)
		hand(t, pool, "0", func() { panic("on purpose") })
		hand(t, pool, "0", func() { atomic.AddInt32(&ran, 1) })
	}
	pool.Close()
	if ran != 30 {
		t.Errorf("%d of 30 jobs ran", ran)
	}
	if count := strings.Count(told.String(), `a job of tenant "0" panicked: on purpose`+"\n"); count != 30 {
		t.Errorf("%d of 30 panics are told in %s", count, told.String())
	}
	if status := statusOf(t, pool, "0"); status.Done != 90 || status.Panicked != 30 {
		t.Errorf("%d are done, and %d have panicked", status.Done, status.Panicked)
	}
}

// The pool opens its schedulers with the options of its opening.
func TestOptionsAreCopied(t *testing.T) {
	options := Options{Tenants: tenantsOf(1, 1), Kinds: []Kind{{Name: ""}}, Entries: 16}
	pool := open(t, options)
	options.Tenants[0].Weight = 0 // no tenant may have this weight
	options.Kinds[0].MostRunning = -1
	for i := 0; i < 100; i++ {
		hand(t, pool, string(rune('0'+i%2)), func() {})
	}
	pool.Close()
}

// One scheduler has room for more than a million entries, of which a job makes three.
func TestOneSchedulerServes(t *testing.T) {
	pool := open(t, Options{Tenants: tenantsOf(1), Room: 1000})
	for jobs := 0; jobs < 350_000; {
		switch err := pool.Go(background, "0", "", func(context.Context) {}); {
		case err == nil:
			jobs++
		case errors.Is(err, ErrTenantFull):
			time.Sleep(time.Microsecond)
		default:
			t.Fatal(err)
		}
	}
	pool.Close()
	if schedulers := pool.Status().Schedulers; schedulers != 1 {
		t.Errorf("%d schedulers", schedulers)
	}
}

// All jobs of a tenant wait at first, and half of them have run when another tenant comes. Returns how many more of
// them run before ten requests of the other tenant, which follow one another.
func jobsBeforeAVisitor(t *testing.T, jobs int32) int32 {
	pool := open(t, Options{Workers: 2, Tenants: tenantsOf(1, 1), Room: int(jobs) + 10, RoomPerTenant: int(jobs),
		Initial: 10 * time.Microsecond, Refresh: -1})
	first, second, half := acquire(t, pool, "0"), acquire(t, pool, "0"), make(chan struct{})
	var ran int32
	for i := int32(0); i < jobs; i++ {
		hand(t, pool, "0", func() {
			if atomic.AddInt32(&ran, 1) == jobs/2 {
				close(half)
			}
		})
	}
	first.ReleaseCost(10 * time.Microsecond) // so that these two do not raise the estimates
	second.ReleaseCost(10 * time.Microsecond)
	<-half
	waited := int32(0)
	for i := 0; i < 10; i++ {
		served := make(chan int32, 1)
		hand(t, pool, "1", func() { served <- atomic.LoadInt32(&ran) })
		before := atomic.LoadInt32(&ran)
		if at := <-served; at > before {
			waited += at - before
		}
	}
	pool.Close()
	return waited
}

// All the time of a tenant's workers is charged, so another tenant doesn't wait for all of its jobs. A goroutine that
// loses its processor in the midst of a job may spoil an attempt.
func TestAVisitorIsSoonServed(t *testing.T) {
	for attempt := 0; attempt < 5; attempt++ {
		if jobsBeforeAVisitor(t, 100_000) < 10_000 {
			return
		}
	}
	t.Error("ten requests waited for more than 10,000 jobs of another tenant, each time")
}

func TestOptionsOutOfRange(t *testing.T) {
	for name, change := range map[string]func(*Options){
		"MostWorkers is 4097":          func(o *Options) { o.Workers = 4097 },
		"MostWorkers is 4098":          func(o *Options) { o.MostWorkers = 4098 },
		"Workers is 5":                 func(o *Options) { o.MostWorkers, o.Workers = 4, 5 },
		"MostTenants is 0":             func(o *Options) { o.Tenants = nil },
		"MostTenants is 65537":         func(o *Options) { o.MostTenants = 65_537 },
		"len(Tenants) is 2":            func(o *Options) { o.MostTenants = 1 },
		"MostTenants * len(Kinds)":     func(o *Options) { o.MostTenants, o.Kinds = 65_536, kindsOf(17) },
		"len(Kinds)":                   func(o *Options) { o.Kinds = kindsOf(65) },
		"Kinds[1].Name":                func(o *Options) { o.Kinds = []Kind{{Name: "a"}, {Name: "a"}} },
		"Kinds[0].MostRunning":         func(o *Options) { o.Kinds = []Kind{{MostRunning: -1}} },
		"Tenants[1].Weight is 100001":  func(o *Options) { o.Tenants[1].Weight = 100_001 },
		"Tenants[0].Weight is -1":      func(o *Options) { o.Tenants[0].Weight = -1 },
		"Tenants[1].Name is \"0\"":     func(o *Options) { o.Tenants[1].Name = "0" },
		"Tenants[1].Name is \"\"":      func(o *Options) { o.Tenants[1].Name = "" },
		"Tenants[0].Name is \"\\xff\"": func(o *Options) { o.Tenants[0].Name = "\xff" },
		"DefaultWeight":                func(o *Options) { o.DefaultWeight = 100_001 },
		"Room":                         func(o *Options) { o.Room = 1_048_577 },
		"RoomPerTenant":                func(o *Options) { o.RoomPerTenant = -1 },
		"MostRunning":                  func(o *Options) { o.MostRunning = -1 },
		"Initial":                      func(o *Options) { o.Initial = 1000*time.Second + 1 },
		"Entries":                      func(o *Options) { o.Entries = 15 },
		"Policy is 6":                  func(o *Options) { o.Policy = TwoDFQPlus + 1 },
		"Estimate is 4":                func(o *Options) { o.Estimate = Pessimistic + 1 },
	} {
		options := Options{Tenants: tenantsOf(1, 1)}
		change(&options)
		pool, err := NewPool(options)
		if pool != nil || !errors.Is(err, ErrOptions) || !strings.Contains(err.Error(), ": "+name) {
			t.Errorf("%s: %v", name, err)
		}
	}
}

func kindsOf(count int) []Kind {
	kinds := make([]Kind, count)
	for i := range kinds {
		kinds[i].Name = string(rune('a' + i))
	}
	return kinds
}
