package twodfq

import (
	"context"
	"errors"
	"fmt"
	"math/rand"
	"sync"
	"sync/atomic"
	"testing"
	"time"
)

// Everything that a pool does happens at once: permits, tries and jobs of names that come and go, with limits, contexts
// that end, panics, changes, and schedulers that follow one another. In the end all is accounted for.
func TestEverythingAtOnce(t *testing.T) { withPatience(t, everythingAtOnce) }

func everythingAtOnce(t *testing.T, patience float64) {
	leavesNoGoroutine(t, func() {
		var events [4]int64 // submitted, begun, ended, withdrawn
		count := func(event int) { atomic.AddInt64(&events[event], 1) }
		pool := open(t, Options{Workers: 4, MostWorkers: 6, MostTenants: 5, Tenants: tenantsOf(2), Entries: 200, Room: 40,
			MostRunning: 3, Kinds: []Kind{{Name: "get"}, {Name: "scan", MostRunning: 1}}, Patience: patience,
			Refresh: 100 * time.Microsecond, Trace: &Trace{
				Submitted: func(context.Context, string, string) { count(0) },
				Begun:     func(context.Context, string, string, time.Duration) { count(1) },
				Ended:     func(context.Context, string, string, time.Duration, time.Duration) { count(2) },
				Withdrawn: func(context.Context, string, string, time.Duration, error) { count(3) },
			}})
		var ran int64
		var callers sync.WaitGroup
		for seed := int64(0); seed < 12; seed++ {
			callers.Add(1)
			go func(random *rand.Rand) {
				defer callers.Done()
				for step := 0; step < 1500; step++ {
					doSomething(t, pool, random, &ran)
				}
			}(rand.New(rand.NewSource(seed)))
		}
		callers.Wait()
		pool.Close()
		isAccountedFor(t, pool.Status(), ran, events)
	})
}

// Makes one call of a pool, by lot. Its error has to be one that it may have.
func doSomething(t *testing.T, pool *Pool, random *rand.Rand, ran *int64) {
	tenant, kind := fmt.Sprint(random.Intn(8)), [...]string{"get", "scan"}[random.Intn(2)]
	ctx, cancel := context.WithTimeout(background, time.Duration(random.Intn(3000))*time.Microsecond)
	defer cancel()
	job := func(context.Context) (int, error) {
		atomic.AddInt64(ran, 1)
		if random := time.Now().Nanosecond(); random%16 == 0 {
			panic("on purpose")
		}
		time.Sleep(20 * time.Microsecond)
		return 0, nil
	}
	var err error
	switch random.Intn(6) {
	case 0:
		var permit *Permit
		if permit, err = pool.TryAcquire(tenant, kind); err == nil {
			atomic.AddInt64(ran, 1)
			permit.Used(time.Millisecond)
			permit.ReleaseCost(time.Millisecond)
		}
	case 1:
		_, err = Do(ctx, pool, tenant, kind, job)
	case 2:
		err = pool.SetWeight(tenant, 1+random.Intn(1000))
	case 3:
		err = pool.SetWorkers(1 + random.Intn(6))
	case 4:
		var handle *Handle[int]
		if handle, err = Submit(background, pool, tenant, kind, job); err == nil && random.Intn(2) == 0 {
			handle.Cancel()
			_, err = handle.Wait(background)
		}
	default:
		_, err = Submit(ctx, pool, tenant, kind, job)
	}
	mayBe(t, err)
}

func mayBe(t *testing.T, err error) {
	var panicked *PanicError
	if err == nil || errors.As(err, &panicked) {
		return
	}
	for _, cause := range []error{ErrNoneFree, ErrNoSlot, ErrTenantFull, ErrTooManyWait, context.Canceled,
		context.DeadlineExceeded} {
		if errors.Is(err, cause) {
			return
		}
	}
	t.Error(err)
}

// Each submitted request has ended in one of its ways, and was traced so; each job that ran has run once.
func isAccountedFor(t *testing.T, status Status, ran int64, events [4]int64) {
	t.Helper()
	var submitted, done, withdrawn, begun, costs uint64
	for _, tenant := range append(status.Tenants, status.Gone) {
		submitted += tenant.Submitted
		done += tenant.Done
		withdrawn += tenant.Cancelled + tenant.Late
		begun += tenant.Waited.Count()
		costs += tenant.Ran.Count()
		if tenant.Waiting != 0 || tenant.Held != 0 || tenant.Running != 0 {
			t.Errorf("%+v", tenant)
		}
	}
	if submitted != done+withdrawn || begun != done || costs != done || status.Waiting != 0 || status.Running != 0 {
		t.Errorf("%d were submitted, %d began, %d are done, %d withdrawn: %+v", submitted, begun, done, withdrawn, status)
	}
	if given := [4]int64{int64(submitted), int64(done), int64(done), int64(withdrawn)}; events != given {
		t.Errorf("traced are %v in place of %v", events, given)
	}
	if ran == 0 || ran > int64(done) || status.Schedulers < 5 || withdrawn == 0 {
		t.Errorf("%d ran, %d are done, %d withdrawn, by %d schedulers", ran, done, withdrawn, status.Schedulers)
	}
}
