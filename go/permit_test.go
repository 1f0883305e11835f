package twodfq

import (
	"context"
	"errors"
	"math/rand"
	"runtime"
	"sync"
	"sync/atomic"
	"testing"
	"time"
)

// A permit holds a worker until it is released. A second release does nothing.
func TestPermits(t *testing.T) {
	leavesNoGoroutine(t, func() {
		pool := open(t, Options{Workers: 2, Tenants: tenantsOf(1, 1)})
		first, second := acquire(t, pool, "0"), acquire(t, pool, "1")
		third := make(chan *Permit)
		go func() { third <- acquire(t, pool, "1") }()
		waitUntilWaiting(t, pool, 1)
		first.Release()
		first.Release()
		permit := <-third
		if status := pool.Status(); status.Running != 2 || status.Waiting != 0 {
			t.Errorf("%d run, %d wait", status.Running, status.Waiting)
		}
		permit.Release()
		second.Release()
		pool.Close()
		if done := [2]uint64{statusOf(t, pool, "0").Done, statusOf(t, pool, "1").Done}; done != [2]uint64{1, 2} {
			t.Errorf("done are %v", done)
		}
	})
}

// Many goroutines acquire at once, while schedulers follow one another; never do more run than there are workers.
func TestPermitsAreNeverMoreThanWorkers(t *testing.T) {
	withPatience(t, permitsAreNeverMoreThanWorkers)
}

func permitsAreNeverMoreThanWorkers(t *testing.T, patience float64) {
	const most = 8
	pool := open(t, Options{Workers: 3, MostWorkers: most, Tenants: tenantsOf(1, 2, 3), Entries: 300, Patience: patience})
	var running, served int32
	var all sync.WaitGroup
	for i := 0; i < 16; i++ {
		all.Add(1)
		go func(tenant string, random *rand.Rand) {
			defer all.Done()
			for j := 0; j < 300; j++ {
				permit := acquire(t, pool, tenant)
				if now := atomic.AddInt32(&running, 1); now > most {
					t.Errorf("%d run", now)
				}
				for k := random.Intn(20); k > 0; k-- {
					runtime.Gosched()
				}
				atomic.AddInt32(&running, -1)
				atomic.AddInt32(&served, 1)
				permit.Release()
			}
		}(string(rune('0'+i%3)), rand.New(rand.NewSource(int64(i))))
	}
	for count := 1; count <= most; count++ {
		wants(t, pool.SetWorkers(count), nil)
		wants(t, pool.SetWeight("1", count), nil)
		time.Sleep(time.Millisecond)
	}
	all.Wait()
	pool.Close()
	if served != 16*300 {
		t.Errorf("%d of %d were served", served, 16*300)
	}
}

func TestSetWorkers(t *testing.T) {
	pool := open(t, Options{Workers: 1, MostWorkers: 3, Tenants: tenantsOf(1)})
	for count, cause := range map[int]error{0: ErrWorkers, 4: ErrWorkers, -1: ErrWorkers} {
		wants(t, pool.SetWorkers(count), cause)
	}
	first := acquire(t, pool, "0")
	_, err := pool.TryAcquire("0", "")
	wants(t, err, ErrNoneFree)
	second := make(chan *Permit)
	go func() { second <- acquire(t, pool, "0") }()
	waitUntilWaiting(t, pool, 1)
	wants(t, pool.SetWorkers(2), nil)
	permit := <-second
	wants(t, pool.SetWorkers(1), nil)
	permit.Release()
	_, err = pool.TryAcquire("0", "")
	wants(t, err, ErrNoneFree)
	first.Release()
	permit, err = pool.TryAcquire("0", "")
	wants(t, err, nil)
	permit.Release()
	pool.Close()
}

// A refused TryAcquire leaves no trace: no request waits, and nothing but the refusal is counted.
func TestTryAcquire(t *testing.T) {
	pool := open(t, Options{Workers: 1, Tenants: tenantsOf(1, 1)})
	permit, err := pool.TryAcquire("0", "")
	wants(t, err, nil)
	for i := 0; i < 10; i++ {
		_, err := pool.TryAcquire("1", "")
		wants(t, err, ErrNoneFree)
	}
	_, err = pool.TryAcquire("2", "")
	wants(t, err, ErrUnknownTenant)
	status := statusOf(t, pool, "1")
	if status.Waiting != 0 || status.Submitted != 0 || status.Cancelled != 0 || status.Refused["none_free"] != 10 {
		t.Errorf("%+v", status)
	}
	permit.Release()
	permit, err = pool.TryAcquire("1", "")
	wants(t, err, nil)
	permit.Release()
	pool.Close()
}

// A request whose context ends while it waits never runs, costs nothing, and leaves its place free.
func TestCancelledContexts(t *testing.T) { withPatience(t, cancelledContexts) }

func cancelledContexts(t *testing.T, patience float64) {
	const count = 20
	leavesNoGoroutine(t, func() {
		pool := open(t, Options{Workers: 2, Tenants: tenantsOf(1, 1), Room: count, RoomPerTenant: count, Patience: patience})
		end := occupy(t, pool, "0")
		ctx, cancel := context.WithCancel(background)
		var waiters sync.WaitGroup
		for i := 0; i < count/2; i++ {
			handle, err := Submit(ctx, pool, "1", "", func(context.Context) (int, error) { t.Error("it runs"); return 0, nil })
			wants(t, err, nil)
			waiters.Add(2)
			go func() {
				defer waiters.Done()
				_, err := pool.Acquire(ctx, "1", "")
				wants(t, err, context.Canceled)
			}()
			go func() {
				defer waiters.Done()
				_, err := handle.Wait(background)
				wants(t, err, context.Canceled)
			}()
		}
		waitUntilWaiting(t, pool, count)
		wants(t, pool.Go(background, "1", "", func(context.Context) {}), ErrTooManyWait)
		cancel()
		waitUntilWaiting(t, pool, 0)
		end()
		waiters.Wait()
		pool.Close()
		status := statusOf(t, pool, "1")
		if status.Done != 0 || status.Cost != 0 || status.Cancelled != count {
			t.Errorf("%+v", status)
		}
	})
}

// The error of a context that has ended is returned at once, and nothing is counted.
func TestAContextThatHasEnded(t *testing.T) {
	pool := open(t, Options{Tenants: tenantsOf(1)})
	ctx, cancel := context.WithCancel(background)
	cancel()
	_, err := pool.Acquire(ctx, "0", "")
	wants(t, err, context.Canceled)
	past, cancel := context.WithDeadline(background, time.Now().Add(-time.Second))
	defer cancel()
	_, err = Do(past, pool, "0", "", func(context.Context) (int, error) { t.Error("it runs"); return 0, nil })
	wants(t, err, context.DeadlineExceeded)
	if status := statusOf(t, pool, "0"); status.Submitted != 0 {
		t.Errorf("%+v", status)
	}
	pool.Close()
}

// A permit that is granted while its context ends goes back.
func TestAPermitThatNobodyWants(t *testing.T) {
	pool := open(t, Options{Workers: 1, Tenants: tenantsOf(1)})
	ctx, cancel := context.WithCancel(background)
	r := &request{ctx: ctx, ready: make(chan struct{})}
	wants(t, pool.enter(r, named{"0", ""}, nil), nil)
	cancel()
	permit, err := pool.await(r)
	if wants(t, err, context.Canceled); permit != nil || pool.Status().Running != 0 {
		t.Error("the permit is held")
	}
	handle, err := Submit(ctx, pool, "0", "", func(context.Context) (int, error) { return 0, nil })
	if wants(t, err, context.Canceled); handle != nil {
		t.Error("a handle of a job that is not taken")
	}
	pool.Close()
}

// Every second job that waits is withdrawn, also from older schedulers. The others run in their order.
func TestWithdrawFromAnOlderScheduler(t *testing.T) {
	pool := open(t, Options{Workers: 1, Tenants: tenantsOf(1, 1), Entries: 16})
	end := occupy(t, pool, "0")
	var order []int
	var handles []*Handle[int]
	for i := 0; i < 40; i++ {
		i := i
		handle, err := Submit(background, pool, "1", "", func(context.Context) (int, error) {
			order = append(order, i)
			return i, nil
		})
		wants(t, err, nil)
		handles = append(handles, handle)
	}
	if len(pool.rolling.histories) < 3 {
		t.Fatalf("%d schedulers", len(pool.rolling.histories))
	}
	for i := 0; i < 40; i += 2 {
		if !handles[i].Cancel() || handles[i].Cancel() {
			t.Errorf("job %d is not withdrawn once", i)
		}
	}
	end()
	for i, handle := range handles {
		value, err := handle.Wait(background)
		if i%2 == 0 && !errors.Is(err, context.Canceled) || i%2 == 1 && (value != i || err != nil) {
			t.Errorf("job %d gives %d, %v", i, value, err)
		}
	}
	if kept := len(pool.rolling.histories); kept != 1 {
		t.Errorf("%d schedulers are kept where one is in use", kept)
	}
	pool.Close()
	for place, job := range order {
		if job != 2*place+1 {
			t.Fatalf("run in the order %v", order)
		}
	}
	if status := pool.Status(); status.Waiting != 0 || status.Running != 0 {
		t.Errorf("%+v", status)
	}
}

// An older scheduler learns of weights and workers, too, so that an added worker takes from it.
func TestChangesReachOlderSchedulers(t *testing.T) {
	pool := open(t, Options{Workers: 1, MostWorkers: 2, Tenants: tenantsOf(1, 1)})
	first, ran := acquire(t, pool, "0"), make(chan struct{})
	hand(t, pool, "0", func() { close(ran) })
	pool.lock.Lock()
	wants(t, pool.rolling.open(0), nil)
	older := pool.rolling.histories[0].scheduler
	pool.lock.Unlock()
	wants(t, pool.SetWeight("1", 7), nil)
	standing, err := older.Status()
	wants(t, err, nil)
	last, ok := older.Entry(standing.Entries - 1)
	if !ok || last.Act != WeightChanged || last.Tenant != 1 || last.Amount != 7 {
		t.Errorf("the last entry is %+v", last)
	}
	wants(t, pool.SetWorkers(2), nil)
	soon(t, "the worker that is added takes", ran)
	first.Release()
	pool.Close()
}

// A request whose deadline passes is withdrawn, also where the timer of its context is late: none begins after it.
func TestDeadlines(t *testing.T) {
	pool := open(t, Options{Workers: 1, Tenants: tenantsOf(1, 1)})
	end := occupy(t, pool, "0")
	ctx, cancel := context.WithTimeout(background, 20*time.Millisecond)
	defer cancel()
	_, err := pool.Acquire(ctx, "1", "")
	wants(t, err, context.DeadlineExceeded)
	late := lateContext{background, time.Now().Add(200 * time.Millisecond)}
	handle, err := Submit[int](late, pool, "1", "", func(context.Context) (int, error) { t.Error("it runs"); return 0, nil })
	wants(t, err, nil)
	time.Sleep(time.Until(late.deadline))
	end()
	_, err = handle.Wait(background)
	wants(t, err, context.DeadlineExceeded)
	pool.Close()
	if status := statusOf(t, pool, "1"); status.Late != 2 || status.Cost != 0 || status.Done != 0 {
		t.Errorf("%+v", status)
	}
}

// A context that does not end at its deadline.
type lateContext struct {
	context.Context
	deadline time.Time
}

func (c lateContext) Deadline() (time.Time, bool) { return c.deadline, true }

// The charge of a request: the time for which it ran, or the cost given to ReleaseCost, and at least the reported cost.
func TestCosts(t *testing.T) {
	pool := open(t, Options{Workers: 2, Tenants: tenantsOf(1, 1, 1, 1), Refresh: -1})
	charged := func(tenant string, least, most time.Duration) {
		t.Helper()
		if cost := statusOf(t, pool, tenant).Cost; cost < least || cost > most {
			t.Errorf("tenant %s is charged %v", tenant, cost)
		}
	}
	began := time.Now()
	permit := acquire(t, pool, "0")
	time.Sleep(5 * time.Millisecond)
	permit.Release()
	charged("0", 5*time.Millisecond, time.Since(began))
	permit = acquire(t, pool, "1")
	permit.ReleaseCost(123 * time.Second)
	permit.ReleaseCost(time.Second)
	permit.Release()
	charged("1", 123*time.Second, 123*time.Second)
	permit = acquire(t, pool, "2")
	permit.Used(7 * time.Second)
	permit.Used(3 * time.Second)
	permit.ReleaseCost(time.Second)
	permit.Used(9 * time.Second)
	charged("2", 7*time.Second, 7*time.Second)
	if reports := statusOf(t, pool, "2").Reports; reports != 1 {
		t.Errorf("%d reports", reports)
	}
	acquire(t, pool, "3").ReleaseCost(0)
	charged("3", time.Microsecond, time.Microsecond)
	acquire(t, pool, "3").ReleaseCost(time.Hour)
	charged("3", 1000*time.Second+time.Microsecond, 1000*time.Second+time.Microsecond)
	pool.Close()
}

// A request that runs on is charged its use so far at each dispatch, but not more often than by Refresh, and not where
// its holder reports.
func TestLongRequestsReport(t *testing.T) {
	const refresh = 5 * time.Millisecond
	pool := open(t, Options{Workers: 5, Tenants: tenantsOf(1, 1, 1, 1), Refresh: refresh})
	began := time.Now()
	long, telling := acquire(t, pool, "0"), acquire(t, pool, "1")
	telling.Used(time.Microsecond)
	time.Sleep(refresh / 2) // so that the reports of the two long requests are not due at once
	later := acquire(t, pool, "3")
	slow := uint64(0) // the time of the short requests, in refreshes
	for time.Since(began) < 10*refresh {
		before := time.Now()
		short := acquire(t, pool, "2")
		time.Sleep(time.Millisecond)
		acquire(t, pool, "2").Release()
		short.Release()
		slow += uint64(time.Since(before) / refresh)
	}
	if reports := statusOf(t, pool, "2").Reports; reports > 2*slow {
		t.Errorf("%d reports of requests that are short", reports)
	}
	most := uint64(time.Since(began) / refresh)
	for _, tenant := range []string{"0", "3"} {
		if reports := statusOf(t, pool, tenant).Reports; reports < 2 || reports > most {
			t.Errorf("%d reports, and at most %d were due", reports, most)
		}
	}
	if reports := statusOf(t, pool, "1").Reports; reports != 1 {
		t.Errorf("%d reports of a holder that tells", reports)
	}
	long.Release()
	later.Release()
	telling.Release()
	pool.Close()
}

// A shutdown waits for the accepted requests, but not for longer than its context.
func TestShutdown(t *testing.T) {
	pool := open(t, Options{Workers: 1, Tenants: tenantsOf(1)})
	permit := acquire(t, pool, "0")
	served := make(chan struct{})
	hand(t, pool, "0", func() { close(served) })
	ctx, cancel := context.WithTimeout(background, 5*time.Millisecond)
	defer cancel()
	wants(t, pool.Shutdown(ctx), context.DeadlineExceeded)
	_, err := pool.Acquire(background, "0", "")
	wants(t, err, ErrClosed)
	if hasHappened(served) {
		t.Error("a job runs beside the permit")
	}
	permit.Release()
	wants(t, pool.Shutdown(background), nil)
	pool.Close()
	if !hasHappened(served) {
		t.Error("what was taken before has not been run")
	}
}
