package twodfq

import (
	"context"
	"errors"
	"fmt"
	"math"
	"sync"
	"sync/atomic"
	"testing"
	"time"
)

// The estimate of each request here.
const thought = greatestCost

// Eight tenants, this number of workers, and one estimate for all requests, whatever they cost.
func patientOptions(workers int, patience float64) Options {
	return Options{Workers: workers, Tenants: tenantsOf(1, 1, 1, 1, 1, 1, 1, 1), Patience: patience, Estimate: Declared,
		Initial: thought}
}

// A pool in which the bound of all waits together is far away.
func openPatient(t *testing.T, options Options) *Pool {
	t.Helper()
	pool := open(t, options)
	pool.patience.spare, pool.patience.most = 24*time.Hour, 24*time.Hour
	return pool
}

// A pool in which worker 0 runs a request of tenant 0, and worker 1 a request of tenant 1, while another request of
// tenant 0, which closes ran, waits for its time. By these weights virtual time rises by 2 units a microsecond. The
// request starts at one length, so it is eligible for worker 2 of 4 after a quarter of its estimate, and for worker 3
// after an eighth: after minutes.
type patientPool struct {
	*Pool
	permits [2]*Permit
	ran     chan struct{}
}

func openWaiting(t *testing.T, options Options) *patientPool {
	t.Helper()
	return waitingIn(t, openPatient(t, options))
}

func waitingIn(t *testing.T, pool *Pool) *patientPool {
	t.Helper()
	p := &patientPool{Pool: pool, ran: make(chan struct{})}
	p.permits = [2]*Permit{acquire(t, p.Pool, "0"), acquire(t, p.Pool, "1")}
	hand(t, p.Pool, "0", func() { close(p.ran) })
	return p
}

// Closes the pool while two requests run on: the waiting request is run all the same.
func (p *patientPool) end(t *testing.T) {
	t.Helper()
	closed := make(chan struct{})
	go func() { p.Close(); close(closed) }()
	soon(t, "who waits for its time is run where the pool is closed", p.ran)
	p.permits[0].Release()
	p.permits[1].Release()
	soon(t, "the pool ends", closed)
}

func TestPatienceOutOfRange(t *testing.T) {
	for _, patience := range []float64{math.Nextafter(1, 2), math.Inf(1), math.NaN()} {
		if pool, err := NewPool(Options{Tenants: tenantsOf(1), Patience: patience}); pool != nil || !errors.Is(err, ErrOptions) {
			t.Errorf("patience %v: error %v", patience, err)
		}
	}
	for given, part := range map[float64]float64{0: 0.02, 1: 1, 0.5: 0.5, -0.5: 0, math.Inf(-1): 0} {
		pool := open(t, Options{Tenants: tenantsOf(1), Patience: given})
		if pool.patience.part != part {
			t.Errorf("patience %v stands for %v", given, pool.patience.part)
		}
		pool.Close()
	}
}

// The choice at a moment, for workers 2 and 3 that have been free since these moments: how long they wait at most, or
// which of them takes.
func (p *patientPool) chosen(since2, since3, now time.Duration) (worker uint32, longest time.Duration) {
	p.lock.Lock()
	defer p.lock.Unlock()
	p.patience.since[2], p.patience.since[3] = since2, since3
	p.patience.lineUp(p.free, 4)
	return p.choose(p.rolling.newest(), now)
}

func TestHowLongAFreeWorkerWaits(t *testing.T) {
	p := openWaiting(t, patientOptions(4, 0.1))
	waits := func(since2, since3, now, wanted time.Duration) {
		t.Helper()
		if worker, longest := p.chosen(since2, since3, now); worker != 3 || longest != wanted {
			t.Errorf("free since %v and %v, at %v: worker %d, %v in place of %v", since2, since3, now, worker, longest, wanted)
		}
	}
	const s = time.Second
	waits(5*s, 5*s, 5*s, thought/10-oversleep)
	waits(5*s, 5*s, 12*s, thought/10-oversleep-7*s)
	waits(9*s, 5*s, 12*s, thought/10-oversleep-7*s) // it counts from the moment at which the first became free
	waits(5*s, 9*s, 12*s, thought/10-oversleep-7*s)
	waits(0, 0, thought/10, -oversleep)
	waits(thought*3/16, thought*3/16, thought*3/16, 0) // it is eligible for worker 3
	if worker, longest := p.chosen(thought/3, thought/3, thought/3); worker != 2 || longest != 0 {
		t.Errorf("worker %d, %v, where it is eligible for worker 2", worker, longest)
	}
	p.patience.part = 0.000_001 // a millisecond, which is too short for a sleep
	waits(5*s, 5*s, 5*s, time.Millisecond-oversleep)
	p.patience.part = 0
	waits(5*s, 5*s, 5*s, 0)
	p.end(t)
}

// The wait of the worker that became free first is over. The highest worker takes, and the other waits on for the rest
// of the highest worker's wait.
func TestAWaitIsSpentOnce(t *testing.T) {
	p := openWaiting(t, patientOptions(4, 0.1))
	const later = 30 * time.Second
	if worker, longest := p.chosen(0, later, thought/10); worker != 3 || longest > 0 {
		t.Errorf("worker %d, %v", worker, longest)
	}
	if since := p.patience.since; since[2] != later || since[3] != 0 || p.patience.early != 1 {
		t.Errorf("%v and %v, %d were early", since[2], since[3], p.patience.early)
	}
	p.end(t)
}

// No worker waits where a single tenant has requests, where requests wait in an older scheduler, or in a closed pool.
func TestWhereNoWorkerWaits(t *testing.T) {
	p := openWaiting(t, patientOptions(4, 1))
	waits := func(wanted bool) {
		t.Helper()
		if _, longest := p.chosen(0, 0, 0); longest > 0 != wanted {
			t.Errorf("%v", longest)
		}
	}
	waits(true)
	p.closed = true
	waits(false)
	p.closed = false
	p.lock.Lock()
	wants(t, p.rolling.open(0), nil)
	older := p.rolling.histories[0]
	if p.mayGain(older) || !p.mayGain(p.rolling.newest()) {
		t.Error("patience goes by the newest scheduler")
	}
	p.lock.Unlock()
	hand(t, p.Pool, "2", func() {}) // this dispatch serves the older scheduler
	soon(t, "the older scheduler's is run", p.ran)
	p.end(t)
}

func TestOneTenantAloneIsServedAtOnce(t *testing.T) {
	p := openWaiting(t, patientOptions(4, 1))
	time.Sleep(10 * time.Millisecond)
	if hasHappened(p.ran) {
		t.Error("the request has been run before its time")
	}
	p.permits[1].Release()
	soon(t, "nobody else is there", p.ran)
	another := make(chan struct{})
	hand(t, p.Pool, "0", func() { close(another) })
	soon(t, "nobody else was there", another)
	p.end(t)
}

// A request costs less than its estimate, so that the next request of its tenant is eligible. By these weights virtual
// time rises by 4 elevenths of a unit a microsecond.
func TestADoneIsNews(t *testing.T) {
	options := patientOptions(4, 1)
	options.Tenants = tenantsOf(1, 10)
	p := openWaiting(t, options)
	time.Sleep(5 * time.Millisecond)
	if hasHappened(p.ran) {
		t.Error("the request has been run before its time")
	}
	p.permits[0].ReleaseCost(time.Second)
	soon(t, "its tenant's next request is eligible", p.ran)
	p.end(t)
}

// Requests that come while workers are patient are served, one after another, before the one for which they wait.
func TestPatientWorkersTakeWhatComes(t *testing.T) {
	p := openWaiting(t, patientOptions(4, 1))
	for i := 0; i < 300; i++ {
		acquire(t, p.Pool, "2").ReleaseCost(time.Microsecond)
	}
	if hasHappened(p.ran) {
		t.Error("the request has been run before its time")
	}
	status := p.Status()
	if status.Early != 0 || status.Waits != 1 || status.Waited <= 0 { // worker 3 waits on and on, and worker 2 serves
		t.Errorf("%d early, %d waits of %v", status.Early, status.Waits, status.Waited)
	}
	p.end(t)
}

// Requests come from several sides while workers wait, and each is served.
func TestNoWakeUpIsLost(t *testing.T) {
	for _, workers := range []int{4, 8} {
		p := openWaiting(t, patientOptions(workers, 1))
		var submitters sync.WaitGroup
		for _, tenant := range []string{"2", "3", "4", "5"} {
			submitters.Add(1)
			go func(tenant string) {
				defer submitters.Done()
				for i := 0; i < 500; i++ {
					acquire(t, p.Pool, tenant).ReleaseCost(time.Microsecond)
					for began := time.Now(); time.Since(began) < time.Duration(i%50)*time.Microsecond; {
					}
				}
			}(tenant)
		}
		served := make(chan struct{})
		go func() { submitters.Wait(); close(served) }()
		soon(t, "all who came are served", served)
		if hasHappened(p.ran) {
			t.Error("the request has been run before its time")
		}
		p.end(t)
	}
}

// The request is run when the part of its estimate has passed, and not before. One wait of one worker is counted, since
// a single request waits.
func TestPatienceEnds(t *testing.T) {
	const part = 0.000_3
	before := time.Now()
	p := openWaiting(t, patientOptions(4, part))
	soon(t, "patience ends", p.ran)
	waited, least := time.Since(before), thought*3/10_000-oversleep
	if waited < least {
		t.Errorf("it was waited %v in place of %v", waited, least)
	}
	status := p.Status()
	if status.Early != 1 || status.Waits != 1 || status.Waited < least-50*time.Millisecond || status.Waited > waited {
		t.Errorf("%d early, %d waits of %v", status.Early, status.Waits, status.Waited)
	}
	p.end(t)
}

// All waits together have their bound, however great the estimates: a part of a second of each worker, and of the costs
// of requests.
func TestAllWaitsHaveTheirBound(t *testing.T) {
	const part, bound = 0.05, 200 * time.Millisecond
	before := time.Now()
	p := waitingIn(t, open(t, patientOptions(4, part)))
	soon(t, "what is saved up has been spent", p.ran)
	if waited := p.Status().Waited; waited < bound-oversleep || waited > time.Since(before) {
		t.Errorf("%v were waited in %v", waited, time.Since(before))
	}
	p.end(t)
	saved := newPatience(part, 4, 4)
	if saved.spare != bound || saved.most != bound {
		t.Errorf("%v of %v are saved up", saved.spare, saved.most)
	}
	saved.spare = 0
	if saved.earn(2 * time.Second); saved.spare != bound/2 {
		t.Errorf("%v are saved up", saved.spare)
	}
	if saved.earn(time.Hour); saved.spare != bound {
		t.Errorf("%v are saved up, which is too much", saved.spare)
	}
	if saved.setWorkers(1, newWorkerSet(4)); saved.spare != bound/4 {
		t.Errorf("%v are saved up for one worker", saved.spare)
	}
}

// Of the free workers no more lose time than requests wait, the highest. These share the budget.
func TestWaitersAreWhoLoseTime(t *testing.T) {
	for _, example := range []struct {
		free     workerSet
		requests int
		wanted   workerSet
	}{{setOf(2, 3), 1, setOf(3)}, {setOf(2, 3), 2, setOf(2, 3)}, {setOf(2, 3), 7, setOf(2, 3)},
		{setOf(0, 1, 3, 5), 3, setOf(1, 3, 5)}} {
		p := newPatience(1, 6, 200)
		p.begin(freeWorkers{example.free, 6}, example.requests, time.Hour, func() {})
		if fmt.Sprint(p.waiting) != fmt.Sprint(example.wanted) || p.waits != uint64(p.waiters) {
			t.Errorf("%b of %b in place of %b, %d waits", p.waiting, example.free, example.wanted, p.waits)
		}
		p.rest()
		if fmt.Sprint(p.waiting) != fmt.Sprint(setOf()) || p.waiters != 0 {
			t.Errorf("%b waits on", p.waiting)
		}
	}
	p, free := newPatience(1, 4, 4), freeWorkers{setOf(2, 3), 4}
	allows := func(requests int) time.Duration { return p.allows(free, requests, 1_000_000_000, 0) }
	if one, two := allows(1), allows(2); one != 4*time.Second-oversleep || two != 2*time.Second-oversleep {
		t.Errorf("%v and %v", one, two)
	}
	p.begin(free, 2, time.Hour, func() {})
	p.settle(time.Second)
	if p.waited != 2*time.Second || p.spare != 2*time.Second {
		t.Errorf("%v were waited, and %v are left", p.waited, p.spare)
	}
}

// Each job is run once where patience comes and goes, also where schedulers follow one another.
func TestEachJobRunsOnceWithPatience(t *testing.T) {
	const jobs = 4000
	for _, entries := range []uint32{0, 64, 1000} {
		options := patientOptions(4, 1)
		options.Initial, options.Entries, options.Room, options.RoomPerTenant = 5*time.Millisecond, entries, jobs, jobs
		pool := open(t, options)
		runs := make([]int32, jobs)
		for i := range runs {
			i := i
			tenant := string(rune('0' + i*i%8))
			wants(t, pool.Go(background, tenant, "", func(context.Context) { atomic.AddInt32(&runs[i], 1) }), nil)
			if i%200 == 0 {
				time.Sleep(time.Millisecond) // so that workers run out of work, too
			}
		}
		pool.Close()
		for i, count := range runs {
			if count != 1 {
				t.Fatalf("job %d ran %d times", i, count)
			}
		}
	}
}
