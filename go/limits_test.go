package twodfq

import (
	"context"
	"fmt"
	"sync"
	"sync/atomic"
	"testing"
	"time"
)

// A pool of three workers, on which two requests of each tenant may run, and one scan.
func openLimited(t *testing.T) *Pool {
	t.Helper()
	return open(t, Options{Workers: 3, Tenants: tenantsOf(1, 1), MostRunning: 2,
		Kinds: []Kind{{Name: "get"}, {Name: "scan", MostRunning: 1}}})
}

// A job that closes begun when it begins, and ends once end is closed.
type heldJob struct {
	handle     *Handle[struct{}]
	begun, end chan struct{}
}

func handHeld(t *testing.T, ctx context.Context, pool *Pool, tenant, kind string) heldJob {
	t.Helper()
	job := heldJob{begun: make(chan struct{}), end: make(chan struct{})}
	handle, err := Submit(ctx, pool, tenant, kind, func(context.Context) (none struct{}, err error) {
		close(job.begun)
		<-job.end
		return
	})
	wants(t, err, nil)
	job.handle = handle
	return job
}

// A request beyond a limit waits, though workers are free, and others pass it. Of those within the limits the oldest
// goes first.
func TestLimits(t *testing.T) {
	pool := openLimited(t)
	scan, behind := handHeld(t, background, pool, "0", "scan"), handHeld(t, background, pool, "0", "scan")
	get, third := handHeld(t, background, pool, "0", "get"), handHeld(t, background, pool, "0", "get")
	soon(t, "a scan begins", scan.begun)
	soon(t, "a get goes by a scan that is held back", get.begun)
	other := handHeld(t, background, pool, "1", "scan")
	soon(t, "a scan of another tenant begins", other.begun)
	if status := statusOf(t, pool, "0"); status.Running != 2 || status.Waiting != 2 || status.Held != 2 {
		t.Errorf("%+v", status)
	}
	close(get.end)
	soon(t, "the next get begins: no scan may", third.begun)
	close(third.end)
	close(scan.end)
	soon(t, "the next scan begins", behind.begun)
	close(behind.end)
	close(other.end)
	pool.Close()
}

// Of held requests of several kinds the oldest goes first, unless its kind has a limit of its own.
func TestTheOldestHeldRequestGoesFirst(t *testing.T) {
	pool := open(t, Options{Workers: 3, Tenants: tenantsOf(1), MostRunning: 2,
		Kinds: []Kind{{Name: "get"}, {Name: "scan", MostRunning: 1}, {Name: "put"}}})
	scan, get := handHeld(t, background, pool, "0", "scan"), handHeld(t, background, pool, "0", "get")
	var held []heldJob
	for _, kind := range []string{"scan", "put", "get", "put"} {
		held = append(held, handHeld(t, background, pool, "0", kind))
	}
	close(get.end)
	for _, next := range []int{1, 2} {
		soon(t, "the oldest that may go begins", held[next].begun)
		if hasHappened(held[0].begun) || hasHappened(held[3].begun) {
			t.Error("one begins out of its turn")
		}
		close(held[next].end)
	}
	soon(t, "the youngest begins", held[3].begun)
	close(scan.end)
	soon(t, "the second scan begins", held[0].begun)
	close(held[3].end)
	close(held[0].end)
	pool.Close()
}

// A request that is held back may be withdrawn. The withdrawal of a waiting request lets a held one of its tenant go.
func TestHeldRequestsAreWithdrawn(t *testing.T) {
	pool := openLimited(t)
	permits := []*Permit{acquireKind(t, pool, "1", "get"), acquireKind(t, pool, "1", "get"), acquireKind(t, pool, "0", "get")}
	waits := handHeld(t, background, pool, "0", "scan")
	ctx, cancel := context.WithCancel(background)
	first, second := handHeld(t, ctx, pool, "0", "get"), handHeld(t, background, pool, "0", "get")
	if held := statusOf(t, pool, "0").Held; held != 2 {
		t.Fatalf("%d are held back", held)
	}
	_, err := pool.TryAcquire("0", "get")
	wants(t, err, ErrNoneFree)
	cancel()
	_, err = first.handle.Wait(background)
	wants(t, err, context.Canceled)
	if !waits.handle.Cancel() {
		t.Error("it did not wait")
	}
	if status := statusOf(t, pool, "0"); status.Held != 0 || status.Waiting != 1 || status.Cancelled != 2 {
		t.Errorf("%+v", status)
	}
	permits[0].Release()
	soon(t, "who was held back begins", second.begun)
	close(second.end)
	permits[1].Release()
	permits[2].Release()
	pool.Close()
}

func acquireKind(t *testing.T, pool *Pool, tenant, kind string) *Permit {
	t.Helper()
	permit, err := pool.Acquire(background, tenant, kind)
	if err != nil {
		t.Fatal(err)
	}
	return permit
}

// However many jobs come, never do more run than may, and each is run. Those of a tenant and kind begin in order.
func TestLimitsAreKept(t *testing.T) {
	const each = 500
	pool := open(t, Options{Workers: 8, Tenants: tenantsOf(1, 1, 1), MostRunning: 3, Entries: 500, Room: 9 * each,
		RoomPerTenant: 3 * each, Kinds: []Kind{{Name: "0"}, {Name: "1", MostRunning: 1}, {Name: "2", MostRunning: 2}}})
	var running [3]int32
	var byKind [3][3]int32
	var last [3]int32
	var done sync.WaitGroup
	for submitter := 0; submitter < 9; submitter++ {
		done.Add(1)
		go func(tenant, kind int) {
			defer done.Done()
			for i := int32(1); i <= each; i++ {
				i := i
				job := func(context.Context) {
					all, ofKind := atomic.AddInt32(&running[tenant], 1), atomic.AddInt32(&byKind[tenant][kind], 1)
					if all > 3 || kind > 0 && ofKind > int32(kind) {
						t.Errorf("%d of a tenant run, %d of a kind", all, ofKind)
					}
					if kind == 1 && !atomic.CompareAndSwapInt32(&last[tenant], i-1, i) {
						t.Errorf("job %d does not follow the one before", i)
					}
					atomic.AddInt32(&byKind[tenant][kind], -1)
					atomic.AddInt32(&running[tenant], -1)
				}
				wants(t, pool.Go(background, fmt.Sprint(tenant), fmt.Sprint(kind), job), nil)
			}
		}(submitter/3, submitter%3)
	}
	done.Wait()
	pool.Close()
	for _, status := range pool.Status().Tenants {
		if status.Done != 3*each || status.Held != 0 || status.Waiting != 0 {
			t.Errorf("%+v", status)
		}
	}
}

// Where there is no memory for the next scheduler a request is refused, and a held request ends. The requests in the
// present scheduler are served.
func TestWantOfMemory(t *testing.T) {
	pool := open(t, Options{Workers: 1, Tenants: tenantsOf(1, 1, 1), Entries: 16, MostRunning: 1})
	permit := acquire(t, pool, "0")
	held, err := Submit(background, pool, "0", "", func(context.Context) (int, error) { return 0, nil })
	wants(t, err, nil)
	other, err := Submit(background, pool, "1", "", func(context.Context) (int, error) { return 1, nil })
	wants(t, err, nil)
	for step := uint64(1); pool.rolling.newest().scheduler.Report(0, step, 0, step) == nil; step++ { // until it is full
	}
	pool.rolling.config.Workers = workerLimit + 1 // no scheduler has as many, so that none opens
	_, err = pool.Acquire(background, "2", "")
	wants(t, err, ErrNoMemory)
	wants(t, pool.SetWeight("1", 2), ErrNoMemory)
	wants(t, pool.SetWorkers(1), ErrNoMemory)
	permit.ReleaseCost(time.Second)
	_, err = held.Wait(background)
	wants(t, err, ErrNoMemory)
	if value, err := other.Wait(background); value != 1 || err != nil {
		t.Errorf("%d, %v", value, err)
	}
	pool.Close()
}
