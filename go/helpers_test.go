package twodfq

import (
	"context"
	"errors"
	"fmt"
	"runtime"
	"testing"
	"time"
)

var background = context.Background()

// Tenants "0", "1" and so on, with these weights.
func tenantsOf(weights ...int) []Tenant {
	tenants := make([]Tenant, len(weights))
	for i, weight := range weights {
		tenants[i] = Tenant{fmt.Sprint(i), weight}
	}
	return tenants
}

func open(t *testing.T, options Options) *Pool {
	t.Helper()
	pool, err := NewPool(options)
	if err != nil {
		t.Fatal(err)
	}
	return pool
}

// Runs the test without patience, with the default, and with the greatest.
func withPatience(t *testing.T, test func(t *testing.T, patience float64)) {
	for _, patience := range []float64{-1, 0, 1} {
		t.Run(fmt.Sprint("patience ", patience), func(t *testing.T) { test(t, patience) })
	}
}

// Waits for an event that comes long before the time limit where no wake-up is lost.
func soon(t *testing.T, what string, happens <-chan struct{}) {
	t.Helper()
	select {
	case <-happens:
	case <-time.After(60 * time.Second):
		t.Fatalf("%s: not within a minute", what)
	}
}

func hasHappened(event <-chan struct{}) bool {
	select {
	case <-event:
		return true
	default:
		return false
	}
}

// Hands in a job of the tenant, which has to be accepted.
func hand(t *testing.T, pool *Pool, tenant string, job func()) {
	t.Helper()
	if err := pool.Go(background, tenant, "", func(context.Context) { job() }); err != nil {
		t.Error(err)
	}
}

func acquire(t *testing.T, pool *Pool, tenant string) *Permit {
	t.Helper()
	permit, err := pool.Acquire(background, tenant, "")
	if err != nil {
		t.Fatal(err)
	}
	return permit
}

// Acquires as many permits as there are workers, so that later requests wait.
func occupy(t *testing.T, pool *Pool, tenant string) (end func()) {
	t.Helper()
	var permits []*Permit
	for worker := 0; worker < pool.Status().Workers; worker++ {
		permits = append(permits, acquire(t, pool, tenant))
	}
	return func() {
		for _, permit := range permits {
			permit.Release()
		}
	}
}

func wants(t *testing.T, err, cause error) {
	t.Helper()
	if !errors.Is(err, cause) {
		t.Errorf("error %v in place of %v", err, cause)
	}
}

func statusOf(t *testing.T, pool *Pool, tenant string) TenantStatus {
	t.Helper()
	for _, status := range pool.Status().Tenants {
		if status.Name == tenant {
			return status
		}
	}
	t.Fatalf("no tenant %s", tenant)
	return TenantStatus{}
}

// Waits until this number of requests wait.
func waitUntilWaiting(t *testing.T, pool *Pool, count int) {
	t.Helper()
	for began := time.Now(); pool.Status().Waiting != count; time.Sleep(100 * time.Microsecond) {
		if time.Since(began) > time.Minute {
			t.Fatalf("%d wait and not %d", pool.Status().Waiting, count)
		}
	}
}

// Runs the test, after which no more goroutines may be left than before.
func leavesNoGoroutine(t *testing.T, test func()) {
	t.Helper()
	before := runtime.NumGoroutine()
	test()
	for began := time.Now(); runtime.NumGoroutine() > before; time.Sleep(time.Millisecond) {
		if time.Since(began) > 10*time.Second {
			stacks := make([]byte, 1<<16)
			t.Fatalf("%d goroutines in place of %d:\n%s", runtime.NumGoroutine(), before,
				stacks[:runtime.Stack(stacks, true)])
		}
	}
}
