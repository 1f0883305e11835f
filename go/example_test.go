package twodfq_test

import (
	"context"
	"encoding/json"
	"errors"
	"expvar"
	"fmt"
	"log"
	"os"
	"strings"
	"time"

	twodfq "twodfq.example/go"
)

// The pool of the examples.
func open() *twodfq.Pool {
	pool, err := twodfq.NewPool(twodfq.Options{
		Workers: 8,
		Tenants: []twodfq.Tenant{{Name: "acme"}, {Name: "globex", Weight: 2}},
		Kinds:   []twodfq.Kind{{Name: "get"}, {Name: "scan", MostRunning: 4}},
	})
	if err != nil {
		log.Fatal(err)
	}
	return pool
}

// Each goroutine of a service waits for its tenant's turn. The end of the context ends the wait, too.
func ExamplePool_Acquire() {
	pool := open()
	defer pool.Close()
	ctx, cancel := context.WithTimeout(context.Background(), time.Second)
	defer cancel()
	permit, err := pool.Acquire(ctx, "acme", "scan")
	if err != nil {
		log.Fatal(err)
	}
	defer permit.Release()
	fmt.Println("acme scans")
	// Output: acme scans
}

// A service does without a request that can't run now.
func ExamplePool_TryAcquire() {
	pool, err := twodfq.NewPool(twodfq.Options{Workers: 1, Tenants: []twodfq.Tenant{{Name: "acme"}}})
	if err != nil {
		log.Fatal(err)
	}
	defer pool.Close()
	first, _ := pool.TryAcquire("acme", "")
	defer first.Release()
	_, err = pool.TryAcquire("acme", "")
	fmt.Println(errors.Is(err, twodfq.ErrNoneFree))
	fmt.Println(err)
	// Output:
	// true
	// twodfq: a request of tenant "acme", kind "" is refused: no worker is free for it now
}

// A call by numbers looks up no name. The number of a tenant is refused once its slot has gone to another tenant.
func ExamplePool_Tenant() {
	pool := open()
	defer pool.Close()
	globex, err := pool.Tenant("globex")
	if err != nil {
		log.Fatal(err)
	}
	get, err := pool.Kind("get")
	if err != nil {
		log.Fatal(err)
	}
	permit, err := pool.AcquireID(context.Background(), globex, get)
	if err != nil {
		log.Fatal(err)
	}
	permit.Release()
	_, err = pool.Kind("put")
	fmt.Println(err)
	// Output: twodfq: there is no such kind
}

// A cost that is not the time of running, such as the rows that a database has read, is given at the end.
func ExamplePermit_ReleaseCost() {
	pool, err := twodfq.NewPool(twodfq.Options{Tenants: []twodfq.Tenant{{Name: "acme"}}, Refresh: -1})
	if err != nil {
		log.Fatal(err)
	}
	permit, err := pool.Acquire(context.Background(), "acme", "")
	if err != nil {
		log.Fatal(err)
	}
	defer permit.Release() // in case the code below panics
	const rows = 1500
	permit.ReleaseCost(rows * time.Microsecond)
	pool.Close()
	fmt.Println(pool.Status().Tenants[0].Cost)
	// Output: 1.5ms
}

// A job runs in a goroutine of its own. Wait returns its result.
func ExampleSubmit() {
	pool := open()
	defer pool.Close()
	ctx := context.Background()
	handle, err := twodfq.Submit(ctx, pool, "globex", "scan", func(ctx context.Context) (int, error) {
		return strings.Count("cheese", "e"), ctx.Err()
	})
	if err != nil {
		log.Fatal(err)
	}
	fmt.Println(handle.Wait(ctx))
	// Output: 3 <nil>
}

// A job that waits may be withdrawn.
func ExampleHandle_Cancel() {
	pool, err := twodfq.NewPool(twodfq.Options{Workers: 1, Tenants: []twodfq.Tenant{{Name: "acme"}}})
	if err != nil {
		log.Fatal(err)
	}
	defer pool.Close()
	ctx := context.Background()
	permit, err := pool.Acquire(ctx, "acme", "")
	if err != nil {
		log.Fatal(err)
	}
	defer permit.Release()
	handle, err := twodfq.Submit(ctx, pool, "acme", "", func(context.Context) (int, error) { return 42, nil })
	if err != nil {
		log.Fatal(err)
	}
	fmt.Println(handle.Cancel())
	fmt.Println(handle.Wait(ctx))
	// Output:
	// true
	// 0 context canceled
}

// A job that panics has an error as its result.
func ExampleDo() {
	pool := open()
	defer pool.Close()
	_, err := twodfq.Do(context.Background(), pool, "acme", "get", func(context.Context) (string, error) {
		panic("no such row")
	})
	var panicked *twodfq.PanicError
	fmt.Println(errors.As(err, &panicked), err)
	// Output: true twodfq: a job panicked: no such row
}

// A job without a result. A long job reports its cost so far while it runs.
func ExamplePool_Go() {
	pool := open()
	err := pool.Go(context.Background(), "acme", "scan", func(ctx context.Context) {
		permit := twodfq.PermitFromContext(ctx)
		for part := time.Duration(1); part <= 3; part++ {
			permit.Used(part * time.Second)
		}
	})
	if err != nil {
		log.Fatal(err)
	}
	pool.Close()
	fmt.Println(pool.Status().Tenants[0].Cost)
	// Output: 3s
}

// Tenants need no configuration: a new name takes a slot, and the tenant without requests for longest loses its slot.
func ExampleOptions() {
	pool, err := twodfq.NewPool(twodfq.Options{MostTenants: 100})
	if err != nil {
		log.Fatal(err)
	}
	if err := pool.SetWeight("acme", 5); err != nil { // for the time when it comes
		log.Fatal(err)
	}
	for i := 0; i < 1000; i++ {
		permit, err := pool.Acquire(context.Background(), fmt.Sprint("client ", i), "")
		if err != nil {
			log.Fatal(err)
		}
		permit.Release()
	}
	pool.Close()
	status := pool.Status()
	fmt.Println(len(status.Tenants), status.Gone.Done)
	// Output: 100 900
}

// The error names the field that is out of its range, and the range.
func ExampleNewPool() {
	_, err := twodfq.NewPool(twodfq.Options{Workers: 5000, MostTenants: 10})
	fmt.Println(err)
	// Output: twodfq: no pool has these options: MostWorkers is 5000, and may be 1 to 4096
}

func ExampleStatus_WritePrometheus() {
	pool, err := twodfq.NewPool(twodfq.Options{Workers: 3, Tenants: []twodfq.Tenant{{Name: "acme"}}})
	if err != nil {
		log.Fatal(err)
	}
	defer pool.Close()
	status := pool.Status()
	var text strings.Builder
	if err := status.WritePrometheus(&text); err != nil {
		log.Fatal(err)
	}
	lines := strings.SplitAfter(text.String(), "\n")
	fmt.Fprint(os.Stdout, strings.Join(lines[:3], ""))
	// Output:
	// # HELP twodfq_workers Workers that are wanted.
	// # TYPE twodfq_workers gauge
	// twodfq_workers 3
}

// With package expvar /debug/vars has the status.
func ExamplePool_Status() {
	pool := open()
	defer pool.Close()
	var variable expvar.Var = expvar.Func(func() any { return pool.Status() }) // for expvar.Publish
	var read struct {
		Workers int
		Tenants []struct{ Name string }
	}
	if err := json.Unmarshal([]byte(variable.String()), &read); err != nil {
		log.Fatal(err)
	}
	fmt.Println(read.Workers, read.Tenants)
	// Output: 8 [{acme} {globex}]
}

func ExamplePool_SetWeight() {
	pool := open()
	defer pool.Close()
	if err := pool.SetWeight("acme", 5); err != nil {
		log.Fatal(err)
	}
	fmt.Println(pool.Status().Tenants[0].Weight)
	fmt.Println(pool.SetWeight("acme", 100_001))
	// Output:
	// 5
	// twodfq: a weight is 1 to 100,000
}

// The number of workers follows the load, up to MostWorkers.
func ExamplePool_SetWorkers() {
	pool, err := twodfq.NewPool(twodfq.Options{Workers: 2, MostWorkers: 16, MostTenants: 10})
	if err != nil {
		log.Fatal(err)
	}
	defer pool.Close()
	if err := pool.SetWorkers(16); err != nil {
		log.Fatal(err)
	}
	fmt.Println(pool.Status().Workers, errors.Is(pool.SetWorkers(17), twodfq.ErrWorkers))
	// Output: 16 true
}

// A service that stops lets accepted requests end, but not for longer than ten seconds.
func ExamplePool_Shutdown() {
	pool := open()
	permit, err := pool.Acquire(context.Background(), "acme", "get")
	if err != nil {
		log.Fatal(err)
	}
	time.AfterFunc(time.Millisecond, permit.Release)
	ctx, cancel := context.WithTimeout(context.Background(), 10*time.Second)
	defer cancel()
	fmt.Println(pool.Shutdown(ctx))
	_, err = pool.Acquire(ctx, "acme", "get")
	fmt.Println(errors.Is(err, twodfq.ErrClosed))
	// Output:
	// <nil>
	// true
}

// Where the clients know the costs of their requests, the requests declare them.
func ExampleDeclare() {
	pool, err := twodfq.NewPool(twodfq.Options{MostTenants: 10, Estimate: twodfq.Declared})
	if err != nil {
		log.Fatal(err)
	}
	defer pool.Close()
	permit, err := pool.Acquire(context.Background(), "acme", "", twodfq.Declare(25*time.Millisecond))
	if err != nil {
		log.Fatal(err)
	}
	permit.ReleaseCost(24 * time.Millisecond)
	fmt.Println(pool.Status().Tenants[0].Cost)
	// Output: 24ms
}

// Requests that waited long are logged.
func ExampleTrace() {
	pool, err := twodfq.NewPool(twodfq.Options{Workers: 1, MostTenants: 10, Trace: &twodfq.Trace{
		Begun: func(_ context.Context, tenant, _ string, waited time.Duration) {
			if waited > time.Millisecond {
				fmt.Println(tenant, "waited for more than a millisecond")
			}
		},
	}})
	if err != nil {
		log.Fatal(err)
	}
	ctx := context.Background()
	permit, err := pool.Acquire(ctx, "acme", "")
	if err != nil {
		log.Fatal(err)
	}
	if err := pool.Go(ctx, "globex", "", func(context.Context) {}); err != nil {
		log.Fatal(err)
	}
	time.Sleep(2 * time.Millisecond)
	permit.Release()
	pool.Close()
	// Output: globex waited for more than a millisecond
}

// The calls of a service that keeps its own queue: moments and costs are in microseconds, and the label is the
// service's number of the job.
func ExampleScheduler() {
	config := twodfq.Default(1, 2) // two tenants, of weights 1 and 2
	scheduler, err := twodfq.Open(config)
	if err != nil {
		log.Fatal(err)
	}
	defer scheduler.Free()
	if _, err := scheduler.Submit(0, 0, twodfq.Request{Tenant: 1, Declared: 5, Label: 42}); err != nil {
		log.Fatal(err)
	}
	taken, err := scheduler.Take(1, 3, 0) // caller 1, moment 3, worker 0
	if err != nil {
		log.Fatal(err)
	}
	if taken.Kind == twodfq.Run {
		fmt.Println("run job", taken.Label)
		err = scheduler.Done(1, 8, 0, 5)
	}
	fmt.Println(err)
	// Output:
	// run job 42
	// <nil>
}
