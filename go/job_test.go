package twodfq

import (
	"context"
	"errors"
	"runtime"
	"testing"
	"time"
)

// Wait and Do return the result of a job: its value and error, its panic, or that it ended its goroutine. In each case
// its request ends, and no other request is touched.
func TestOutcomes(t *testing.T) {
	ctx, cancel := context.WithCancel(background)
	defer cancel()
	leavesNoGoroutine(t, func() {
		pool := open(t, Options{Workers: 1, Tenants: tenantsOf(1)})
		for _, ctx := range []context.Context{background, ctx} {
			outcomes(t, pool, func(job func(context.Context) (string, error)) (string, error) {
				handle, err := Submit(ctx, pool, "0", "", job)
				wants(t, err, nil)
				return handle.Wait(background)
			})
		}
		outcomes(t, pool, func(job func(context.Context) (string, error)) (value string, err error) {
			err = ErrExited
			over := make(chan struct{})
			go func() { // a job may end this goroutine
				defer close(over)
				value, err = Do(ctx, pool, "0", "", job)
			}()
			<-over
			return value, err
		})
		pool.Close()
		if status := statusOf(t, pool, "0"); status.Done != 15 || status.Panicked != 9 {
			t.Errorf("%+v", status)
		}
	})
}

func outcomes(t *testing.T, pool *Pool, run func(func(context.Context) (string, error)) (string, error)) {
	t.Helper()
	cause := errors.New("a cause")
	if value, err := run(func(context.Context) (string, error) { return "found", cause }); value != "found" || err != cause {
		t.Errorf("%q, %v", value, err)
	}
	for _, thrown := range []any{"on purpose", cause, nil} {
		value, err := run(func(context.Context) (string, error) { panic(thrown) })
		var panicked *PanicError
		if !errors.As(err, &panicked) || panicked.Value != thrown || value != "" {
			t.Errorf("%q, %v after a panic of %v", value, err, thrown)
		}
		if errors.Is(err, cause) != (thrown == cause) {
			t.Errorf("%v wraps another error than it was thrown", err)
		}
	}
	_, err := run(func(context.Context) (string, error) { runtime.Goexit(); return "", nil })
	wants(t, err, ErrExited)
}

// Wait may end before the job, and may be called again. A job that runs can't be cancelled, but sees its context's end.
func TestHandles(t *testing.T) {
	pool := open(t, Options{Workers: 1, Tenants: tenantsOf(1)})
	ctx, cancel := context.WithCancel(background)
	begun := make(chan struct{})
	handle, err := Submit(ctx, pool, "0", "", func(ctx context.Context) (int, error) {
		close(begun)
		<-ctx.Done()
		return 42, ctx.Err()
	})
	wants(t, err, nil)
	soon(t, "it begins", begun)
	short, stop := context.WithTimeout(background, time.Millisecond)
	defer stop()
	_, err = handle.Wait(short)
	wants(t, err, context.DeadlineExceeded)
	if handle.Cancel() || hasHappened(handle.Done()) {
		t.Error("a job that runs has been withdrawn")
	}
	cancel()
	soon(t, "it ends", handle.Done())
	if value, err := handle.Wait(short); value != 42 || err != context.Canceled {
		t.Errorf("%d, %v", value, err)
	}
	pool.Close()
}

// A job has its permit in its context: it may report its use so far, and name its cost.
func TestAJobsPermit(t *testing.T) {
	pool := open(t, Options{Workers: 1, Tenants: tenantsOf(1)})
	_, err := Do(background, pool, "0", "", func(ctx context.Context) (none struct{}, err error) {
		permit := PermitFromContext(ctx)
		permit.Used(time.Second)
		permit.ReleaseCost(time.Minute)
		return
	})
	wants(t, err, nil)
	if status := statusOf(t, pool, "0"); status.Cost != time.Minute || status.Reports != 1 || status.Done != 1 {
		t.Errorf("%+v", status)
	}
	if PermitFromContext(background) != nil {
		t.Error("a permit in a context without one")
	}
	pool.Close()
}

// A job that releases its permit frees its worker, and the pool still waits for its end.
func TestCloseWaitsForJobs(t *testing.T) {
	pool := open(t, Options{Workers: 1, Tenants: tenantsOf(1)})
	end := make(chan struct{})
	handle, err := Submit(background, pool, "0", "", func(ctx context.Context) (int, error) {
		PermitFromContext(ctx).Release()
		<-end
		return 1, nil
	})
	wants(t, err, nil)
	acquire(t, pool, "0").Release()
	time.AfterFunc(10*time.Millisecond, func() { close(end) })
	pool.Close()
	if !hasHappened(handle.Done()) {
		t.Error("the job has not ended")
	}
}
