package twodfq

import (
	"context"
	"errors"
	"fmt"
	"strings"
	"sync"
	"sync/atomic"
	"testing"
	"time"
)

// The text of a status that is made by hand, as Prometheus reads it: each metric once under its head, each sample with
// its labels, escaped, and each bucket of a histogram with the counts of those below it.
func TestPrometheus(t *testing.T) {
	status := Status{Workers: 4, Schedulers: 2, Early: 3, Waits: 5, Waited: 1500 * time.Microsecond,
		Tenants: []TenantStatus{{Name: "a\"b\\c\nd", Weight: 7, Waiting: 3, Held: 2, Running: 1, Submitted: 9, Done: 5,
			Panicked: 1, Cancelled: 2, Late: 1, Reports: 8, Cost: 12345 * time.Microsecond,
			Refused: map[string]uint64{"tenant_full": 4, "closed": 1}}}}
	status.Tenants[0].Waited.add(100 * time.Microsecond)
	status.Tenants[0].Waited.add(101 * time.Microsecond)
	status.Tenants[0].Waited.add(11 * time.Second)
	var text strings.Builder
	if err := status.WritePrometheus(&text); err != nil {
		t.Fatal(err)
	}
	const label = `tenant="a\"b\\c\nd"`
	for _, lines := range []string{
		"# HELP twodfq_workers Workers that are wanted.\n# TYPE twodfq_workers gauge\ntwodfq_workers 4\n",
		"# TYPE twodfq_waited_seconds_total counter\ntwodfq_waited_seconds_total 0.0015\n",
		"# TYPE twodfq_jobs_held gauge\ntwodfq_jobs_held{" + label + "} 2\n#",
		"# TYPE twodfq_jobs_done_total counter\ntwodfq_jobs_done_total{" + label + "} 5\n" +
			"twodfq_jobs_done_total{tenant=\"\"} 0\n#",
		"\ntwodfq_jobs_refused_total{" + label + ",cause=\"closed\"} 1\ntwodfq_jobs_refused_total{" + label +
			",cause=\"tenant_full\"} 4\n#",
		"\ntwodfq_cost_seconds_total{" + label + "} 0.012345\n",
		"# TYPE twodfq_jobs_wait_seconds histogram\ntwodfq_jobs_wait_seconds_bucket{" + label + ",le=\"0.0001\"} 1\n" +
			"twodfq_jobs_wait_seconds_bucket{" + label + ",le=\"0.00025\"} 2\n",
		"twodfq_jobs_wait_seconds_bucket{" + label + ",le=\"10\"} 2\ntwodfq_jobs_wait_seconds_bucket{" + label +
			",le=\"+Inf\"} 3\ntwodfq_jobs_wait_seconds_sum{" + label + "} 11.000201\ntwodfq_jobs_wait_seconds_count{" + label + "} 3\n",
		"twodfq_jobs_run_seconds_count{tenant=\"\"} 0\n",
	} {
		if strings.Count(text.String(), lines) != 1 {
			t.Errorf("no %s in\n%s", lines, text.String())
		}
	}
	heads := map[string]bool{}
	for _, line := range strings.Split(text.String(), "\n") {
		if strings.HasPrefix(line, "# TYPE ") && heads[line] {
			t.Errorf("twice: %s", line)
		}
		heads[line] = true
	}
}

func TestHistogram(t *testing.T) {
	var h Histogram
	for i, bound := range Bounds() {
		h.add(bound)
		h.add(bound + 1)
		if h.Counts[i] != 2 && (i > 0 || h.Counts[i] != 1) || h.Counts[i+1] != 1 {
			t.Errorf("up to %v: %v", bound, h.Counts)
		}
	}
	if h.Count() != 32 {
		t.Errorf("%d are counted", h.Count())
	}
}

// Each cause has a label of its own, and a text.
func TestCauses(t *testing.T) {
	labels := map[string]Cause{}
	for cause := ErrClosed; cause < causes; cause++ {
		words := causeTexts[cause]
		if other, ok := labels[words.label]; ok || words.label == "" || words.text == "" {
			t.Errorf("%q of cause %d, and of %d", words.label, cause, other)
		}
		labels[words.label] = cause
	}
}

// Keeps the traced events as lines, in their order.
type recorder struct {
	lock  sync.Mutex
	lines []string
}

func (r *recorder) tell(ctx context.Context, format string, words ...any) {
	r.lock.Lock()
	defer r.lock.Unlock()
	r.lines = append(r.lines, fmt.Sprint(ctx.Value(recorderKey{}), " ")+fmt.Sprintf(format, words...))
}

type recorderKey struct{}

// Each event of a request is traced with its context, without the pool's lock: functions of Trace may call the pool.
func TestTrace(t *testing.T) {
	var pool *Pool
	var told recorder
	pool = open(t, Options{Workers: 1, Tenants: tenantsOf(1, 1), RoomPerTenant: 1, Trace: &Trace{
		Submitted: func(ctx context.Context, tenant, kind string) {
			told.tell(ctx, "submitted %s%s, %d run", tenant, kind, pool.Status().Running)
		},
		Refused: func(ctx context.Context, refusal *RefusalError) { told.tell(ctx, "%v", refusal) },
		Begun: func(ctx context.Context, tenant, kind string, waited time.Duration) {
			told.tell(ctx, "begun %s%s after a while: %v", tenant, kind, waited > 0)
		},
		Ended: func(ctx context.Context, tenant, kind string, ran, cost time.Duration) {
			told.tell(ctx, "ended %s%s %v at %v", tenant, kind, ran > 0, cost)
		},
		Withdrawn: func(ctx context.Context, tenant, kind string, waited time.Duration, cause error) {
			told.tell(ctx, "withdrawn %s%s, %v", tenant, kind, cause)
		},
	}})
	named := func(name string) context.Context { return context.WithValue(background, recorderKey{}, name) }
	permit, err := pool.Acquire(named("a"), "0", "")
	wants(t, err, nil)
	handle, err := Submit(named("b"), pool, "1", "", func(context.Context) (int, error) { return 0, nil })
	wants(t, err, nil)
	_, err = pool.Acquire(named("c"), "1", "")
	wants(t, err, ErrTenantFull)
	handle.Cancel()
	permit.ReleaseCost(3 * time.Second)
	permit, err = pool.TryAcquire("1", "")
	wants(t, err, nil)
	permit.ReleaseCost(time.Second)
	pool.Close()
	wanted := []string{"a submitted 0, 1 run", "a begun 0 after a while: false", "b submitted 1, 1 run",
		`c twodfq: a request of tenant "1", kind "" is refused: the tenant's part of the room is full`,
		"b withdrawn 1, context canceled", "a ended 0 true at 3s", "<nil> submitted 1, 1 run",
		"<nil> begun 1 after a while: false", "<nil> ended 1 true at 1s"}
	if strings.Join(told.lines, "\n") != strings.Join(wanted, "\n") {
		t.Errorf("told is\n%s", strings.Join(told.lines, "\n"))
	}
}

// Close returns after the functions of Trace.
func TestCloseWaitsForTrace(t *testing.T) {
	var told int32
	pool := open(t, Options{Tenants: tenantsOf(1), Trace: &Trace{
		Ended: func(context.Context, string, string, time.Duration, time.Duration) {
			time.Sleep(10 * time.Millisecond)
			atomic.StoreInt32(&told, 1)
		},
	}})
	hand(t, pool, "0", func() {})
	if pool.Close(); atomic.LoadInt32(&told) == 0 {
		t.Error("the end of a job is told after that of its pool")
	}
}

// The status of a pool has the requests and events of the pool.
func TestPoolStatus(t *testing.T) {
	pool := open(t, Options{Workers: 2, Tenants: tenantsOf(3, 1)})
	permit := acquire(t, pool, "0")
	_, err := Do(background, pool, "0", "", func(context.Context) (int, error) { panic("on purpose") })
	var panicked *PanicError
	if !errors.As(err, &panicked) || panicked.Value != "on purpose" || !strings.Contains(string(panicked.Stack), "TestPoolStatus") {
		t.Errorf("%v", err)
	}
	status := pool.Status()
	tenant := status.Tenants[0]
	if status.Workers != 2 || status.Running != 1 || status.Waiting != 0 || status.Schedulers != 1 || status.VirtualTime < 0 {
		t.Errorf("%+v", status)
	}
	if tenant.Name != "0" || tenant.Weight != 3 || tenant.Submitted != 2 || tenant.Done != 1 || tenant.Panicked != 1 ||
		tenant.Running != 1 || tenant.Waited.Count() != 2 || tenant.Ran.Count() != 1 || tenant.Cost < time.Microsecond {
		t.Errorf("%+v", tenant)
	}
	permit.Release()
	pool.Close()
	if status := pool.Status(); status.Running != 0 || status.Tenants[0].Done != 2 || status.VirtualTime != 0 {
		t.Errorf("%+v", status)
	}
}
