package twodfq

import "testing"

// The first request of a tenant is eligible for every worker, and the lowest takes it. The next request starts a length
// later, so that it would begin before its time on each worker: the highest takes it. The first request of another
// tenant is again for the lowest free worker.
func TestWhichWorkerTakes(t *testing.T) {
	pool := open(t, Options{Workers: 4, Tenants: tenantsOf(1, 1), Patience: -1})
	for i, step := range []struct {
		tenant string
		worker uint32
	}{{"0", 0}, {"0", 3}, {"1", 1}, {"0", 2}} {
		if permit := acquire(t, pool, step.tenant); permit.worker != step.worker {
			t.Errorf("step %d: worker %d in place of %d", i, permit.worker, step.worker)
		}
	}
	for _, permit := range pool.permits {
		if permit != nil {
			permit.Release()
		}
	}
	pool.Close()
}
