package twodfq

import (
	"context"
	"fmt"
	"strings"
	"testing"
)

// Names come and go by the ten thousand. Of those that went the pool keeps nothing but their counts, added up.
func TestTenantsComeAndGo(t *testing.T) {
	const names = 10_000
	pool := open(t, Options{Workers: 2, Tenants: []Tenant{{"stays", 7}}, MostTenants: 4})
	for i := 0; i < names; i++ {
		if _, err := Do(background, pool, fmt.Sprint("name ", i), "", func(context.Context) (int, error) { return i, nil }); err != nil {
			t.Fatal(err)
		}
	}
	status := pool.Status()
	if len(status.Tenants) != 4 || status.Tenants[0].Name != "stays" || status.Tenants[0].Weight != 7 {
		t.Errorf("%+v", status.Tenants)
	}
	for i, tenant := range status.Tenants[1:] { // in the order in which they came
		if wanted := fmt.Sprint("name ", names-3+i); tenant.Done != 1 || !hasTenant(status, wanted) {
			t.Errorf("%+v, and no %s", tenant, wanted)
		}
	}
	if status.Gone.Done != names-3 || status.Gone.Waited.Count() != names-3 {
		t.Errorf("%+v", status.Gone)
	}
	if held := [2]int{len(pool.tenants.byName), len(pool.tenants.weights)}; held != [2]int{4, 0} {
		t.Errorf("%v names and weights are kept", held)
	}
	pool.Close()
}

func hasTenant(status Status, name string) bool {
	for _, tenant := range status.Tenants {
		if tenant.Name == name {
			return true
		}
	}
	return false
}

// A slot goes to another tenant where its own has no request, and never while it has one.
func TestSlots(t *testing.T) {
	pool := open(t, Options{Workers: 3, MostTenants: 2, DefaultWeight: 3})
	if _, err := pool.Tenant("acme"); err != nil {
		t.Fatal(err)
	}
	first, second := acquire(t, pool, "acme"), acquire(t, pool, "globex")
	_, err := pool.Acquire(background, "hooli", "")
	wants(t, err, ErrNoSlot)
	_, err = pool.Tenant("hooli")
	wants(t, err, ErrNoSlot)
	second.Release()
	acquire(t, pool, "hooli").Release()
	if status := pool.Status(); hasTenant(status, "globex") || !hasTenant(status, "acme") || status.Gone.Done != 1 {
		t.Errorf("%+v", status)
	}
	first.Release()
	for _, name := range []string{"", strings.Repeat("n", 257), "\xff"} {
		_, err = pool.Acquire(background, name, "")
		wants(t, err, ErrName)
	}
	acquire(t, pool, strings.Repeat("n", 256)).Release()
	pool.Close()
	_, err = pool.Tenant("acme")
	wants(t, err, ErrClosed)
}

// The number of a tenant is good while it has its slot, and is never taken for that of the slot's next tenant.
func TestTenantIDs(t *testing.T) {
	pool := open(t, Options{MostTenants: 1, Kinds: []Kind{{Name: "get"}, {Name: "scan"}}})
	acme, err := pool.Tenant("acme")
	wants(t, err, nil)
	scan, err := pool.Kind("scan")
	wants(t, err, nil)
	permit, err := pool.AcquireID(background, acme, scan)
	wants(t, err, nil)
	permit.Release()
	handle, err := SubmitID(background, pool, acme, scan, func(context.Context) (int, error) { return 42, nil })
	wants(t, err, nil)
	if value, err := handle.Wait(background); value != 42 || err != nil {
		t.Errorf("%d, %v", value, err)
	}
	globex, err := pool.Tenant("globex")
	wants(t, err, nil)
	_, err = pool.AcquireID(background, acme, scan)
	wants(t, err, ErrTenantGone)
	_, err = pool.TryAcquireID(acme, scan)
	wants(t, err, ErrTenantGone)
	again, err := pool.Tenant("acme")
	wants(t, err, nil)
	_, err = pool.TryAcquireID(globex, scan)
	wants(t, err, ErrTenantGone)
	_, err = pool.TryAcquireID(TenantID{}, scan)
	wants(t, err, ErrUnknownTenant)
	_, err = pool.TryAcquireID(again, KindID{})
	wants(t, err, ErrUnknownKind)
	permit, err = pool.TryAcquireID(again, scan)
	wants(t, err, nil)
	permit.Release()
	_, err = pool.Kind("put")
	wants(t, err, ErrUnknownKind)
	pool.Close()
}

// The weight that is set for a name is kept for each time when it comes, in the scheduler, too: 5 permits of "acme" for
// one permit of another tenant, where costs are alike.
func TestWeightsOfNames(t *testing.T) {
	pool := open(t, Options{Workers: 1, MostTenants: 2, Room: 1000, RoomPerTenant: 500, Estimate: Declared, Refresh: -1})
	wants(t, pool.SetWeight("acme", 5), nil)
	for _, weight := range []int{0, greatestWeight + 1, -1} {
		wants(t, pool.SetWeight("acme", weight), ErrWeight)
	}
	wants(t, pool.SetWeight("", 5), ErrName)
	for _, name := range []string{"acme", "globex", "hooli", "acme"} {
		acquire(t, pool, name).ReleaseCost(1000)
	}
	if weight := statusOf(t, pool, "acme").Weight; weight != 5 {
		t.Errorf("the weight is %d", weight)
	}
	first := acquire(t, pool, "hooli")
	counts := map[string]int{}
	for i := 0; i < 60; i++ {
		for _, name := range []string{"acme", "hooli"} {
			name := name
			_, err := Submit(background, pool, name, "", func(ctx context.Context) (none struct{}, err error) {
				if counts["acme"]+counts["hooli"] < 60 {
					counts[name]++
				}
				PermitFromContext(ctx).ReleaseCost(pool.options.Initial)
				return
			})
			wants(t, err, nil)
		}
	}
	first.ReleaseCost(pool.options.Initial)
	pool.Close()
	if counts["hooli"] < 9 || counts["hooli"] > 11 {
		t.Errorf("of 60 requests %v were served", counts)
	}
}

// Where only Options.Tenants exist an unknown name is refused, and has no weight.
func TestNamedTenantsAlone(t *testing.T) {
	pool := open(t, Options{Tenants: []Tenant{{Name: "acme"}}})
	_, err := pool.Acquire(background, "globex", "")
	wants(t, err, ErrUnknownTenant)
	wants(t, pool.SetWeight("globex", 2), ErrUnknownTenant)
	wants(t, pool.SetWeight("acme", 2), nil)
	if status := statusOf(t, pool, "acme"); status.Weight != 2 || len(pool.tenants.weights) != 0 {
		t.Errorf("%+v, and the weights %v", status, pool.tenants.weights)
	}
	pool.Close()
}
