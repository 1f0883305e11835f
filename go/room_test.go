package twodfq

import (
	"context"
	"errors"
	"fmt"
	"math/rand"
	"sync"
	"sync/atomic"
	"testing"
	"time"
)

// Of 100 places four tenants have 12 each, and share 52. A flood gets its own places and half of the shared ones. The
// next tenant gets half of the other half, and the others still have places of their own, and shared ones.
func TestPartsOfARoom(t *testing.T) {
	pool := open(t, Options{Workers: 1, Tenants: tenantsOf(1, 1, 1, 1), Room: 100})
	end := occupy(t, pool, "0")
	for _, part := range []struct {
		tenant string
		places int
	}{{"0", 12 + 26}, {"1", 12 + 13}, {"2", 12 + 7}, {"3", 12 + 3}} {
		for i := 0; i < part.places; i++ {
			hand(t, pool, part.tenant, func() {})
		}
		wants(t, pool.Go(background, part.tenant, "", func(context.Context) {}), ErrTenantFull)
	}
	end()
	pool.Close()
}

// The places by their definition, beside the room's own count.
func TestRoomByDefinition(t *testing.T) {
	random := rand.New(rand.NewSource(1))
	for _, size := range [][2]int{{100, 4}, {7, 7}, {3, 5}, {1, 1}, {50, 24}} {
		places, tenants := size[0], size[1]
		room, waiting := newRoom(places, tenants, 0), make([]int, tenants)
		for step := 0; step < 5000; step++ {
			tenant := random.Intn(tenants)
			if random.Intn(3) == 0 && waiting[tenant] > 0 {
				room.leave(waiting[tenant])
				waiting[tenant]--
				continue
			}
			cause := room.refuses(waiting[tenant])
			if wanted := causeByDefinition(places, tenants, waiting, tenant); cause != wanted {
				t.Fatalf("%d places, %d tenants, %v wait, tenant %d: %v in place of %v", places, tenants, waiting, tenant,
					cause, wanted)
			}
			if cause == nil {
				room.enter(waiting[tenant])
				waiting[tenant]++
			}
		}
	}
}

func causeByDefinition(places, tenants int, waiting []int, tenant int) error {
	own := 0
	if places >= tenants {
		own = places / (2 * tenants)
		if own == 0 {
			own = 1
		}
	}
	all, free := 0, places-own*tenants
	for _, count := range waiting {
		all += count
		if count > own {
			free -= count - own
		}
	}
	switch {
	case all == places:
		return ErrTooManyWait
	case waiting[tenant] < own || waiting[tenant]-own < free:
		return nil
	default:
		return ErrTenantFull
	}
}

func TestRoomPerTenant(t *testing.T) {
	pool := open(t, Options{Workers: 1, Tenants: tenantsOf(1, 1), Room: 5, RoomPerTenant: 3})
	end := occupy(t, pool, "0")
	submit := func(tenant string, cause error) {
		t.Helper()
		wants(t, pool.Go(background, tenant, "", func(context.Context) {}), cause)
	}
	for _, cause := range []error{nil, nil, nil, ErrTenantFull} {
		submit("0", cause)
	}
	for _, cause := range []error{nil, nil, ErrTooManyWait} {
		submit("1", cause)
	}
	end()
	pool.Close()
}

// A tenant with a request now and then is never refused beside floods, and is served.
func TestATrickleBesideFloods(t *testing.T) {
	pool := open(t, Options{Workers: 2, Tenants: tenantsOf(1, 1, 1), Room: 60})
	var over int32
	var refused [2]int32
	var floods sync.WaitGroup
	for i := range refused {
		floods.Add(1)
		go func(tenant string, refused *int32) {
			defer floods.Done()
			for atomic.LoadInt32(&over) == 0 {
				err := pool.Go(background, tenant, "", func(context.Context) { time.Sleep(50 * time.Microsecond) })
				if errors.Is(err, ErrTenantFull) {
					atomic.AddInt32(refused, 1)
				} else if err != nil {
					t.Error(err)
				}
			}
		}(fmt.Sprint(i), &refused[i])
	}
	trickle := func(context.Context) (int, error) { return 0, nil }
	for i := 0; i < 300 || atomic.LoadInt32(&refused[0]) < 100 || atomic.LoadInt32(&refused[1]) < 100; i++ {
		first, err := Submit(background, pool, "2", "", trickle)
		wants(t, err, nil)
		second, err := Submit(background, pool, "2", "", trickle)
		wants(t, err, nil)
		for _, handle := range []*Handle[int]{first, second} {
			_, err := handle.Wait(background)
			wants(t, err, nil)
		}
	}
	atomic.StoreInt32(&over, 1)
	floods.Wait()
	pool.Close()
}
