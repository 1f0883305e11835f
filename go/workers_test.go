package twodfq

import (
	"context"
	"fmt"
	"math/rand"
	"testing"
	"time"
)

// A set of these workers, of 200.
func setOf(workers ...uint32) workerSet {
	set := newWorkerSet(200)
	for _, worker := range workers {
		set.add(worker)
	}
	return set
}

// The members of a set below a bound, and what it tells of them.
func TestWorkerSets(t *testing.T) {
	random := rand.New(rand.NewSource(7))
	for round := 0; round < 1000; round++ {
		set, bound := newWorkerSet(200), random.Intn(201)
		var members []int
		for worker := 0; worker < 200; worker++ {
			if random.Intn(1+round%100) == 0 {
				set.add(uint32(worker))
				if worker < bound {
					members = append(members, worker)
				}
			}
		}
		free, low, high := freeWorkers{set, bound}, -1, -1
		if len(members) > 0 {
			low, high = members[0], members[len(members)-1]
		}
		if free.len() != len(members) || free.lowest() != low || free.highest() != high || free.isEmpty() != (low < 0) {
			t.Fatalf("%x below %d: %d, %d to %d in place of %v", set, bound, free.len(), free.lowest(), free.highest(), members)
		}
		for _, worker := range members {
			if !set.has(uint32(worker)) {
				t.Fatalf("%x lacks %d", set, worker)
			}
			set.remove(uint32(worker))
		}
		if !free.isEmpty() {
			t.Fatalf("%x below %d", set, bound)
		}
	}
}

// The highest of some workers, and how many of them are new.
func TestTheHighestWorkers(t *testing.T) {
	free, waiting := freeWorkers{setOf(2, 63, 64, 130, 150), 140}, setOf(2, 130, 199)
	for _, step := range []struct {
		most, members, added int
		wanted               workerSet
	}{{1, 1, 0, setOf(130)}, {3, 3, 2, setOf(63, 64, 130)}, {9, 4, 1, setOf(2, 63, 64, 130)}, {0, 0, 0, setOf()}} {
		members, added := waiting.become(free, step.most)
		if members != step.members || added != step.added || fmt.Sprint(waiting) != fmt.Sprint(step.wanted) {
			t.Errorf("of at most %d: %d, %d of them new: %x", step.most, members, added, waiting)
		}
	}
}

func TestALineOfWorkers(t *testing.T) {
	line := newLine(4)
	order := func(wanted ...uint32) {
		t.Helper()
		var workers []uint32
		for worker := line.next[line.ends()]; worker != line.ends(); worker = line.next[worker] {
			workers = append(workers, worker)
		}
		if first, ok := line.first(); fmt.Sprint(workers) != fmt.Sprint(wanted) || ok != (len(wanted) > 0) || ok && first != wanted[0] {
			t.Errorf("%v in place of %v", workers, wanted)
		}
	}
	order()
	line.leave(2)
	order()
	for _, worker := range []uint32{2, 0, 3} {
		line.join(worker)
	}
	order(2, 0, 3)
	line.join(2)
	order(0, 3, 2)
	line.joinBefore(2, 3)
	line.joinBefore(1, 0)
	order(1, 0, 2, 3)
	line.leave(1)
	line.leave(1)
	line.leave(3)
	order(0, 2)
}

// A pool of a thousand workers and the most tenants there may be: each permit has a worker of its own, and there is
// none beyond them.
func TestManyWorkersAndTenants(t *testing.T) {
	const workers, tenants = 1000, mostTenants
	pool := open(t, Options{Workers: 100, MostWorkers: workers, MostTenants: tenants, Room: mostRequests, Refresh: -1})
	name := func(i int) string { return fmt.Sprint("client ", i) }
	if err := pool.SetWorkers(workers); err != nil {
		t.Fatal(err)
	}
	if err := pool.SetWeight(name(0), greatestWeight); err != nil {
		t.Fatal(err)
	}
	permits, taken := make([]*Permit, workers), make(map[uint32]bool)
	for i := range permits {
		permits[i] = acquire(t, pool, name(i))
		taken[permits[i].worker] = true
	}
	if _, err := pool.TryAcquire(name(1), ""); len(taken) != workers {
		t.Errorf("%d workers", len(taken))
	} else {
		wants(t, err, ErrNoneFree)
	}
	var handles []*Handle[int]
	for i := 0; i < tenants; i++ {
		i := i
		handle, err := Submit(background, pool, name(i), "", func(context.Context) (int, error) { return i, nil })
		if err != nil {
			t.Fatal(err)
		}
		handles = append(handles, handle)
	}
	_, err := pool.TryAcquire("one more", "")
	wants(t, err, ErrNoSlot)
	for _, permit := range permits {
		permit.ReleaseCost(time.Millisecond)
	}
	for i, handle := range handles {
		if value, err := handle.Wait(background); value != i || err != nil {
			t.Fatalf("%d, %v in place of %d", value, err, i)
		}
	}
	pool.Close()
	if status := pool.Status(); len(status.Tenants) != tenants || status.Tenants[0].Weight != greatestWeight {
		t.Errorf("%d tenants, the first of weight %d", len(status.Tenants), status.Tenants[0].Weight)
	}
}

// Of a thousand workers a request goes to the lowest for which it is eligible, whatever workers are free between.
func TestWhichOfManyWorkersTakes(t *testing.T) {
	random := rand.New(rand.NewSource(7))
	pool := open(t, Options{Workers: 1000, Tenants: tenantsOf(1, 1), Patience: -1, Estimate: Declared, Refresh: -1})
	var held []*Permit
	for i := 0; i < 999; i++ {
		held = append(held, acquire(t, pool, "0"))
	}
	for i := 0; i < 100; i++ {
		for len(held) > 300+random.Intn(600) {
			last := random.Intn(len(held))
			held[last], held[len(held)-1] = held[len(held)-1], held[last]
			held[len(held)-1].ReleaseCost(time.Duration(1+random.Intn(1000)) * time.Microsecond)
			held = held[:len(held)-1]
		}
		pool.lock.Lock()
		history, now := pool.rolling.newest(), pool.now()
		_, err := history.scheduler.Submit(caller, moment(now), Request{Tenant: uint32(random.Intn(2)), Declared: 100_000, Label: 1 << 40})
		wants(t, err, nil)
		wanted := -1
		for worker := 999; worker >= 0; worker-- {
			if pool.free.has(uint32(worker)) && history.foresee(now, uint32(worker)).Eligible {
				wanted = worker
			}
		}
		free := pool.freeFor(history)
		if wanted >= 0 {
			found := history.lowestEligible(free, uint32(free.lowest()), uint32(free.highest()), now)
			if int(found) != wanted {
				t.Errorf("worker %d in place of %d", found, wanted)
			}
		}
		taken, err := history.scheduler.Take(uint32(free.highest()), moment(now), uint32(free.highest()))
		if err != nil || taken.Kind != Run {
			t.Fatalf("%v, %v", taken, err)
		}
		wants(t, history.scheduler.Done(uint32(free.highest()), moment(now), uint32(free.highest()), 1000), nil)
		pool.lock.Unlock()
	}
	for _, permit := range held {
		permit.Release()
	}
	pool.Close()
}
