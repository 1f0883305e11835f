package twodfq

import "time"

// A scheduler, and the number of its requests.
type history struct {
	scheduler        *Scheduler
	workers          int // the number of workers that it has learned
	waiting, running int
}

// Schedulers one after another. Once the history of one is full the pool opens the next, which takes new requests.
// Workers take from the older ones until nothing waits there.
type rolling struct {
	config    Config // of each scheduler, without the weights
	weights   []uint32
	workers   int
	histories []*history // the oldest first; the last one takes new requests
	opened    uint64
}

func newRolling(o *Options, weights []uint32) (*rolling, error) {
	config := Config{Workers: uint32(o.MostWorkers), Kinds: uint32(len(o.Kinds)), Entries: o.Entries, Keep: 1,
		Requests: uint32(o.Room), Policy: o.Policy, Estimate: o.Estimate, Initial: microseconds(o.Initial)}
	r := &rolling{config: config, weights: weights, workers: o.Workers}
	return r, r.open(0)
}

// The caller in entries that no worker made: no worker has this number.
const caller = workerLimit

func (r *rolling) newest() *history { return r.histories[len(r.histories)-1] }

// Opens the next scheduler, which takes new requests from here on.
func (r *rolling) open(now time.Duration) error {
	config := r.config
	config.Weights = r.weights
	scheduler, err := Open(config)
	if err != nil {
		return err
	}
	if r.workers != int(config.Workers) { // an empty history has room for the entry
		if err := scheduler.SetWorkers(caller, moment(now), uint32(r.workers)); err != nil {
			scheduler.Free()
			return err
		}
	}
	r.opened++
	r.histories = append(r.histories, &history{scheduler: scheduler, workers: r.workers})
	return nil
}

// Makes a call on the newest scheduler, or on the next one where the history is full.
func (r *rolling) call(now time.Duration, call func(*Scheduler) error) error {
	err := call(r.newest().scheduler)
	if err != RefusedFull {
		return err
	}
	if r.open(now) != nil {
		return ErrNoMemory
	}
	r.free()
	return call(r.newest().scheduler)
}

// Submits a request to the newest scheduler.
func (r *rolling) submit(now time.Duration, request *request) error {
	err := r.call(now, func(scheduler *Scheduler) (err error) {
		request.number, err = scheduler.Submit(caller, moment(now), Request{Tenant: request.slot.number,
			Kind: request.kind, Declared: microseconds(request.declared), Label: request.label})
		return err
	})
	if err != nil {
		return err
	}
	request.history = r.newest()
	request.history.waiting++
	return nil
}

// Sets the weight of a slot. An older scheduler learns it as long as its history has room.
func (r *rolling) setWeight(now time.Duration, tenant, weight uint32) error {
	set := func(scheduler *Scheduler) error { return scheduler.Weight(caller, moment(now), tenant, weight) }
	if err := r.call(now, set); err != nil {
		return err
	}
	r.weights[tenant] = weight
	for _, older := range r.histories[:len(r.histories)-1] {
		_ = set(older.scheduler)
	}
	return nil
}

// Sets the number of workers. An older scheduler learns it as long as its history has room.
func (r *rolling) setWorkers(now time.Duration, count int) error {
	set := func(scheduler *Scheduler) error { return scheduler.SetWorkers(caller, moment(now), uint32(count)) }
	if err := r.call(now, set); err != nil {
		return err
	}
	r.workers, r.newest().workers = count, count
	for _, older := range r.histories[:len(r.histories)-1] {
		if set(older.scheduler) == nil {
			older.workers = count
		}
	}
	return nil
}

// Frees the older schedulers without requests.
func (r *rolling) free() {
	newest := r.newest()
	kept := r.histories[:0]
	for _, history := range r.histories {
		if history == newest || history.waiting+history.running > 0 {
			kept = append(kept, history)
		} else {
			history.scheduler.Free()
		}
	}
	r.histories = kept
}

// Frees all schedulers.
func (r *rolling) end() {
	for _, history := range r.histories {
		history.scheduler.Free()
	}
	r.histories = nil
}

// A time since the opening of the pool, as a moment of a scheduler.
func moment(now time.Duration) uint64 { return uint64(now.Microseconds()) }

// A cost as a scheduler has it, at least a microsecond: a tenant whose requests cost nothing would keep all others
// waiting.
func microseconds(cost time.Duration) uint64 {
	switch {
	case cost < time.Microsecond:
		return 1
	case cost > greatestCost:
		return uint64(greatestCost / time.Microsecond)
	default:
		return uint64((cost + time.Microsecond - 1) / time.Microsecond)
	}
}
