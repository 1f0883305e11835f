package twodfq

import (
	"errors"
	"testing"
)

func TestWithdraw(t *testing.T) {
	scheduler, err := Open(Default(1))
	if err != nil {
		t.Fatal(err)
	}
	defer scheduler.Free()
	request, err := scheduler.Submit(0, 0, Request{Declared: 5, Label: 42})
	if err != nil {
		t.Fatal(err)
	}
	if label, err := scheduler.Withdraw(0, 3, request); err != nil || label != 42 {
		t.Fatalf("label %d, error %v", label, err)
	}
	if _, err := scheduler.Withdraw(0, 4, request); err != RefusedNotWaiting {
		t.Fatalf("error %v of a request that is withdrawn", err)
	}
	if taken, err := scheduler.Take(1, 5, 0); err != nil || taken.Kind != Idle {
		t.Fatalf("taken %v, error %v", taken, err)
	}
	if entry, ok := scheduler.Entry(1); !ok || entry.Act != Withdrawn || entry.Request != request {
		t.Fatalf("entry %v", entry)
	}
}

// Virtual time rises by 2 units a microsecond; the second request starts at 10 and has the length 10, so it is eligible
// for worker 1 of 2 from virtual time 5 on.
func TestForesee(t *testing.T) {
	config := Default(1)
	config.Workers, config.Policy, config.Estimate = 2, TwoDFQ, Declared
	scheduler, err := Open(config)
	if err != nil {
		t.Fatal(err)
	}
	defer scheduler.Free()
	finds := func(moment uint64, worker uint32, below uint64, wanted Foreseen) {
		t.Helper()
		if foreseen, err := scheduler.Foresee(moment, worker, below); err != nil || foreseen != wanted {
			t.Fatalf("foreseen %v, error %v, and %v is wanted", foreseen, err, wanted)
		}
	}
	finds(0, 0, 11, Foreseen{Kind: ForeseenNothing})
	for label := uint64(0); label < 2; label++ {
		if _, err := scheduler.Submit(0, 0, Request{Declared: 10, Label: label}); err != nil {
			t.Fatal(err)
		}
	}
	finds(0, 0, 10, Foreseen{Kind: ForeseenRun, Estimate: 10, Eligible: true})
	if taken, err := scheduler.Take(1, 0, 0); err != nil || taken.Kind != Run {
		t.Fatalf("taken %v, error %v", taken, err)
	}
	if _, err := scheduler.Foresee(0, 0, 0); err != RefusedBusy {
		t.Fatalf("error %v of a worker that runs a request", err)
	}
	finds(3, 1, 11, Foreseen{Kind: ForeseenRun, Request: 1, Estimate: 10, Eligible: true, Smaller: true})
	finds(2, 1, 11, Foreseen{Kind: ForeseenRun, Request: 1, Estimate: 10})
	if err := scheduler.SetWorkers(0, 0, 1); err != nil {
		t.Fatal(err)
	}
	finds(0, 1, 11, Foreseen{Kind: ForeseenRetired})
}

func TestStatus(t *testing.T) {
	scheduler, err := Open(Default(1))
	if err != nil {
		t.Fatal(err)
	}
	if _, err := scheduler.Submit(0, 7, Request{Declared: 5}); err != nil {
		t.Fatal(err)
	}
	standing, err := scheduler.Status()
	if want := (Standing{Waiting: 1, Entries: 1, Moment: 7}); standing != want || err != nil {
		t.Errorf("%v in place of %v, %v", standing, want, err)
	}
	scheduler.Free()
	if _, err := scheduler.Status(); !errors.Is(err, NoScheduler) {
		t.Errorf("%v of a scheduler that was given back", err)
	}
}

// The last two entries are kept, and returned with their numbers.
func TestEntries(t *testing.T) {
	config := Default(1, 2)
	config.Keep, config.Estimate = 2, Declared
	s, err := Open(config)
	if err != nil {
		t.Fatal(err)
	}
	defer s.Free()
	if _, err := s.Submit(7, 5, Request{Tenant: 1, Declared: 30, Label: 42}); err != nil {
		t.Fatal(err)
	}
	want := []Entry{{Act: Submitted, Who: 7, Moment: 5, Tenant: 1, Amount: 30, Label: 42},
		{Act: Dispatched, Who: 9, Moment: 6, Worker: 3, Amount: 30}, {Act: Completed, Who: 9, Moment: 8, Worker: 3, Amount: 20}}
	if entry, ok := s.Entry(0); !ok || entry != want[0] {
		t.Errorf("entry 0 is %v", entry)
	}
	if _, err := s.Take(9, 6, 3); err != nil {
		t.Fatal(err)
	}
	if err := s.Done(9, 8, 3, 20); err != nil {
		t.Fatal(err)
	}
	if first := s.FirstKept(); first != 1 {
		t.Errorf("the first kept is %d", first)
	}
	for index, entry := range want {
		told, ok := s.Entry(uint64(index))
		if ok != (index > 0) || ok && told != entry {
			t.Errorf("entry %d is %v", index, told)
		}
	}
	if _, ok := s.Entry(3); ok {
		t.Error("there is an entry 3")
	}
}

// The zero values stand for the policy and the estimator of Default. Under WFQ no request is ever before its time;
// under TwoDFQPlus the second request of a tenant is, for worker 0.
func TestZeroPolicy(t *testing.T) {
	for policy, isEligible := range map[Policy]bool{0: false, TwoDFQPlus: false, WFQ: true} {
		config := Default(1)
		config.Policy, config.Estimate = policy, 0
		s, err := Open(config)
		if err != nil {
			t.Fatal(err)
		}
		for label := uint64(0); label < 2; label++ {
			if _, err := s.Submit(0, 0, Request{Declared: 10, Label: label}); err != nil {
				t.Fatal(err)
			}
		}
		if taken, err := s.Take(1, 0, 1); err != nil || taken.Estimate != config.Initial {
			t.Errorf("an estimate of %d, error %v", taken.Estimate, err)
		}
		foreseen, err := s.Foresee(0, 0, 0)
		if err != nil || foreseen.Kind != ForeseenRun || foreseen.Eligible != isEligible {
			t.Errorf("policy %d: %v, error %v", policy, foreseen, err)
		}
		s.Free()
	}
	config := Default(1)
	config.Policy = TwoDFQPlus + 1
	if _, err := Open(config); err == nil {
		t.Error("a policy beyond the last")
	}
}
