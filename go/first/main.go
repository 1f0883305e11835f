// The calls of examples/first.script, made from Go: two tenants on one worker. It writes the replies.
package main

import (
	"errors"
	"fmt"
	"os"

	twodfq "twodfq.example/go"
)

func submit(s *twodfq.Scheduler, who uint32, moment uint64, tenant uint32, label uint64) {
	number, err := s.Submit(who, moment, twodfq.Request{Tenant: tenant, Declared: 10, Label: label})
	switch {
	case errors.Is(err, twodfq.RefusedClosed):
		fmt.Println("refused closed")
	case err != nil:
		fmt.Println(err)
	default:
		fmt.Println("request", number)
	}
}

func take(s *twodfq.Scheduler, who uint32, moment uint64, worker uint32) {
	taken, err := s.Take(who, moment, worker)
	switch {
	case err != nil:
		fmt.Println(err)
	case taken.Kind == twodfq.Run:
		fmt.Println("run", taken.Request, taken.Estimate, taken.Label)
	case taken.Kind == twodfq.Drained:
		fmt.Println("drained")
	default:
		fmt.Println("idle")
	}
}

func accepted(err error) {
	if err != nil {
		fmt.Println(err)
		return
	}
	fmt.Println("ok")
}

func main() {
	const search, backup = 0, 1
	config := twodfq.Config{Workers: 1, Weights: []uint32{1, 1}, Kinds: 1, Entries: 100, Requests: 10, Policy: twodfq.TwoDFQ,
		Estimate: twodfq.Declared, Initial: 1000}
	s, err := twodfq.Open(config)
	if err != nil {
		fmt.Fprintln(os.Stderr, "first:", err)
		os.Exit(1)
	}
	defer s.Free()
	submit(s, 0, 0, search, 100)
	submit(s, 0, 0, search, 101)
	submit(s, 0, 0, search, 102)
	submit(s, 1, 0, backup, 200)
	take(s, 9, 0, 0)
	for moment := uint64(10); moment <= 40; moment += 10 {
		accepted(s.Done(9, moment, 0, 10))
		take(s, 9, moment, 0)
	}
	accepted(s.Close(0, 40))
	take(s, 9, 41, 0)
	submit(s, 0, 42, search, 103)
}
