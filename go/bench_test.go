package twodfq

import (
	"context"
	"fmt"
	"testing"
)

// A pool of four workers and 16 tenants, and its tenants' names.
func benchmarkPool(b *testing.B) (*Pool, []string) {
	b.Helper()
	pool, err := NewPool(Options{MostTenants: 16, Room: 20_000})
	if err != nil {
		b.Fatal(err)
	}
	names := make([]string, 16)
	for i := range names {
		names[i] = fmt.Sprint("tenant ", i)
	}
	b.ReportAllocs()
	return pool, names
}

// A permit of a free worker, from its acquire to its release.
func BenchmarkAcquire(b *testing.B) {
	pool, names := benchmarkPool(b)
	for i := 0; i < b.N; i++ {
		permit, err := pool.Acquire(background, names[i%16], "")
		if err != nil {
			b.Fatal(err)
		}
		permit.Release()
	}
	pool.Close()
}

// An empty job, from its submit to its end, with up to 1,000 jobs that wait.
func BenchmarkGo(b *testing.B) {
	pool, names := benchmarkPool(b)
	ended := make(chan struct{}, 1000)
	for i := 0; i < b.N; i++ {
		if i >= cap(ended) {
			<-ended
		}
		if err := pool.Go(background, names[i%16], "", func(context.Context) { ended <- struct{}{} }); err != nil {
			b.Fatal(err)
		}
	}
	pool.Close()
}
