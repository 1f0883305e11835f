// Package twodfq shares the workers of a service fairly among its tenants (Two-Dimensional Fair Queuing, Mace and
// others, 2016), over the library for C, whose contracts are proved. This package is ordinary Go, and not proved.
//
// A service uses a Pool: it hands out permits to run requests, or runs jobs in goroutines, each in its tenant's turn.
// Package httpfair makes HTTP middleware of it. A service that keeps its own queue uses a Scheduler, under a lock.
//
// The package links the archive libtwodfq.a, which c/build makes in c/out/lib of its repository. For an archive in
// another folder set CGO_LDFLAGS=-L/that/folder.
//
// Moments and costs of a Scheduler are in microseconds. Its tenants, kinds, workers and requests are numbered from 0.
package twodfq
