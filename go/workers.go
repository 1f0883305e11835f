package twodfq

import "math/bits"

const wordBits = 64

// A set of workers, one bit for each, in as many words as there may be workers.
type workerSet []uint64

func newWorkerSet(mostWorkers int) workerSet {
	return make(workerSet, (mostWorkers+wordBits-1)/wordBits)
}

func (w workerSet) add(worker uint32)      { w[worker/wordBits] |= 1 << (worker % wordBits) }
func (w workerSet) has(worker uint32) bool { return w[worker/wordBits]>>(worker%wordBits)&1 == 1 }

func (w workerSet) remove(worker uint32) { w[worker/wordBits] &^= 1 << (worker % wordBits) }

// The members of a set of free workers that are below a bound.
type freeWorkers struct {
	set   workerSet
	bound int
}

// The members in a word of the set.
func (f freeWorkers) word(i int) uint64 {
	switch rest := f.bound - i*wordBits; {
	case rest <= 0:
		return 0
	case rest < wordBits:
		return f.set[i] & (1<<rest - 1)
	default:
		return f.set[i]
	}
}

func (f freeWorkers) isEmpty() bool { return f.lowest() < 0 }

func (f freeWorkers) len() (count int) {
	for i := range f.set {
		count += bits.OnesCount64(f.word(i))
	}
	return count
}

// The lowest member, or a number below 0.
func (f freeWorkers) lowest() int {
	for i := range f.set {
		if word := f.word(i); word != 0 {
			return i*wordBits + bits.TrailingZeros64(word)
		}
	}
	return -1
}

// The highest member, or a number below 0.
func (f freeWorkers) highest() int {
	for i := len(f.set) - 1; i >= 0; i-- {
		if word := f.word(i); word != 0 {
			return i*wordBits + bits.Len64(word) - 1
		}
	}
	return -1
}

// Makes the set that of the highest of these workers, at most so many. Returns the number of its members, and of those
// that it did not have before.
func (w workerSet) become(highest freeWorkers, most int) (members, added int) {
	for i := len(w) - 1; i >= 0; i-- {
		word := uint64(0)
		if members < most {
			word = highest.word(i)
		}
		for bits.OnesCount64(word) > most-members {
			word &= word - 1
		}
		members += bits.OnesCount64(word)
		added += bits.OnesCount64(word &^ w[i])
		w[i] = word
	}
	return members, added
}

// Workers one behind another. A worker is in the line at most once.
type line struct {
	next, before []uint32 // by worker, and itself where it is not in the line; last for the two ends of the line
}

func newLine(mostWorkers int) line {
	l := line{make([]uint32, mostWorkers+1), make([]uint32, mostWorkers+1)}
	for i := range l.next {
		l.next[i], l.before[i] = uint32(i), uint32(i)
	}
	return l
}

func (l *line) ends() uint32 { return uint32(len(l.next) - 1) }

// The first worker of the line, if there is any.
func (l *line) first() (worker uint32, ok bool) {
	worker = l.next[l.ends()]
	return worker, worker != l.ends()
}

// The worker goes to the end of the line.
func (l *line) join(worker uint32) { l.joinBefore(worker, l.ends()) }

// The worker goes to the place before another.
func (l *line) joinBefore(worker, other uint32) {
	l.leave(worker)
	before := l.before[other]
	l.next[before], l.before[worker], l.next[worker], l.before[other] = worker, before, other, worker
}

// The worker leaves the line, if it is there.
func (l *line) leave(worker uint32) {
	next, before := l.next[worker], l.before[worker]
	l.next[before], l.before[next] = next, before
	l.next[worker], l.before[worker] = worker, worker
}
