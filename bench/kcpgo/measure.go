// Clocks, the worst single call and the heap: the twin of measure.c.
package main

import (
	"runtime"
	"syscall"
	"time"
	"unsafe"

	"kcpcore"
)

const (
	send = iota
	input
	flush
	receive
	calls

	repeats   = 7
	callsMost = 1 << 21
)

var (
	least  [calls][]uint32
	noted  [calls]int
	repeat = -1
)

func cpuNanoseconds() uint64 {
	var t syscall.Timespec
	const processCPUTime = 2
	syscall.RawSyscall(syscall.SYS_CLOCK_GETTIME, processCPUTime, uintptr(unsafe.Pointer(&t)), 0)
	return uint64(t.Sec)*1000000000 + uint64(t.Nsec)
}

func tickLength() float64 {
	start, first := time.Now(), kcpcore.Ticks()
	for time.Since(start) < 50*time.Millisecond {
	}
	return float64(time.Since(start)) / float64(kcpcore.Ticks()-first)
}

func startRepeat() {
	repeat++
	for kind := range least {
		noted[kind] = 0
		if repeat == 0 && timesCalls {
			least[kind] = make([]uint32, callsMost)
		}
	}
}

func noteCall(kind int, taken uint64) {
	i, t := noted[kind], uint32(taken)
	noted[kind]++
	if i >= callsMost {
		fail("too many calls: divide the workload")
	}
	if taken > 0xffffffff {
		t = 0xffffffff
	}
	if repeat == 0 || t < least[kind][i] {
		least[kind][i] = t
	}
}

func worstCall(kind int) (most uint32) {
	for _, t := range least[kind][:noted[kind]] {
		if t > most {
			most = t
		}
	}
	return most
}

// The heap in use beyond what the driver itself holds, after a collection.
var heapBase, heapMost uint64

func heapInUse() uint64 {
	var m runtime.MemStats
	runtime.GC()
	runtime.ReadMemStats(&m)
	return m.HeapAlloc
}

func sampleHeap() {
	if in := heapInUse(); in > heapBase+heapMost {
		heapMost = in - heapBase
	}
}
