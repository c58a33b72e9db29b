// The workloads over kcp-go's core type: the twin of bench.c.
package main

import (
	"bytes"
	"encoding/binary"
	"fmt"
	"os"
	"strconv"

	"kcpcore"
)

const (
	conv = 0x11223344
	full = -100
	none = -1
)

var (
	mtu int // of the workload
	timesCalls, checksBytes, samplesHeap bool
	divisor                              = uint32(1)
	firstState                           = uint32(0x9E3779B9)
	one, two                             *kcpcore.KCP
	now                                  uint32
	refused, started                     uint64
	message                              = make([]byte, 4096)
	buffer                               = make([]byte, 65536)
	push                                 [24 + 232]byte
)

// ---- calls, each timed where that is asked for

func sendOne(link *kcpcore.KCP, size int) (result int) {
	var start uint64
	if timesCalls {
		start = kcpcore.Ticks()
	}
	mss := link.Mss()
	if link.WaitSnd()+(size+mss-1)/mss > 128 {
		result = full
	} else {
		result = link.Send(message[:size])
	}
	if timesCalls {
		noteCall(send, kcpcore.Ticks()-start)
	}
	return result
}

func takeIn(link *kcpcore.KCP, datagram []byte) {
	var start uint64
	if timesCalls {
		start = kcpcore.Ticks()
	}
	result := link.Input(datagram, true, false)
	if timesCalls {
		noteCall(input, kcpcore.Ticks()-start)
	}
	if result < 0 {
		refused++
	}
}

func flushAt(link *kcpcore.KCP, at uint32) {
	kcpcore.Now = at
	var start uint64
	if timesCalls {
		start = kcpcore.Ticks()
	}
	link.Flush()
	if timesCalls {
		noteCall(flush, kcpcore.Ticks()-start)
	}
}

func receiveOne(link *kcpcore.KCP) int {
	var start uint64
	if timesCalls {
		start = kcpcore.Ticks()
	}
	result := link.Recv(buffer)
	if timesCalls {
		noteCall(receive, kcpcore.Ticks()-start)
	}
	return result
}

// ---- messages carry their number

func checkMessage(result, size int, number uint32) {
	if result != size || binary.LittleEndian.Uint32(buffer) != number || (checksBytes && !bytes.Equal(buffer[4:size], message[4:size])) {
		fail("a wrong message arrives")
	}
}

// ---- workloads: each gives the count of its messages

func bulk(count uint32, size int) uint32 {
	var sent, got, steps uint32
	for got < count {
		now += 10
		for i := 0; i < 32 && sent < count; i++ {
			binary.LittleEndian.PutUint32(message, sent)
			result := sendOne(one, size)
			if result == full {
				break
			}
			if result != 0 {
				fail("a send is refused")
			}
			sent++
		}
		flushAt(one, now)
		if samplesHeap && steps%1024 == 7 {
			sampleHeap()
		}
		wires[0].deliver(two)
		for result := receiveOne(two); result != none; result = receiveOne(two) {
			checkMessage(result, size, got)
			got++
		}
		flushAt(two, now)
		wires[1].deliver(one)
		if steps++; steps > 200*count+100000 {
			fail("there is no progress")
		}
	}
	return count
}

func oneWay(from, to *kcpcore.KCP, w *wire, number uint32) {
	binary.LittleEndian.PutUint32(message, number)
	if sendOne(from, 32) != 0 {
		fail("a send is refused")
	}
	flushAt(from, now)
	w.deliver(to)
	checkMessage(receiveOne(to), 32, number)
}

func pingPong(rounds uint32) uint32 {
	for i := uint32(0); i < rounds; i++ {
		now += 10
		oneWay(one, two, &wires[0], i)
		oneWay(two, one, &wires[1], i)
		if samplesHeap && i%16384 == 7 {
			sampleHeap()
		}
	}
	return 2 * rounds
}

func writePush(sn, ts uint32) {
	d := push[:]
	binary.LittleEndian.PutUint32(d, conv)
	d[4], d[5] = 81, 0
	binary.LittleEndian.PutUint16(d[6:], 128)
	binary.LittleEndian.PutUint32(d[8:], ts)
	binary.LittleEndian.PutUint32(d[12:], sn)
	binary.LittleEndian.PutUint32(d[16:], 0)
	binary.LittleEndian.PutUint32(d[20:], 232)
}

func fillReceiver() {
	times := timesCalls
	timesCalls = false
	wires[0].discards = true
	flushAt(one, 10)
	for sn := uint32(0); sn < 256; sn++ {
		writePush(sn, 0)
		takeIn(one, push[:])
	}
	flushAt(one, 10)
	timesCalls = times
	started = cpuNanoseconds()
}

func floodNumber() uint32 {
	luck := chance()
	value := luck >> 2
	if luck&3 < 2 {
		return value % 128
	}
	if luck&3 == 2 {
		return 128 + value%128
	}
	return 256 + value%0x3fffffff
}

func flood(count uint32, flushes bool) uint32 {
	fillReceiver()
	now = 10
	for i := uint32(0); i < count; i++ {
		writePush(floodNumber(), i)
		takeIn(one, push[:])
		if flushes && i%32 == 31 {
			now += 10
			flushAt(one, now)
		}
		if samplesHeap && i%16384 == 16383 {
			sampleHeap()
		}
	}
	return count
}

func idle(count uint32) uint32 {
	times := timesCalls
	timesCalls = false
	for i := 0; i < 32; i++ {
		if sendOne(one, 64) != 0 {
			fail("a send is refused")
		}
	}
	flushAt(one, 100)
	timesCalls = times
	before := wires[0].datagrams
	started = cpuNanoseconds()
	for i := uint32(0); i < count; i++ {
		flushAt(one, 101)
	}
	if wires[0].datagrams != before {
		fail("an idle flush writes")
	}
	return count
}

func work(name string) uint32 {
	switch name {
	case "W1":
		return bulk(1000000/divisor, 64)
	case "W2":
		return bulk(100000/divisor, 2000)
	case "W3":
		return pingPong(500000 / divisor)
	case "W4":
		return bulk(100000/divisor, 64)
	case "W5a":
		return flood(1000000/divisor, false)
	case "W5b":
		return flood(1000000/divisor, true)
	case "W6":
		return idle(1000000 / divisor)
	case "W7":
		return bulk(100000/divisor, 2000)
	}
	fail("no such workload")
	return 0
}

func open(w *wire) *kcpcore.KCP {
	link := kcpcore.NewKCP(conv, w.put)
	link.SetMtu(mtu)
	link.WndSize(32, 128)
	link.NoDelay(1, 10, 2, 1)
	return link
}

// One run over fresh links: the messages, and the processor time.
func run(name string) (count uint32, taken uint64) {
	state, now, refused, lossy = firstState, 0, 0, name == "W4"
	mtu = 256
	if name == "W7" {
		mtu = 1400
	}
	kcpcore.Now = 0
	for i := range wires {
		wires[i].clear()
	}
	one, two = open(&wires[0]), open(&wires[1])
	started = cpuNanoseconds()
	count = work(name)
	taken = cpuNanoseconds() - started
	if samplesHeap {
		sampleHeap()
	}
	return count, taken
}

func number(i int, value uint32) uint32 {
	if len(os.Args) <= i {
		return value
	}
	n, err := strconv.ParseUint(os.Args[i], 0, 32)
	if err != nil || n == 0 {
		fail("divisor and seed are 1 or more")
	}
	return uint32(n)
}

func main() {
	if len(os.Args) < 3 {
		fail("usage: bench W1|W2|W3|W4|W5a|W5b|W6 time|count|worst [DIVISOR [SEED]]")
	}
	timesCalls = os.Args[2] == "worst"
	countsSegments = os.Args[2] == "count"
	checksBytes, samplesHeap = countsSegments, countsSegments
	divisor, firstState = number(3, divisor), number(4, firstState)
	for i := range message {
		message[i] = byte(i*31 + 7)
	}
	for i := range wires {
		wires[i].onTime.make()
		wires[i].late.make()
	}
	heapBase = heapInUse()
	var count uint32
	var taken uint64
	rounds := 1
	if timesCalls {
		rounds = repeats
	}
	for i := 0; i < rounds; i++ {
		startRepeat()
		count, taken = run(os.Args[1])
	}
	fmt.Printf("{\"impl\":\"kcp-go\",\"messages\":%d,\"ns\":%.1f,\"datagrams\":%d,\"bytes\":%d,\"dropped\":%d,\"refused\":%d,\"pushes\":%d,\"retransmissions\":%d,\"heap\":%d",
		count, float64(taken)/float64(count), wires[0].datagrams+wires[1].datagrams, wires[0].bytes+wires[1].bytes, wires[0].dropped+wires[1].dropped,
		refused, wires[0].pushes+wires[1].pushes, wires[0].retransmissions+wires[1].retransmissions, heapMost)
	if timesCalls {
		length := tickLength()
		fmt.Printf(",\"worst\":{\"send\":%.0f,\"input\":%.0f,\"flush\":%.0f,\"receive\":%.0f}", float64(worstCall(send))*length,
			float64(worstCall(input))*length, float64(worstCall(flush))*length, float64(worstCall(receive))*length)
	}
	fmt.Println("}")
}
