// The way from one link to the other: the twin of wire.c.
package main

import (
	"encoding/binary"
	"fmt"
	"os"

	"kcpcore"
)

const (
	slot  = 1500
	slots = 8192
)

type queue struct {
	bytes []byte
	len   []uint16
	count int
}

type wire struct {
	onTime, late            queue
	discards                bool
	datagrams, bytes        uint64
	dropped                 uint64
	pushes, retransmissions uint64
	top                     uint32
}

var (
	wires          [2]wire
	lossy          bool
	countsSegments bool
	state          uint32
)

func fail(why string) {
	fmt.Fprintln(os.Stderr, "bench:", why)
	os.Exit(3)
}

func chance() uint32 {
	state ^= state << 13
	state ^= state >> 17
	state ^= state << 5
	return state
}

func (q *queue) make() {
	q.bytes = make([]byte, slot*slots)
	q.len = make([]uint16, slots)
}

func (w *wire) clear() {
	w.onTime.count, w.late.count, w.discards = 0, 0, false
	w.datagrams, w.bytes, w.dropped, w.pushes, w.retransmissions, w.top = 0, 0, 0, 0, 0, 0
}

func (w *wire) countSegments(d []byte) {
	for len(d) >= 24 {
		sn := binary.LittleEndian.Uint32(d[12:])
		if d[4] == 81 {
			w.pushes++
			if int32(sn-w.top) < 0 {
				w.retransmissions++
			} else {
				w.top = sn + 1
			}
		}
		d = d[24+binary.LittleEndian.Uint32(d[20:]):]
	}
	if len(d) != 0 {
		fail("a datagram on the wire has a tail")
	}
}

func (q *queue) put(d []byte) {
	if q.count == slots || len(d) > slot {
		fail("the wire is full")
	}
	copy(q.bytes[q.count*slot:], d)
	q.len[q.count] = uint16(len(d))
	q.count++
}

// put takes a datagram of a link: kcp-go's output function.
func (w *wire) put(buffer []byte, size int) {
	d := buffer[:size]
	w.datagrams++
	w.bytes += uint64(size)
	if countsSegments {
		w.countSegments(d)
	}
	if w.discards {
		return
	}
	if lossy {
		luck := chance() % 100
		if luck < 10 {
			w.dropped++
			return
		}
		if luck < 15 {
			w.late.put(d)
			return
		}
	}
	w.onTime.put(d)
}

// kcp-go may write while it takes in, so only what stood there at first is delivered.
func (q *queue) empty(to *kcpcore.KCP) {
	count := q.count
	for i := 0; i < count; i++ {
		takeIn(to, q.bytes[i*slot:i*slot+int(q.len[i])])
	}
	q.count = 0
}

func (w *wire) deliver(to *kcpcore.KCP) {
	w.onTime.empty(to)
	w.late.empty(to)
}
