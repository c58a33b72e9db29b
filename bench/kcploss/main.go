// Delivery under loss over kcp-go's core type: the twin of loss.c.
package main

import (
	"encoding/binary"
	"fmt"
	"os"
	"sort"
	"strconv"

	"kcpcore"
)

const (
	pace, flushEvery, delay, size = 20, 10, 20, 64
	slots                         = 128 // segments accepted and not acknowledged, as our own link has
)

type flying struct {
	bytes []byte
	at    uint32
}

var (
	ways        [2][]flying
	now         uint32
	lostPercent uint32
	datagrams   int
	state       uint32
)

func fail(why string) {
	fmt.Fprintln(os.Stderr, "loss:", why)
	os.Exit(3)
}

// chance is the generator of wire.c.
func chance() uint32 {
	state ^= state << 13
	state ^= state >> 17
	state ^= state << 5
	return state
}

func open(way, nodelay int) *kcpcore.KCP {
	link := kcpcore.NewKCP(0x11223344, func(buffer []byte, n int) {
		datagrams++
		if chance()%100 >= lostPercent {
			ways[way] = append(ways[way], flying{append([]byte(nil), buffer[:n]...), now + delay})
		}
	})
	link.SetMtu(256)
	link.WndSize(32, 128)
	link.NoDelay(nodelay, 10, 2, 1)
	return link
}

func arrive(way int, link *kcpcore.KCP) {
	for len(ways[way]) > 0 && ways[way][0].at <= now {
		datagram := ways[way][0].bytes
		ways[way] = ways[way][1:]
		if link.Input(datagram, true, false) != 0 {
			fail("an input is refused")
		}
	}
}

func run(one, two *kcpcore.KCP, count uint32) (taken []int) {
	message := make([]byte, size)
	sent := uint32(0)
	for now = 0; uint32(len(taken)) < count; now++ {
		kcpcore.Now = now
		for ; sent < count && sent*pace <= now && one.WaitSnd() < slots; sent++ {
			binary.LittleEndian.PutUint32(message, sent)
			if one.Send(message) != 0 {
				fail("a send is refused")
			}
		}
		if now%flushEvery == 0 {
			one.Flush()
			two.Flush()
		}
		arrive(0, two)
		arrive(1, one)
		for two.Recv(message) == size {
			got := uint32(len(taken))
			if binary.LittleEndian.Uint32(message) != got {
				fail("a wrong message arrives")
			}
			taken = append(taken, int(now-got*pace))
		}
		if now > 1000*count {
			fail("there is no progress")
		}
	}
	return taken
}

func argument(i int, value uint32) uint32 {
	if len(os.Args) <= i {
		return value
	}
	n, err := strconv.ParseUint(os.Args[i], 10, 32)
	if err != nil {
		fail("usage: loss PERCENT MODE [MESSAGES [SEED]]")
	}
	return uint32(n)
}

func main() {
	lostPercent = argument(1, 0)
	mode := int(argument(2, 1))
	count := argument(3, 20000)
	state = argument(4, 1)
	taken := run(open(0, mode), open(1, mode), count)
	sort.Ints(taken)
	n := len(taken)
	fmt.Printf("{\"impl\":\"kcp-go\",\"mode\":%d,\"loss\":%d,\"median\":%d,\"p99\":%d,\"most\":%d,\"datagrams\":%.3f}\n", mode, lostPercent,
		taken[n/2], taken[n-1-n/100], taken[n-1], float64(datagrams)/float64(n))
}
