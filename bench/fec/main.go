// The codec of kcp-go's FEC beside bench/parity.c: 10 data shards of 1,402 bytes and two parity shards, encoded, and two data shards
// reconstructed. It needs Debian's golang-github-klauspost-reedsolomon-dev:
//
//	GO111MODULE=off GOPATH=/usr/share/gocode go run bench/fec/main.go
package main

import (
	"fmt"
	"math/rand"
	"time"

	"github.com/klauspost/reedsolomon"
)

const k, size, data = 10, 1402, 10 * 1400

func best(turn func()) float64 {
	least := time.Hour
	for i := 0; i < 20; i++ {
		start := time.Now()
		for j := 0; j < 1000; j++ {
			turn()
		}
		if took := time.Since(start); took < least {
			least = took
		}
	}
	return least.Seconds() / 1000
}

func say(name string, seconds float64) {
	fmt.Printf("%-22s %8.2f us a group  %8.1f MB/s\n", name, seconds*1e6, data/seconds/1e6)
}

func main() {
	codec, err := reedsolomon.New(k, 2, reedsolomon.WithMaxGoroutines(1))
	if err != nil {
		panic(err)
	}
	shards := make([][]byte, k+2)
	for i := range shards {
		shards[i] = make([]byte, size)
		rand.Read(shards[i])
	}
	say("encode", best(func() {
		if codec.Encode(shards) != nil {
			panic("encode")
		}
	}))
	first, second := shards[0], shards[1]
	say("reconstruct two", best(func() {
		shards[0], shards[1] = first[:0], second[:0]
		if codec.ReconstructData(shards) != nil {
			panic("reconstruct")
		}
	}))
}
