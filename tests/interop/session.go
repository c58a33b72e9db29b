package main

import (
	"bytes"
	"flag"
	"fmt"
	"net"
	"os"
	"sync"
	"time"

	kcp "github.com/xtaci/kcp-go"
)

var (
	session = flag.Bool("session", false, "speak through a session of kcp-go, which has bytes and no messages")
	stream  = flag.Bool("stream", false, "the session's stream mode")
	fec     = flag.Int("fec", 0, "data shards of the session's FEC, with two parity shards; 0 for none")
	cipher  = flag.Bool("cipher", false, "encrypt the session by AES")
)

// heard is what a session has read.
type heard struct {
	sync.Mutex
	bytes []byte
	last  time.Time
}

func (h *heard) read(from *kcp.UDPSession) {
	buffer := make([]byte, 65536)
	for {
		n, err := from.Read(buffer)
		if err != nil {
			return
		}
		h.Lock()
		h.bytes = append(h.bytes, buffer[:n]...)
		h.last = time.Now()
		h.Unlock()
	}
}

// lines counts the lines heard, and says when the last bytes came.
func (h *heard) lines() (int, time.Time) {
	h.Lock()
	defer h.Unlock()
	return bytes.Count(h.bytes, []byte("\n")), h.last
}

func openSession() *kcp.UDPSession {
	to, err := net.ResolveUDPAddr("udp4", *peer)
	must(err, "--peer")
	udp, err := net.ListenUDP("udp4", &net.UDPAddr{Port: *port})
	must(err, "--port")
	var block kcp.BlockCrypt
	if *cipher {
		block, err = kcp.NewAESBlockCrypt(make([]byte, 32))
		must(err, "--cipher")
	}
	parity := 0
	if *fec > 0 {
		parity = 2
	}
	s, err := kcp.NewConn3(uint32(*conv), to, block, *fec, parity, udp)
	must(err, "session")
	s.SetMtu(*mtu)
	s.SetStreamMode(*stream)
	s.SetWindowSize(*sndWnd, *rcvWnd)
	s.SetNoDelay(*mode, *interval, *fast, 1-*polite)
	return s
}

// runSession writes the file as bytes, reads bytes, and ends once as many lines came as expected and no more come.
func runSession() {
	s := openSession()
	fmt.Printf("kcp-go: listens on port %d\n", *port)
	end := time.Now().Add(time.Duration(*seconds) * time.Second)
	h := &heard{last: time.Now()}
	go h.read(s)
	text, err := os.ReadFile(*sendFile)
	must(err, "--send")
	time.Sleep(time.Duration(*hold) * time.Millisecond)
	s.SetWriteDeadline(end)
	written := 0
	for _, line := range bytes.SplitAfter(text, []byte("\n")) {
		if n, err := s.Write(line); err == nil {
			written += n
		}
	}
	lines, last := h.lines()
	for time.Now().Before(end) && (lines < *expect || time.Since(last) < 2*quiet) {
		time.Sleep(50 * time.Millisecond)
		lines, last = h.lines()
	}
	must(os.WriteFile(*saveFile, h.bytes, 0o666), "--save")
	fmt.Printf("kcp-go: a session: %d of %d bytes written, %d of %d lines heard, %d bytes heard\n", written, len(text), lines, *expect,
		len(h.bytes))
	if written < len(text) || lines < *expect {
		must(fmt.Errorf("not complete after %d seconds", *seconds), "kcp-go")
	}
}
