// A station that speaks through kcp-go: its core type, whole messages, no encryption and no parity; or one of its sessions (session.go).
// It takes the same options as examples/udp/station, and does the same.
package main

import (
	"bytes"
	"flag"
	"fmt"
	"net"
	"os"
	"time"

	kcp "github.com/xtaci/kcp-go"
)

const quiet = time.Second // how long the other station must be silent at the end

var (
	port     = flag.Int("port", 0, "the port to listen on")
	peer     = flag.String("peer", "", "where the peer is, as 127.0.0.1:4000")
	sendFile = flag.String("send", "", "the messages to send, one a line")
	saveFile = flag.String("save", "", "write the messages that arrive, one a line")
	expect   = flag.Int("expect", 0, "end once so many messages arrived and its own are acknowledged")
	seconds  = flag.Int("seconds", 20, "give up after so many seconds")
	hold     = flag.Int("hold", 0, "wait so many milliseconds before the first message")
	conv     = flag.Uint("conv", 1, "conversation")
	mtu      = flag.Int("mtu", 256, "longest datagram")
	mode     = flag.Int("mode", 1, "kcp-go's nodelay: 0 or 1")
	interval = flag.Int("interval", 10, "milliseconds between flushes")
	fast     = flag.Int("threshold", 2, "skips before a fast retransmission, 0 for none")
	polite   = flag.Int("congestion", 0, "1: send no more than kcp-go's congestion window lets")
	sndWnd   = flag.Int("sndwnd", 32, "segments in flight")
	rcvWnd   = flag.Int("rcvwnd", 128, "segments that may wait to be read")
	slots    = flag.Int("slots", 128, "segments accepted and not acknowledged")
)

// must ends the program where something cannot be done.
func must(err error, what string) {
	if err != nil {
		fmt.Fprintf(os.Stderr, "peer: %s: %v\n", what, err)
		os.Exit(2)
	}
}

type station struct {
	kcp      *kcp.KCP
	udp      *net.UDPConn
	messages [][]byte
	heard    [][]byte
	sent     int
	refused  map[int]int // by kcp-go's answer
}

func open() *station {
	s := &station{refused: map[int]int{}}
	to, err := net.ResolveUDPAddr("udp4", *peer)
	must(err, "--peer")
	s.udp, err = net.ListenUDP("udp4", &net.UDPAddr{Port: *port})
	must(err, "--port")
	s.kcp = kcp.NewKCP(uint32(*conv), func(datagram []byte, size int) { s.udp.WriteToUDP(datagram[:size], to) })
	s.kcp.SetMtu(*mtu)
	s.kcp.WndSize(*sndWnd, *rcvWnd)
	s.kcp.NoDelay(*mode, *interval, *fast, 1-*polite)
	text, err := os.ReadFile(*sendFile)
	must(err, "--send")
	s.messages = bytes.Split(bytes.TrimSuffix(text, []byte("\n")), []byte("\n"))
	return s
}

// send gives the core as many messages as the send slots allow.
func (s *station) send() {
	mss := *mtu - 24
	for s.sent < len(s.messages) {
		message := s.messages[s.sent]
		if s.kcp.WaitSnd()+(len(message)+mss-1)/mss > *slots {
			return
		}
		if s.kcp.Send(message) != 0 {
			must(fmt.Errorf("a message of %d bytes", len(message)), "send")
		}
		s.sent++
	}
}

// takeIn waits for datagrams until the next flush is due, and says whether one came.
func (s *station) takeIn(until time.Time) (came bool) {
	datagram := make([]byte, 2048)
	s.udp.SetReadDeadline(until)
	for {
		size, _, err := s.udp.ReadFromUDP(datagram)
		if err != nil {
			return came
		}
		came = true
		if refused := s.kcp.Input(datagram[:size], true, false); refused != 0 {
			s.refused[refused]++
		}
	}
}

func (s *station) read() {
	for size := s.kcp.PeekSize(); size >= 0; size = s.kcp.PeekSize() {
		message := make([]byte, size)
		s.kcp.Recv(message)
		s.heard = append(s.heard, message)
	}
}

func (s *station) complete() bool {
	return s.sent == len(s.messages) && s.kcp.WaitSnd() == 0 && len(s.heard) >= *expect
}

func main() {
	flag.Parse()
	if *session {
		runSession()
		return
	}
	s := open()
	fmt.Printf("kcp-go: listens on port %d\n", *port)
	start := time.Now()
	last := start
	for time.Since(start) < time.Duration(*seconds)*time.Second && !(s.complete() && time.Since(last) > quiet) {
		if time.Since(start) >= time.Duration(*hold)*time.Millisecond {
			s.send()
		}
		s.kcp.Update()
		if s.takeIn(time.Now().Add(time.Duration(*interval) * time.Millisecond)) {
			last = time.Now()
		}
		s.read()
	}
	must(os.WriteFile(*saveFile, append(bytes.Join(s.heard, []byte("\n")), '\n'), 0o666), "--save")
	fmt.Printf("kcp-go: %d of %d messages sent, %d of %d heard, refused %v\n", s.sent, len(s.messages), len(s.heard), *expect, s.refused)
	if !s.complete() {
		must(fmt.Errorf("not complete after %d seconds", *seconds), "kcp-go")
	}
}
