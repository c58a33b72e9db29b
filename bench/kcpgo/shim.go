// Beside kcp-go's kcp.go and snmp.go, which are copied here to build it: what they take from its other files, the flush that
// it keeps to itself, and a clock that the driver sets.
package kcpcore

import "sync"

// As in kcp-go's sess.go.
const mtuLimit = 1500

var xmitBuf = sync.Pool{New: func() interface{} { return make([]byte, mtuLimit) }}

// Now is the time in milliseconds.
var Now uint32

func currentMs() uint32 { return Now }

// Flush writes what is to be sent.
func (kcp *KCP) Flush() { kcp.flush(false) }

// Mss is the largest payload.
func (kcp *KCP) Mss() int { return int(kcp.mss) }

// Ticks of the processor, fenced.
func Ticks() uint64
