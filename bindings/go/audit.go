// Package simplexaudit calls the proved auditor of simplex_messages through cgo: it reads a stream of consensus messages and
// reports exactly the participants who signed two contradictory votes. It is an example, and has not every call of the header.
// The gate tests it if it finds `go` and `pkg-config`.
//
// pkg-config has to know the library, as `make install` provides it.
package simplexaudit

// #cgo pkg-config: simplex_audit
// #include <simplex_audit.h>
import "C"

import (
	"errors"
	"fmt"
	"unsafe"
)

// Why an audit has no report. ErrEmpty and ErrRepeated are ErrArguments, too.
var (
	ErrArguments = errors.New("simplexaudit: no committee")
	ErrEmpty     = fmt.Errorf("%w: it has no participant", ErrArguments)
	ErrRepeated  = fmt.Errorf("%w: a key stands twice", ErrArguments)
	ErrMemory    = errors.New("simplexaudit: out of memory")
)

// Report is what an audit found.
type Report struct {
	// Text has the lines of evidence, and then those of splits.
	Text string
	// Read, Evidence and Splits are the numbers of messages, of lines of evidence, and of lines of splits.
	Read, Evidence, Splits int
	// Fault is the offset of the first byte that starts no message, or -1.
	Fault int
}

// Version is that of the library's calls.
func Version() uint32 { return uint32(C.simplex_version()) }

// Quorum is how many of n participants are a quorum.
func Quorum(n uint32) uint32 { return uint32(C.simplex_quorum(C.uint32_t(n))) }

// AuditPlain audits a stream under the plain scheme, whose signatures are hashes that anyone can compute. One committee, of
// these keys, signs in every epoch. No key stands twice.
func AuditPlain(namespace []byte, keys [][32]byte, stream []byte) (Report, error) {
	joined := make([]byte, 0, 32*len(keys))
	for _, key := range keys {
		joined = append(joined, key[:]...)
	}
	sizes, epochs := [1]C.uint32_t{C.uint32_t(len(keys))}, [1]C.uint64_t{}
	const vote = 33
	report, err := audit(len(stream)/vote, func(text []byte, summary *C.struct_simplex_summary) C.uint32_t {
		return C.simplex_audit_plain(bytes(namespace), C.size_t(len(namespace)), &epochs[0], 0, &sizes[0], 1, bytes(joined),
			C.size_t(len(joined)), bytes(stream), C.size_t(len(stream)), bytes(text), C.size_t(len(text)), summary)
	})
	if err == ErrArguments {
		err = refused(C.simplex_refusal_plain(&epochs[0], 0, &sizes[0], 1, bytes(joined), C.size_t(len(joined))))
	}
	return report, err
}

// Audit audits a stream whose signatures have 64 bytes, as those of Ed25519, and behind each the caller's verdict: 1 if it is
// valid. One committee, of this number of participants, signs in every epoch.
func Audit(participants uint32, stream []byte) (Report, error) {
	sizes, epochs := [1]C.uint32_t{C.uint32_t(participants)}, [1]C.uint64_t{}
	const vote = 66
	report, err := audit(len(stream)/vote, func(text []byte, summary *C.struct_simplex_summary) C.uint32_t {
		return C.simplex_audit(64, &epochs[0], 0, &sizes[0], 1, bytes(stream), C.size_t(len(stream)), bytes(text),
			C.size_t(len(text)), summary)
	})
	if err == ErrArguments {
		err = refused(C.simplex_refusal(64, &epochs[0], 0, &sizes[0], 1))
	}
	return report, err
}

// The error that says why a committee is refused.
func refused(cause C.uint32_t) error {
	switch cause {
	case C.SIMPLEX_REFUSED_EMPTY:
		return ErrEmpty
	case C.SIMPLEX_REFUSED_REPEATED:
		return ErrRepeated
	case C.SIMPLEX_REFUSED_UNKNOWN:
		return ErrMemory
	default:
		return ErrArguments
	}
}

// The first of some bytes, which is there even if there are none.
func bytes(of []byte) *C.uint8_t {
	if len(of) == 0 {
		of = make([]byte, 1)
	}
	return (*C.uint8_t)(unsafe.Pointer(&of[0]))
}

// Calls with a buffer for the longest text that a stream of this many votes can have.
func audit(votes int, call func(text []byte, summary *C.struct_simplex_summary) C.uint32_t) (Report, error) {
	var summary C.struct_simplex_summary
	text := make([]byte, 200*votes)
	status := call(text, &summary)
	switch status {
	case C.SIMPLEX_WHOLE, C.SIMPLEX_FAULT:
	case C.SIMPLEX_MEMORY:
		return Report{}, ErrMemory
	default:
		return Report{}, ErrArguments
	}
	report := Report{string(text[:summary.length]), int(summary.read), int(summary.evidence), int(summary.splits), -1}
	if status == C.SIMPLEX_FAULT {
		report.Fault = int(summary.fault_place)
	}
	return report, nil
}
