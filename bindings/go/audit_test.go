package simplexaudit

import (
	"errors"
	"strings"
	"testing"
)

// A notarize in epoch 3 and view 10, on parent 5, with a valid verdict.
func notarize(signer, payload byte) []byte {
	message := append([]byte{0, 3, 10, 5}, strings.Repeat(string([]byte{payload}), 32)...)
	return append(append(append(message, signer), make([]byte, 64)...), 1)
}

func TestTwoVotes(t *testing.T) {
	stream := append(notarize(2, 6), notarize(2, 7)...)
	report, err := Audit(4, append(stream, 255))
	if err != nil || !strings.HasPrefix(report.Text, "3 10 2 conflicting-notarize 5 0606") {
		t.Fatal(report, err)
	}
	if report.Read != 2 || report.Evidence != 1 || report.Splits != 0 || report.Fault != len(stream) {
		t.Fatal(report)
	}
	if report, err := Audit(2, stream); err != nil || report.Evidence != 0 || report.Fault != -1 {
		t.Fatal(report, err)
	}
}

func TestRefused(t *testing.T) {
	if _, err := Audit(0, nil); !errors.Is(err, ErrEmpty) || !errors.Is(err, ErrArguments) {
		t.Fatal(err)
	}
	if _, err := AuditPlain(nil, make([][32]byte, 2), nil); !errors.Is(err, ErrRepeated) || !errors.Is(err, ErrArguments) {
		t.Fatal(err)
	}
	if report, err := AuditPlain(nil, make([][32]byte, 1), nil); err != nil || report.Read != 0 || report.Fault != -1 {
		t.Fatal(report, err)
	}
}

func TestNumbers(t *testing.T) {
	if Quorum(4) != 3 || Version() == 0 {
		t.Fatal(Quorum(4), Version())
	}
}
