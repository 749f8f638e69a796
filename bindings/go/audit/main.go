// Audits standard input under the plain scheme: `audit NAMESPACE KEY... < STREAM`. Each key has 64 hexadecimal digits. It ends
// with 0 if the whole stream was read, 1 at a fault, 2 if the arguments are invalid, and 3 if reading, writing or memory fails.
package main

import (
	"encoding/hex"
	"errors"
	"fmt"
	"io"
	"os"
	"simplexaudit"
)

func usage() int {
	fmt.Fprintln(os.Stderr, "usage: audit NAMESPACE KEY...")
	return 2
}

func run(words []string) int {
	if len(words) < 2 {
		return usage()
	}
	keys := make([][32]byte, len(words)-1)
	for i, word := range words[1:] {
		key, err := hex.DecodeString(word)
		if err != nil || copy(keys[i][:], key) != 32 || len(key) != 32 {
			return usage()
		}
	}
	stream, err := io.ReadAll(os.Stdin)
	if err != nil {
		fmt.Fprintln(os.Stderr, "audit: read failed")
		return 3
	}
	report, err := simplexaudit.AuditPlain([]byte(words[0]), keys, stream)
	if errors.Is(err, simplexaudit.ErrArguments) {
		return usage()
	}
	if err != nil {
		fmt.Fprintln(os.Stderr, "audit: out of memory")
		return 3
	}
	if _, err := os.Stdout.WriteString(report.Text); err != nil {
		fmt.Fprintln(os.Stderr, "audit: write failed")
		return 3
	}
	if report.Fault >= 0 {
		fmt.Fprintf(os.Stderr, "audit: fault at byte %d\n", report.Fault)
		return 1
	}
	return 0
}

func main() { os.Exit(run(os.Args[1:])) }
