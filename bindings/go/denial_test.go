package denial

import (
	"bytes"
	"errors"
	"fmt"
	"runtime"
	"sync"
	"testing"
)

var (
	apex = []byte("\x01a\x00")
	name = []byte("\x01x\x01n\x01a\x00")
	nsec = []byte("\x01n\x01a\x00\x00\x2f\x00\x01\x00\x00\x07\x08\x00\x0b\x01a\x00\x00\x06\x40\x00\x00\x00\x00\x03")
	soa  = []byte("\x01a\x00\x00\x06\x00\x01\x00\x00\x0e\x10\x00\x1a\x01b\x00\x01c\x00" +
		"\x00\x00\x00\x01\x00\x00\x00\x02\x00\x00\x00\x03\x00\x00\x00\x04\x00\x00\x07\x08")
	zone = Zone{Apex: apex, Class: ClassIN, AssumeDNSKEY: true}
)

func TestFaults(t *testing.T) {
	_, err := NSECChain(zone, append(append([]byte{}, soa...), 0x40))
	var fault *Error
	if !errors.Is(err, ErrBadRecords) || errors.Is(err, ErrBadApex) || !errors.As(err, &fault) {
		t.Fatal(err)
	}
	if fault.Offset != len(soa) || err.Error() != "denial: malformed records at octet 39" {
		t.Error(fault.Offset, err)
	}
	_, _, err = JudgeNSEC(apex, name, 1, ClassIN, []byte{0x40})
	if !errors.Is(fmt.Errorf("in a program: %w", err), ErrBadRecords) || err.Error() != "denial: malformed records" {
		t.Error(err)
	}
	if judgement, _, err := JudgeNSEC(nil, name, 1, ClassIN, nsec); judgement != 0 || !errors.Is(err, ErrBadApex) {
		t.Error(judgement, err)
	}
	verdict, _, err := CheckNSEC(apex, nil, 1, ClassIN, nsec)
	if verdict != VerdictNotProven || !errors.Is(err, ErrBadName) {
		t.Error(verdict, err)
	}
	if _, err := NSEC3Chain(zone, Hashing{Salt: make([]byte, 256)}, soa); !errors.Is(err, ErrLongSalt) {
		t.Error(err)
	}
}

func TestNoRecords(t *testing.T) {
	for _, records := range [][]byte{nil, {}} {
		judgement, labels, err := JudgeNSEC(apex, name, 1, ClassIN, records)
		if judgement != NotProven || labels != 0 || err != nil {
			t.Error(judgement, labels, err)
		}
	}
	if _, err := NSECChain(zone, nil); !errors.Is(err, ErrNoSingleSOA) {
		t.Error(err)
	}
}

func TestRecords(t *testing.T) {
	chain := append(append([]byte{}, nsec...), nsec...)
	stop, count := errors.New("stop"), 0
	err := EachRecord(chain, func(record []byte) error {
		count++
		if !bytes.Equal(record, nsec) {
			t.Error(record)
		}
		return stop
	})
	if count != 1 || err != stop {
		t.Error(count, err)
	}
	for end := 1; end < len(nsec); end++ {
		err := EachRecord(nsec[:end], func([]byte) error { return nil })
		if !errors.Is(err, ErrBadRecords) {
			t.Error(end, err)
		}
	}
	long := append(bytes.Repeat([]byte{1, 'a'}, 127), 0)
	if length, err := NameLength(long); length != 255 || err != nil {
		t.Error(length, err)
	}
	for _, octets := range [][]byte{nil, {1}, {1, 'a'}, {0x40, 0}, append([]byte{1, 'a'}, long...)} {
		if _, err := NameLength(octets); !errors.Is(err, ErrBadName) {
			t.Error(octets, err)
		}
	}
}

// TestMemory makes calls in goroutines while memory is collected. Each has slices of its own, on its
// stack or in memory that ends with the call.
func TestMemory(t *testing.T) {
	wanted, err := NSECChain(zone, soa)
	if err != nil {
		t.Fatal(err)
	}
	var group sync.WaitGroup
	for worker := 0; worker < 8; worker++ {
		group.Add(1)
		go func() {
			defer group.Done()
			for round := 0; round < 200; round++ {
				own := Zone{Apex: append([]byte{}, apex...), Class: ClassIN, AssumeDNSKEY: true}
				chain, err := NSECChain(own, append([]byte{}, soa...))
				if err != nil || !bytes.Equal(chain, wanted) {
					t.Error(chain, err)
				}
				local := [...]byte{1, 'x', 1, 'n', 1, 'a', 0}
				judgement, labels, err := JudgeNSEC(apex, local[:], 1, ClassIN, append([]byte{}, nsec...))
				if judgement != NameError || labels != 2 || err != nil {
					t.Error(judgement, labels, err)
				}
				if round%50 == 0 {
					runtime.GC()
				}
			}
		}()
	}
	group.Wait()
}
