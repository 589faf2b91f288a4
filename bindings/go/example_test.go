package denial_test

import (
	"errors"
	"fmt"

	"hidrezsol.example/denial"
)

func ExampleJudgeNSEC() {
	// The record "n.a. 1800 IN NSEC a. A RRSIG NSEC".
	nsec := []byte("\x01n\x01a\x00\x00\x2f\x00\x01\x00\x00\x07\x08\x00\x0b\x01a\x00\x00\x06\x40\x00\x00\x00\x00\x03")
	apex, name := []byte("\x01a\x00"), []byte("\x01x\x01n\x01a\x00")
	judgement, labels, err := denial.JudgeNSEC(apex, name, 1, denial.ClassIN, nsec)
	fmt.Println(judgement, labels, err)
	fmt.Println(judgement == denial.NameError)
	// Output:
	// name error 2 <nil>
	// true
}

func ExampleError() {
	zone := denial.Zone{Apex: []byte("\x01a\x00"), Class: denial.ClassIN}
	_, err := denial.NSECChain(zone, []byte("\x40"))
	var fault *denial.Error
	if errors.As(err, &fault) {
		fmt.Println(err, fault.Offset, errors.Is(err, denial.ErrBadRecords))
	}
	// Output:
	// denial: malformed records at octet 0 0 true
}
