// Package denial judges what NSEC and NSEC3 records prove, and makes the chains of a zone. It calls
// libdenial, a library with proofs, by cgo.
//
// Names and records are octets in wire form without compression; records follow one another. denial.h
// documents each call and each code. A call reads the slices that it gets until it returns, and
// neither keeps them nor writes to them. It returns memory of Go.
//
// No signature is verified. Pass only records whose signatures you have verified.
package denial

// #cgo pkg-config: denial
// #include <denial.h>
import "C"

import (
	"math"
	"unsafe"
)

// ClassIN is the number of the class Internet.
const ClassIN = 1

// none is what a pointer to octets of length 0 points to: the library takes no null pointer.
var none [1]byte

// octets returns a pointer to octets, which is never nil, and their number. Octets hold no pointer of
// Go, so they may be passed to C, and Go does not move or free them before the call returns.
func octets(slice []byte) (*C.uint8_t, C.size_t) {
	if len(slice) == 0 {
		return (*C.uint8_t)(unsafe.Pointer(&none[0])), 0
	}
	return (*C.uint8_t)(unsafe.Pointer(&slice[0])), C.size_t(len(slice))
}

// Version returns the version of the library: 10000 * major + 100 * minor + patch.
func Version() uint32 {
	return uint32(C.denial_version())
}

// Text returns the text of a code of denial.h, such as "name error" for 44.
func Text(number uint32) string {
	return C.GoString(C.denial_text(C.uint32_t(number)))
}

// judged returns a judgement by its code.
func judged(number C.uint32_t, labels C.size_t) (Judgement, int, error) {
	known := number >= C.uint32_t(NotProven) && number <= C.uint32_t(TooManyIterations)
	if !known && number != C.uint32_t(NXName) {
		return 0, 0, &Error{Fault: Fault(number), Offset: NoOffset}
	}
	return Judgement(number), int(labels), nil
}

// checked returns a verdict by its code.
func checked(number C.uint32_t, labels C.size_t) (Verdict, int, error) {
	if number > C.uint32_t(NoName) {
		return VerdictNotProven, 0, &Error{Fault: Fault(number), Offset: NoOffset}
	}
	return Verdict(number), int(labels), nil
}

// JudgeNSEC returns the whole answer of NSEC records about a name and a type, and the labels that come
// with it, or 0.
func JudgeNSEC(apex, name []byte, rtype, class uint16, records []byte) (Judgement, int, error) {
	var labels C.size_t
	a, aLength := octets(apex)
	n, nLength := octets(name)
	r, rLength := octets(records)
	number := C.denial_judge_nsec(a, aLength, n, nLength, C.uint16_t(rtype), C.uint16_t(class),
		r, rLength, &labels)
	return judged(number, labels)
}

// JudgeNSEC3 returns the whole answer of NSEC3 records, with the one NSEC3PARAM record of the apex among
// them. With more iterations than limit, nothing is hashed.
func JudgeNSEC3(apex, name []byte, rtype, class, limit uint16, records []byte) (Judgement, int, error) {
	var labels C.size_t
	a, aLength := octets(apex)
	n, nLength := octets(name)
	r, rLength := octets(records)
	number := C.denial_judge_nsec3(a, aLength, n, nLength, C.uint16_t(rtype), C.uint16_t(class),
		C.uint16_t(limit), r, rLength, &labels)
	return judged(number, labels)
}

// JudgeNSEC3Alone is JudgeNSEC3 without an NSEC3PARAM record: the first NSEC3 record gives the
// parameters, as in a response.
func JudgeNSEC3Alone(apex, name []byte, rtype, class, limit uint16, records []byte) (Judgement, int, error) {
	var labels C.size_t
	a, aLength := octets(apex)
	n, nLength := octets(name)
	r, rLength := octets(records)
	number := C.denial_judge_nsec3_alone(a, aLength, n, nLength, C.uint16_t(rtype), C.uint16_t(class),
		C.uint16_t(limit), r, rLength, &labels)
	return judged(number, labels)
}

// JudgeNSEC3Expansion returns the whole answer of NSEC3 records about data that were expanded from a
// wildcard, with the one NSEC3PARAM record of the apex among them. rrsigLabels is the field Labels of
// the signatures of the data.
func JudgeNSEC3Expansion(apex, name []byte, rrsigLabels uint8, class, limit uint16, records []byte) (Judgement, int, error) {
	var labels C.size_t
	a, aLength := octets(apex)
	n, nLength := octets(name)
	r, rLength := octets(records)
	number := C.denial_judge_nsec3_expansion(a, aLength, n, nLength, C.uint8_t(rrsigLabels),
		C.uint16_t(class), C.uint16_t(limit), r, rLength, &labels)
	return judged(number, labels)
}

// JudgeNSEC3ExpansionAlone is JudgeNSEC3Expansion without an NSEC3PARAM record.
func JudgeNSEC3ExpansionAlone(apex, name []byte, rrsigLabels uint8, class, limit uint16, records []byte) (Judgement, int, error) {
	var labels C.size_t
	a, aLength := octets(apex)
	n, nLength := octets(name)
	r, rLength := octets(records)
	number := C.denial_judge_nsec3_expansion_alone(a, aLength, n, nLength, C.uint8_t(rrsigLabels),
		C.uint16_t(class), C.uint16_t(limit), r, rLength, &labels)
	return judged(number, labels)
}

// CheckNSEC returns what NSEC records prove of one name and one type, and the labels that come with it,
// or 0.
func CheckNSEC(apex, name []byte, rtype, class uint16, records []byte) (Verdict, int, error) {
	var labels C.size_t
	a, aLength := octets(apex)
	n, nLength := octets(name)
	r, rLength := octets(records)
	number := C.denial_check_nsec(a, aLength, n, nLength, C.uint16_t(rtype), C.uint16_t(class),
		r, rLength, &labels)
	return checked(number, labels)
}

// CheckNSEC3 returns what NSEC3 records prove of one name and one type, with the one NSEC3PARAM record of
// the apex among them.
func CheckNSEC3(apex, name []byte, rtype, class uint16, records []byte) (Verdict, int, error) {
	var labels C.size_t
	a, aLength := octets(apex)
	n, nLength := octets(name)
	r, rLength := octets(records)
	number := C.denial_check_nsec3(a, aLength, n, nLength, C.uint16_t(rtype), C.uint16_t(class),
		r, rLength, &labels)
	return checked(number, labels)
}

// CheckNSEC3Alone is CheckNSEC3 without an NSEC3PARAM record.
func CheckNSEC3Alone(apex, name []byte, rtype, class uint16, records []byte) (Verdict, int, error) {
	var labels C.size_t
	a, aLength := octets(apex)
	n, nLength := octets(name)
	r, rLength := octets(records)
	number := C.denial_check_nsec3_alone(a, aLength, n, nLength, C.uint16_t(rtype), C.uint16_t(class),
		r, rLength, &labels)
	return checked(number, labels)
}

// Zone is a zone, and what its chain lists and leaves out.
type Zone struct {
	// Apex is the name of the apex, and Class the number of the class of all records.
	Apex  []byte
	Class uint16
	// AssumeDNSKEY says whether the apex lists DNSKEY in any case.
	AssumeDNSKEY bool
	// OccludeBelowDNAME says whether names strictly below an owner of a DNAME record are left out.
	OccludeBelowDNAME bool
}

// Hashing says how names are hashed, and whether delegations without DS are left out.
type Hashing struct {
	Iterations uint16
	Salt       []byte
	OptOut     bool
}

// chain calls a function with a buffer, whose size the first call returns.
func chain(call func(*C.uint8_t, C.size_t, *C.size_t) C.uint32_t) ([]byte, error) {
	var room []byte
	for {
		var count C.size_t
		pointer, length := octets(room)
		number := call(pointer, length, &count)
		switch {
		case number == C.DENIAL_CHAIN_MADE:
			return room[:count:count], nil
		case number != C.DENIAL_SHORT_BUFFER:
			return nil, faultOfChain(Fault(number), count)
		case count > math.MaxInt || count <= length:
			return nil, &Error{Fault: ErrOutOfMemory, Offset: NoOffset}
		}
		room = make([]byte, count)
	}
}

// faultOfChain returns an error with its offset, if it comes with one.
func faultOfChain(fault Fault, count C.size_t) error {
	switch fault {
	case ErrBadRecords, ErrOtherClass, ErrUnequalTTLs:
		return &Error{Fault: fault, Offset: int(count)}
	}
	return &Error{Fault: fault, Offset: NoOffset}
}

// NSECChain returns the NSEC chain of a zone: its records one after another. The records of the zone may
// have any order.
func NSECChain(zone Zone, records []byte) ([]byte, error) {
	a, aLength := octets(zone.Apex)
	r, rLength := octets(records)
	return chain(func(room *C.uint8_t, length C.size_t, count *C.size_t) C.uint32_t {
		return C.denial_nsec_chain(a, aLength, C.uint16_t(zone.Class), C.bool(zone.AssumeDNSKEY),
			C.bool(zone.OccludeBelowDNAME), r, rLength, room, length, count)
	})
}

// NSEC3Chain returns the NSEC3 chain of a zone by SHA-1, and its NSEC3PARAM record after it.
func NSEC3Chain(zone Zone, hashing Hashing, records []byte) ([]byte, error) {
	a, aLength := octets(zone.Apex)
	s, sLength := octets(hashing.Salt)
	r, rLength := octets(records)
	return chain(func(room *C.uint8_t, length C.size_t, count *C.size_t) C.uint32_t {
		return C.denial_nsec3_chain(a, aLength, C.uint16_t(zone.Class), C.bool(zone.AssumeDNSKEY),
			C.bool(zone.OccludeBelowDNAME), C.uint16_t(hashing.Iterations), s, sLength,
			C.bool(hashing.OptOut), r, rLength, room, length, count)
	})
}

// NSEC3Collision returns two names with the same hash, for which a zone has no NSEC3 chain, and whether
// there are any. The names are in lower case, and the first one is earlier in canonical order.
func NSEC3Collision(zone Zone, hashing Hashing, records []byte) (earlier, later []byte, found bool, err error) {
	a, aLength := octets(zone.Apex)
	s, sLength := octets(hashing.Salt)
	r, rLength := octets(records)
	earlier, later = make([]byte, C.DENIAL_NAME_ROOM), make([]byte, C.DENIAL_NAME_ROOM)
	first, _ := octets(earlier)
	second, _ := octets(later)
	number := C.denial_nsec3_collision(a, aLength, C.uint16_t(zone.Class), C.bool(zone.OccludeBelowDNAME),
		C.uint16_t(hashing.Iterations), s, sLength, C.bool(hashing.OptOut), r, rLength, first, second)
	switch number {
	case C.DENIAL_COLLISION:
		return nameIn(earlier), nameIn(later), true, nil
	case C.DENIAL_NO_COLLISION:
		return nil, nil, false, nil
	}
	return nil, nil, false, &Error{Fault: Fault(number), Offset: NoOffset}
}
