package denial

import "strconv"

// Judgement is what the functions that judge return: the answer to a question as a whole.
type Judgement uint32

// The codes of enum denial_judgement. denial.h says which of them come with labels.
const (
	NotProven Judgement = iota + 32
	OutsideZone
	AtParent
	Referral
	Redirected
	Exists
	NoDS
	Alias
	NoData
	Wildcard
	WildcardAlias
	WildcardNoData
	NameError
	MayBeUnsigned
	NoCloserName
	TooManyIterations
)

// NXName is the code after those of enum denial_chain and enum denial_collision.
const NXName Judgement = 50

// String returns the text of a judgement.
func (judgement Judgement) String() string {
	return Text(uint32(judgement))
}

// Verdict is what the functions that check return: what records prove of one name and one type.
type Verdict uint32

// The codes of enum denial_answer that are no faults. OptOut and NoName come with labels.
const (
	VerdictNotProven Verdict = iota
	VerdictOutsideZone
	BelowDelegation
	Has
	NoType
	EmptyName
	OptOut
	NoName
)

// String returns the text of a verdict.
func (verdict Verdict) String() string {
	return Text(uint32(verdict))
}

// Fault is why there is no result. It is an error that errors.Is compares with.
type Fault uint32

// The faults of enum denial_answer.
const (
	ErrBadApex Fault = iota + 16
	ErrBadName
	ErrBadRecords
	ErrNoParam
	ErrHasherRefused
	ErrOutOfMemory
	ErrOtherClass
	ErrNoSingleSOA
	ErrUnequalTTLs
	ErrShortBuffer
	ErrLongSalt
	ErrLongOwner
	ErrCollision
)

// Error returns the text of a fault.
func (fault Fault) Error() string {
	return "denial: " + Text(uint32(fault))
}

// NoOffset is the offset of a fault that comes with none.
const NoOffset = -1

// Error is a fault, and the offset of the record that has it, or NoOffset. Only functions that make
// chains report an offset.
type Error struct {
	Fault  Fault
	Offset int
}

// Error returns the text of the fault, and its offset.
func (err *Error) Error() string {
	if err.Offset == NoOffset {
		return err.Fault.Error()
	}
	return err.Fault.Error() + " at octet " + strconv.Itoa(err.Offset)
}

// Unwrap returns the fault, so that errors.Is(err, ErrBadRecords) holds for a fault of records.
func (err *Error) Unwrap() error {
	return err.Fault
}
