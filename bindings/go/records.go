package denial

const (
	maxLabel = 63
	maxName  = 255
	// What is between the owner of a record and its data: type, class, TTL and length.
	fields = 10
)

// NameLength returns the number of octets of the name that octets begin with, or ErrBadName.
func NameLength(octets []byte) (int, error) {
	for at := 0; at < len(octets) && at < maxName; at += 1 + int(octets[at]) {
		if octets[at] == 0 {
			return at + 1, nil
		}
		if octets[at] > maxLabel {
			break
		}
	}
	return 0, &Error{Fault: ErrBadName, Offset: NoOffset}
}

// nameIn returns the name that a buffer of the library begins with.
func nameIn(buffer []byte) []byte {
	length, err := NameLength(buffer)
	if err != nil {
		return nil
	}
	return buffer[:length:length]
}

// EachRecord calls a function with each record of a chain, until it returns an error, and returns that
// error. A record is a part of the chain, not a copy. Octets that begin no record are ErrBadRecords.
func EachRecord(chain []byte, emit func(record []byte) error) error {
	for at := 0; at < len(chain); {
		end := recordEnd(chain[at:])
		if end == 0 {
			return &Error{Fault: ErrBadRecords, Offset: at}
		}
		if err := emit(chain[at : at+end : at+end]); err != nil {
			return err
		}
		at += end
	}
	return nil
}

// recordEnd returns the number of octets of the record that octets begin with, or 0.
func recordEnd(octets []byte) int {
	owner, err := NameLength(octets)
	data := owner + fields
	if err != nil || data > len(octets) {
		return 0
	}
	end := data + int(octets[data-2])<<8 + int(octets[data-1])
	if end > len(octets) {
		return 0
	}
	return end
}
