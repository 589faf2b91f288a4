package denial

import (
	"bufio"
	"encoding/hex"
	"errors"
	"fmt"
	"os"
	"strconv"
	"strings"
	"testing"
)

// read returns the octets of an argument in Base 16.
func read(t *testing.T, word string) []byte {
	if word == "-" {
		return nil
	}
	octets, err := hex.DecodeString(word)
	if err != nil {
		t.Fatal(err)
	}
	return octets
}

// number returns a number of an argument.
func number(t *testing.T, word string, bits int) uint64 {
	number, err := strconv.ParseUint(word, 10, bits)
	if err != nil {
		t.Fatal(err)
	}
	return number
}

// hexed returns octets in Base 16.
func hexed(octets []byte) string {
	if len(octets) == 0 {
		return "-"
	}
	return hex.EncodeToString(octets)
}

// resultOfChain returns the result of a call that makes a chain.
func resultOfChain(t *testing.T, call string, words []string) (string, error) {
	class := uint16(number(t, words[1], 16))
	zone := Zone{read(t, words[0]), class, words[2] == "1", words[3] == "1"}
	records := read(t, words[len(words)-1])
	var made []byte
	var err error
	if call == "nsec_chain" {
		made, err = NSECChain(zone, records)
	} else {
		hashing := Hashing{uint16(number(t, words[4], 16)), read(t, words[5]), words[6] == "1"}
		made, err = NSEC3Chain(zone, hashing, records)
	}
	return "48 " + hexed(made), err
}

// resultOfCollision returns the result of the call that looks for names with the same hash.
func resultOfCollision(t *testing.T, words []string) (string, error) {
	zone := Zone{Apex: read(t, words[0]), Class: uint16(number(t, words[1], 16))}
	zone.OccludeBelowDNAME = words[2] == "1"
	hashing := Hashing{uint16(number(t, words[3], 16)), read(t, words[4]), words[5] == "1"}
	earlier, later, found, err := NSEC3Collision(zone, hashing, read(t, words[6]))
	if !found {
		return "49 0", err
	}
	return "28 " + hexed(earlier) + hexed(later), err
}

// resultOfCheck returns the result of a call that checks.
func resultOfCheck(t *testing.T, call string, words []string) (string, error) {
	calls := map[string]func([]byte, []byte, uint16, uint16, []byte) (Verdict, int, error){
		"check_nsec":        CheckNSEC,
		"check_nsec3":       CheckNSEC3,
		"check_nsec3_alone": CheckNSEC3Alone,
	}
	rtype, class := uint16(number(t, words[2], 16)), uint16(number(t, words[3], 16))
	verdict, labels, err := calls[call](read(t, words[0]), read(t, words[1]), rtype, class, read(t, words[4]))
	return fmt.Sprint(uint32(verdict), labels), err
}

// resultOfJudge returns the result of a call that judges.
func resultOfJudge(t *testing.T, call string, words []string) (string, error) {
	apex, name, class := read(t, words[0]), read(t, words[1]), uint16(number(t, words[3], 16))
	records := read(t, words[len(words)-1])
	var judgement Judgement
	var labels int
	var err error
	switch call {
	case "judge_nsec":
		judgement, labels, err = JudgeNSEC(apex, name, uint16(number(t, words[2], 16)), class, records)
	case "judge_nsec3", "judge_nsec3_alone":
		judge := JudgeNSEC3
		if call == "judge_nsec3_alone" {
			judge = JudgeNSEC3Alone
		}
		rtype, limit := uint16(number(t, words[2], 16)), uint16(number(t, words[4], 16))
		judgement, labels, err = judge(apex, name, rtype, class, limit, records)
	case "judge_nsec3_expansion", "judge_nsec3_expansion_alone":
		judge := JudgeNSEC3Expansion
		if call == "judge_nsec3_expansion_alone" {
			judge = JudgeNSEC3ExpansionAlone
		}
		rrsigLabels, limit := uint8(number(t, words[2], 8)), uint16(number(t, words[4], 16))
		judgement, labels, err = judge(apex, name, rrsigLabels, class, limit, records)
	default:
		t.Fatalf("no call is %s", call)
	}
	return fmt.Sprint(uint32(judgement), labels), err
}

// resultOf returns the result of a call, as the table has it.
func resultOf(t *testing.T, call string, words []string) (string, error) {
	switch {
	case call == "version":
		return fmt.Sprint(Version(), 0), nil
	case call == "text":
		code := uint32(number(t, words[0], 32))
		return words[0] + " " + hexed([]byte(Text(code))), nil
	case call == "name_length":
		length, err := NameLength(read(t, words[0]))
		return fmt.Sprint(length, 0), err
	case call == "each_record":
		lengths := []string{}
		err := EachRecord(read(t, words[0]), func(record []byte) error {
			lengths = append(lengths, strconv.Itoa(len(record)))
			return nil
		})
		if len(lengths) == 0 {
			return "0 -", err
		}
		return fmt.Sprint(len(lengths), " ", strings.Join(lengths, ",")), err
	case strings.HasSuffix(call, "_chain"):
		return resultOfChain(t, call, words)
	case call == "nsec3_collision":
		return resultOfCollision(t, words)
	case strings.HasPrefix(call, "check_"):
		return resultOfCheck(t, call, words)
	}
	return resultOfJudge(t, call, words)
}

// TestCases makes the calls of the table that DENIAL_CASES names, which tests/bindings/cases prints.
func TestCases(t *testing.T) {
	table, err := os.Open(os.Getenv("DENIAL_CASES"))
	if err != nil {
		t.Skip("DENIAL_CASES names no table")
	}
	defer table.Close()
	lines, count := bufio.NewScanner(table), 0
	lines.Buffer(make([]byte, 1<<20), 1<<20)
	for ; lines.Scan(); count++ {
		words := strings.Fields(lines.Text())
		wanted := words[len(words)-2:]
		said, err := resultOf(t, words[0], words[1:len(words)-2])
		var fault *Error
		if errors.As(err, &fault) {
			offset := fault.Offset
			if offset == NoOffset {
				offset = 0
			}
			said = fmt.Sprint(uint32(fault.Fault), offset)
			if wanted[1] == "?" {
				said = fmt.Sprint(uint32(fault.Fault), " ?")
			}
		}
		if said != strings.Join(wanted, " ") {
			t.Errorf("%.200s: %.100s", lines.Text(), said)
		}
	}
	if err := lines.Err(); err != nil {
		t.Error(err)
	}
	fmt.Printf("cases: %d\n", count)
}
