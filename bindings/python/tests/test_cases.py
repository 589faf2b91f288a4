"""Makes the calls of the table that DENIAL_CASES names, and compares the results.

tests/bindings/cases prints that table, and says what its lines are.
"""
import os
import unittest

from denial import Denial, Fault, each_record, name_length


def octets(word):
    """Returns the octets of an argument in Base 16."""
    return b"" if word == "-" else bytes.fromhex(word)


def result_of_chain(library, call, words):
    """Returns the result of a call that makes a chain."""
    apex, rclass, records = octets(words[0]), int(words[1]), octets(words[-1])
    flags = words[2] == "1", words[3] == "1"
    if call == "nsec_chain":
        chain = library.chain_nsec(apex, records, rclass, *flags)
    else:
        hashing = int(words[4]), octets(words[5]), words[6] == "1"
        chain = library.chain_nsec3(apex, records, rclass, *hashing, *flags)
    return f"48 {chain.hex() or '-'}"


def result_of_collision(library, words):
    """Returns the result of the call that looks for names with the same hash."""
    apex, rclass, records = octets(words[0]), int(words[1]), octets(words[6])
    hashing = int(words[3]), octets(words[4]), words[5] == "1"
    pair = library.collision_nsec3(apex, records, rclass, *hashing, words[2] == "1")
    return "49 0" if pair is None else f"28 {b''.join(pair).hex()}"


def result_of_question(library, call, words):
    """Returns the result of a call that judges or checks."""
    names, rtype, rclass = map(octets, words[:2]), int(words[2]), int(words[3])
    more = {"limit": int(words[4])} if call.startswith("judge_nsec3") else {}
    if "nsec3" in call:
        more["alone"] = call.endswith("_alone")
    function = getattr(library, call.replace("_alone", ""))
    answer = function(*names, rtype, octets(words[-1]), rclass, **more)
    return f"{int(answer.number)} {answer.labels}"


def result_of(library, call, words):
    """Returns the result of a call, as the table has it."""
    if call == "version":
        return f"{library.version()} 0"
    if call == "text":
        return f"{words[0]} {library.text(int(words[0])).encode().hex()}"
    if call == "name_length":
        return f"{name_length(octets(words[0]))} 0"
    if call == "each_record":
        lengths = [str(len(record)) for record in each_record(octets(words[0]))]
        return f"{len(lengths)} {','.join(lengths) or '-'}"
    if call.endswith("_chain"):
        return result_of_chain(library, call, words)
    if call == "nsec3_collision":
        return result_of_collision(library, words)
    return result_of_question(library, call, words)


class Cases(unittest.TestCase):
    """The table."""

    @unittest.skipUnless("DENIAL_CASES" in os.environ, "DENIAL_CASES names no table")
    def test_cases(self):
        """Makes each call, and prints how many there were."""
        library, count = Denial(), 0
        with open(os.environ["DENIAL_CASES"], encoding="ascii") as table:
            for line in table:
                call, *words, number, more = line.split()
                try:
                    result = result_of(library, call, words)
                except Fault as fault:
                    result = f"{int(fault.number)} {'?' if more == '?' else fault.offset or 0}"
                self.assertEqual(result, f"{number} {more}", line[:200])
                count += 1
        print(f"cases: {count}")


if __name__ == "__main__":
    unittest.main()
