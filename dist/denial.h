/*
 * Judges what the NSEC or NSEC3 records of a DNS message prove (RFC 4035, section 5.4; RFC 5155,
 * section 8), and makes the NSEC and NSEC3 chains of a zone (RFC 4034, section 4; RFC 5155, section
 * 7.1).
 *
 * A validator calls denial_judge_nsec or denial_judge_nsec3_alone. These judge a question as a whole,
 * with the wildcard, aliases and redirections. For data that were expanded from a wildcard, with NSEC3,
 * it calls denial_judge_nsec3_expansion_alone. denial_check_nsec and denial_check_nsec3_alone judge one
 * name and one type only. If you have the zone's NSEC3PARAM record, call denial_judge_nsec3,
 * denial_judge_nsec3_expansion and denial_check_nsec3. A signer calls denial_nsec_chain or
 * denial_nsec3_chain; if the latter returns DENIAL_COLLISION, denial_nsec3_collision names the names.
 *
 * Signatures. These functions verify no signature. Pass only records whose signatures you have verified
 * with the keys of the zone at the apex. The apex is the signer's name in these signatures. Leave out an
 * NSEC or NSEC3 record whose RRSIG has another number in its field Labels than its owner has labels (a
 * leading asterisk not counted): it was expanded from a wildcard, and would deny names that exist
 * (CVE-2017-15105). docs/reference/c.md goes through a call.
 *
 * Ownership. Each pointer is borrowed for the time of the call. The library keeps, writes and frees
 * nothing of what you pass, except that it writes the numbers at `labels` and `count`, the pointer at
 * `text`, and the octets at `chain`, `earlier` and `later`. It returns nothing that you must free.
 *
 * Pointers. Octets of length 0 may be null, and so may `labels`, `count`, `earlier` and `later`; no other
 * pointer may. `labels`, `count`, `chain`, `earlier` and `later` point to no octet that another pointer
 * reaches. No length may be over PTRDIFF_MAX. From a language other than C or C++, pass no null pointer
 * at all.
 *
 * Threads. There is no state: calls may run at the same time in any threads.
 */
#ifndef DENIAL_H
#define DENIAL_H

#include <stdbool.h>
#include <stddef.h>
#include <stdint.h>

#ifdef __cplusplus
extern "C" {
#endif

/* The version that this header belongs to, as denial_version gives it. */
#define DENIAL_VERSION 600

/*
 * What the functions denial_judge_* return: one of these, or a fault of `enum denial_answer`. Compare the
 * result with these names. None of them is 0, so do not use a result as a truth value.
 *
 * Some come "with labels": the function writes a number of labels. It stands for a name, which is made of
 * that many labels at the end of the name in the question.
 */
enum denial_judgement {
    /* The records do not prove what the zone says. Also: the NSEC3 record that matches the name is at a
     * zone cut and lists SOA, so it belongs to the child zone's apex (RFC 5155, section 8.9). Also: no
     * record of a zone has the type: 0, OPT, or 128 to 254, as AXFR (RFC 6895, section 3.1). */
    DENIAL_JUDGED_NOT_PROVEN = 32,

    /* The name is not at or below the apex. */
    DENIAL_JUDGED_OUTSIDE_ZONE = 33,

    /* The type is DS and the name is the apex: the parent zone has these records (RFC 4035, section
     * 2.4). This says nothing about the delegation. The root has no parent. */
    DENIAL_JUDGED_AT_PARENT = 34,

    /* The name is strictly below a zone cut, or is one and the type is not DS: the child zone answers
     * (RFC 1034, section 4.3.2). With the labels of the zone cut. */
    DENIAL_JUDGED_REFERRAL = 35,

    /* The name is strictly below an owner of a DNAME record, which leads to another name (RFC 6672,
     * section 3.2). With the labels of that owner. */
    DENIAL_JUDGED_REDIRECTED = 36,

    /* The name owns records of the type, or of any type if the type is ANY (255): nothing is denied. */
    DENIAL_JUDGED_EXISTS = 37,

    /* The type is DS, and the name is a zone cut that owns none: an unsigned delegation (RFC 4035,
     * section 5.2). */
    DENIAL_JUDGED_NO_DS = 38,

    /* The name owns a CNAME record, which answers instead of the type (RFC 1034, section 3.6.2). */
    DENIAL_JUDGED_ALIAS = 39,

    /* The name exists and owns no records of the type (NODATA; RFC 2308, section 2.2): it owns records
     * of other types, or is an empty non-terminal. */
    DENIAL_JUDGED_NO_DATA = 40,

    /* The name does not exist, and the wildcard below its closest encloser owns records of the type (of
     * any type for ANY), or is a zone cut and the type is not DS (RFC 4592, section 3.3). With the labels
     * of the closest encloser. */
    DENIAL_JUDGED_WILDCARD = 41,

    /* The name does not exist, and the wildcard below its closest encloser owns a CNAME record. With the
     * labels of the closest encloser. */
    DENIAL_JUDGED_WILDCARD_ALIAS = 42,

    /* The name does not exist, and the wildcard below its closest encloser exists but owns no records
     * of the type (RFC 4035, section 3.1.3.4). With the labels of the closest encloser. */
    DENIAL_JUDGED_WILDCARD_NO_DATA = 43,

    /* Neither the name nor the wildcard below its closest encloser exists (NXDOMAIN; RFC 2308, section
     * 2.1). With the labels of the closest encloser. */
    DENIAL_JUDGED_NAME_ERROR = 44,

    /* The name, a name above it, or the wildcard below its closest encloser may be an unsigned delegation
     * that the NSEC3 chain leaves out by opt-out (RFC 5155, section 6). This is neither a name error nor a
     * secure answer. With the labels of the closest encloser. NSEC3 only. */
    DENIAL_JUDGED_MAY_BE_UNSIGNED = 45,

    /* The name does not exist, and the records say nothing about the wildcard below its closest encloser.
     * This is no name error. Data that were expanded from that wildcard need it (RFC 4035, section
     * 5.3.4). With the labels of the closest encloser. The field Labels of the signatures of the data must
     * be the same number. */
    DENIAL_JUDGED_NO_CLOSER_NAME = 46,

    /* The records have more iterations than the limit. Nothing was hashed (RFC 9276, section 3.2). NSEC3
     * only. */
    DENIAL_JUDGED_TOO_MANY_ITERATIONS = 47,

    /* The signer says that the name does not exist: its record lists NXNAME, and neither the type nor CNAME
     * (RFC 9824, section 3). A response with it has no data; it says nothing about other names. */
    DENIAL_JUDGED_NXNAME = 50
};

/* What denial_nsec_chain and denial_nsec3_chain return if there is a chain. Otherwise they return a fault of
 * `enum denial_answer`. */
enum denial_chain {
    /* The chain was written. With the number of its octets. */
    DENIAL_CHAIN_MADE = 48
};

/* What denial_nsec3_collision returns if no two names of a chain have the same hash. If two have, it returns
 * DENIAL_COLLISION. Otherwise it returns another fault of `enum denial_answer`. */
enum denial_collision {
    /* No two names of the chain have the same hash. */
    DENIAL_NO_COLLISION = 49
};

/* What the functions denial_check_* return, and the faults of all functions. Verdicts are less than
 * DENIAL_FAULT. */
enum denial_answer {
    /* The records do not prove what the zone says. */
    DENIAL_NOT_PROVEN = 0,

    /* The name is not at or below the apex. */
    DENIAL_OUTSIDE_ZONE = 1,

    /* The name is strictly below a zone cut. Or it is one, and the type is neither listed there nor DS.
     * The child zone answers. */
    DENIAL_BELOW_DELEGATION = 2,

    /* The name owns records of the type. */
    DENIAL_HAS = 3,

    /* The name owns records, but none of the type. This does not prove no data if the name owns a CNAME
     * record, which answers instead of the type. Check the type CNAME (5) at the name too: DENIAL_HAS then
     * means an alias (RFC 6840, section 4.3). */
    DENIAL_NO_TYPE = 4,

    /* The name owns no records, but a name below it does: it is an empty non-terminal. For DNAME records
     * above it, see DENIAL_NO_NAME. */
    DENIAL_EMPTY_NAME = 5,

    /* The name, or a name above it, may be an unsigned delegation that the chain leaves out. With the
     * labels of the closest encloser. NSEC3 only. */
    DENIAL_OPT_OUT = 6,

    /* The name does not exist. With the labels of the closest encloser. A wildcard below the closest
     * encloser may still answer: check that name too. This does not prove a name error if the closest
     * encloser, or a name between it and the apex, owns a DNAME record, which redirects all names below it.
     * Check the type DNAME (39) at each of these: DENIAL_HAS then means a redirection (RFC 6840, section
     * 4.1). */
    DENIAL_NO_NAME = 7,

    /* The least number of a fault. */
    DENIAL_FAULT = 16,

    /* The octets of the apex do not encode a name. */
    DENIAL_BAD_APEX = 16,

    /* The octets of the name do not encode a name. */
    DENIAL_BAD_NAME = 17,

    /* The octets of the records are not a sequence of records. Or a record that is not skipped has data
     * that are not of its type. The functions of chains come with the offset of the first octet that
     * belongs to no record. */
    DENIAL_BAD_RECORDS = 18,

    /* The apex has no NSEC3PARAM record of the class, or several. NSEC3 only, and never from the functions
     * that end with _alone. */
    DENIAL_NO_PARAM = 19,

    /* The records have a hash algorithm other than SHA-1. NSEC3 only, and never from the functions that end
     * with _alone. */
    DENIAL_HASHER_REFUSED = 20,

    /* There is not enough memory. Never from denial_check_nsec. */
    DENIAL_OUT_OF_MEMORY = 21,

    /* A record has another class than `rclass`. With the offset of the first such record. This and all
     * following faults come from the functions of chains only. */
    DENIAL_OTHER_CLASS = 22,

    /* The apex does not own exactly one SOA record, or its data are too short for the field MINIMUM. */
    DENIAL_NO_SINGLE_SOA = 23,

    /* Two records of one owner of the chain and one type, other than RRSIG, have different TTLs (RFC 2181,
     * section 5.2). With the offset of the first record of that owner and type whose TTL is not that of the
     * records before it. If there are several such owners, it is the first one in canonical order; if there
     * are several types, the least one. */
    DENIAL_UNEQUAL_TTLS = 24,

    /* The buffer is too small. With the number of octets of the chain. */
    DENIAL_SHORT_BUFFER = 25,

    /* The salt has over 255 octets (RFC 5155, section 3.1.4). This and the two below: NSEC3 only. */
    DENIAL_LONG_SALT = 26,

    /* The owner of a hash, 33 octets and the apex, would be longer than a name may be. */
    DENIAL_LONG_OWNER = 27,

    /* Two names of the chain have the same hash (RFC 5155, section 7.1): use another salt.
     * denial_nsec3_collision returns the names. */
    DENIAL_COLLISION = 28
};

/* Returns the version of the library: 10000 * major + 100 * minor + patch. */
uint32_t denial_version(void);

/* The octets of each text, with the octet 0 at its end. */
#define DENIAL_TEXT_ROOM 32

/*
 * Sets `text` to the text of a number of the enums here, or to a text for unknown numbers. It has
 * DENIAL_TEXT_ROOM octets of ASCII, and those after the text are 0. They stay valid as long as the program
 * runs, and nothing writes to them. `text` must point to a pointer to at least as many octets, whatever they
 * are. From C, call denial_text.
 */
void denial_find_text(uint32_t number, const char **text);

/* Returns the text of a number, such as "name error" for DENIAL_JUDGED_NAME_ERROR. It stays valid as long as
 * the program runs. */
static inline const char *denial_text(uint32_t number)
{
    static const char none[DENIAL_TEXT_ROOM] = {0};
    const char *text = none;

    denial_find_text(number, &text);
    return text;
}

/*
 * Judges the question about a name and a type as a whole, by the NSEC records of a class.
 *
 *   apex, name   a name each, as in a message without compression (RFC 1035, section 3.1): labels, each
 *                after an octet with its length, and an octet 0. At most 255 octets. Letters may be in
 *                either case.
 *   rtype        the number of the type in the question.
 *   rclass       the number of the class: 1 for the Internet.
 *   records      a sequence of records in any order, each as in a message without compression (RFC 1035,
 *                section 4.1.3): owner, type, class, TTL, length of the data, data. Names in the data of
 *                NSEC records are not compressed either. Records of other types and classes are skipped,
 *                whatever their data: you may pass all records of a message. There may be none.
 *   labels       where to write the number of labels that the answer comes with, the root not counted. 0 if
 *                the answer comes with none.
 *
 * Returns a number of `enum denial_judgement`, or a fault of `enum denial_answer`: the one with the least
 * number, if there are several.
 *
 * NSEC records whose owner or next name is not at or below the apex are skipped. So are records that no zone
 * with the apex can have: the next name is neither after the owner nor the apex (RFC 4034, section 4.1.1), or
 * the record is from the apex of a child zone, with NS and SOA (RFC 6840, section 4.4). If several others
 * match a name, the first one counts. If none does, the first one that covers it counts. If the name does not
 * exist, the wildcard below its closest encloser is looked up in the same way.
 *
 * Allocates memory for the NSEC records by malloc and realloc, and frees it by free before it returns. Without
 * memory, DENIAL_OUT_OF_MEMORY may replace any result but DENIAL_BAD_APEX and DENIAL_BAD_NAME. Do not call it
 * from a signal handler, nor in the forked child of a process with threads.
 */
uint32_t denial_judge_nsec(const uint8_t *apex, size_t apex_length,
                           const uint8_t *name, size_t name_length,
                           uint16_t rtype, uint16_t rclass,
                           const uint8_t *records, size_t records_length,
                           size_t *labels);

/*
 * Judges the question about a name and a type as a whole, by the NSEC3 records of a class. Parameters and
 * results are those of denial_judge_nsec, except for these:
 *
 *   limit        the greatest number of iterations that is allowed. If the records have more, nothing is
 *                hashed, and the result is DENIAL_JUDGED_TOO_MANY_ITERATIONS (RFC 9276, section 3.2).
 *   records      they hold exactly one NSEC3PARAM record of the apex and the class. A response has none: for
 *                its records call denial_judge_nsec3_alone.
 *
 * NSEC3 records are skipped if their algorithm, iterations or salt differ from the NSEC3PARAM record, or if
 * their owner is not one label in Base 32 hex and the apex. NSEC3 and NSEC3PARAM records with a flag other
 * than opt-out are skipped too (RFC 5155, sections 4.1.2 and 8.2). Hashed are the name, each name above it
 * up to the first that a record matches, and the wildcard if it decides. A hash costs one digest, and one
 * for each iteration.
 *
 * Allocates memory as denial_judge_nsec does.
 */
uint32_t denial_judge_nsec3(const uint8_t *apex, size_t apex_length,
                            const uint8_t *name, size_t name_length,
                            uint16_t rtype, uint16_t rclass, uint16_t limit,
                            const uint8_t *records, size_t records_length,
                            size_t *labels);

/*
 * The same without an NSEC3PARAM record, as for a response: the algorithm, iterations and salt are those of
 * the first NSEC3 record. Parameters and results are those of denial_judge_nsec3, except for these:
 *
 *   records      records of type NSEC3PARAM are skipped, as all other types are. An NSEC3 record is skipped,
 *                and its parameters do not count, if its owner is not one label in Base 32 hex right before
 *                the apex, its algorithm is not SHA-1, or it has a flag other than opt-out (RFC 5155,
 *                sections 8.1 and 8.2). The parameters are those of the first record that is left. Records
 *                with other parameters are skipped too. If no record is left, nothing is proved.
 *
 * DENIAL_NO_PARAM and DENIAL_HASHER_REFUSED are never returned. Allocates memory as denial_judge_nsec does.
 */
uint32_t denial_judge_nsec3_alone(const uint8_t *apex, size_t apex_length,
                                  const uint8_t *name, size_t name_length,
                                  uint16_t rtype, uint16_t rclass, uint16_t limit,
                                  const uint8_t *records, size_t records_length,
                                  size_t *labels);

/*
 * Judges a name whose data were expanded from a wildcard, by the NSEC3 records of a class (RFC 5155, section
 * 8.8; RFC 4035, section 5.3.4). Such a response has no record of the closest encloser, so denial_judge_nsec3
 * returns DENIAL_JUDGED_NOT_PROVEN for it. The signatures of the data say what the closest encloser is.
 * Parameters are those of denial_judge_nsec3, except that there is no type, and instead:
 *
 *   rrsig_labels the field Labels of the signatures of the data (RFC 4034, section 3.1.3): the number of
 *                labels of the closest encloser. The data were expanded if it is less than the number of
 *                labels of their owner, a leading asterisk not counted. Verify these signatures first.
 *
 * Returns one of these, or a fault of `enum denial_answer`:
 *
 *   DENIAL_JUDGED_NO_CLOSER_NAME       a record covers the next closer name, the last rrsig_labels + 1
 *                                      labels of the name, and none matches it: the name does not exist, and
 *                                      the wildcard answers. With rrsig_labels.
 *   DENIAL_JUDGED_MAY_BE_UNSIGNED      the same, but the record has the opt-out flag: the name may be an
 *                                      unsigned delegation, or below one. With rrsig_labels.
 *   DENIAL_JUDGED_NOT_PROVEN           no record covers it, or one matches it. Or rrsig_labels is less than
 *                                      the labels of the apex, or not less than those of the name.
 *   DENIAL_JUDGED_OUTSIDE_ZONE         the name is not at or below the apex.
 *   DENIAL_JUDGED_TOO_MANY_ITERATIONS  the records have more iterations than the limit.
 *
 * Only the next closer name is hashed. The records that denial_judge_nsec3 skips are skipped. Allocates memory
 * as denial_judge_nsec does.
 */
uint32_t denial_judge_nsec3_expansion(const uint8_t *apex, size_t apex_length,
                                      const uint8_t *name, size_t name_length,
                                      uint8_t rrsig_labels, uint16_t rclass, uint16_t limit,
                                      const uint8_t *records, size_t records_length,
                                      size_t *labels);

/*
 * The same without an NSEC3PARAM record, as denial_judge_nsec3_alone is to denial_judge_nsec3.
 */
uint32_t denial_judge_nsec3_expansion_alone(const uint8_t *apex, size_t apex_length,
                                            const uint8_t *name, size_t name_length,
                                            uint8_t rrsig_labels, uint16_t rclass, uint16_t limit,
                                            const uint8_t *records, size_t records_length,
                                            size_t *labels);

/*
 * Checks what the NSEC records of a class prove about one name and one type. Allocates no memory. Parameters
 * are those of denial_judge_nsec. DENIAL_NO_NAME comes with the labels of the closest encloser.
 *
 * Returns a number of `enum denial_answer`: the fault with the least number, if there are several.
 *
 * NSEC records whose owner or next name is not at or below the apex are skipped. If several records match the
 * name, the first one counts. If none does, the first one that covers it counts.
 */
uint32_t denial_check_nsec(const uint8_t *apex, size_t apex_length,
                           const uint8_t *name, size_t name_length,
                           uint16_t rtype, uint16_t rclass,
                           const uint8_t *records, size_t records_length,
                           size_t *labels);

/*
 * Checks what the NSEC3 records of a class prove about one name and one type. Parameters and results are those
 * of denial_check_nsec. DENIAL_OPT_OUT comes with the labels of the closest encloser too. The records hold
 * exactly one NSEC3PARAM record of the apex and the class. The records that denial_judge_nsec3 skips are
 * skipped.
 *
 * Hashed are the name and each name above it up to the first that a record matches. There is no limit: reject
 * records with more iterations than you allow before the call (RFC 9276, section 3.2).
 *
 * Allocates memory as denial_judge_nsec does.
 */
uint32_t denial_check_nsec3(const uint8_t *apex, size_t apex_length,
                            const uint8_t *name, size_t name_length,
                            uint16_t rtype, uint16_t rclass,
                            const uint8_t *records, size_t records_length,
                            size_t *labels);

/*
 * The same without an NSEC3PARAM record, as denial_judge_nsec3_alone is to denial_judge_nsec3.
 */
uint32_t denial_check_nsec3_alone(const uint8_t *apex, size_t apex_length,
                                  const uint8_t *name, size_t name_length,
                                  uint16_t rtype, uint16_t rclass,
                                  const uint8_t *records, size_t records_length,
                                  size_t *labels);

/*
 * Writes the NSEC chain of a zone (RFC 4034, section 4; RFC 4035, section 2.3): one record for each owner that
 * is at or below the apex and not strictly below a zone cut. The records are in canonical order. Each names the
 * next owner, the last one names the apex. The TTL is the lesser of the SOA's MINIMUM and TTL (RFC 9077, section
 * 3.2). A record lists the types of its owner, at a zone cut only NS and DS of them, and RRSIG and NSEC.
 *
 *   apex         the apex of the zone, a name as in a message without compression.
 *   rclass       the number of the class of all records.
 *   assume_dnskey
 *                whether the apex lists DNSKEY in any case, because such records will be added.
 *   occlude_below_dname
 *                whether owners strictly below an owner of a DNAME record are left out too (RFC 6672, section
 *                2.4).
 *   records      the records of the zone in any order, each as in a message without compression (RFC 1035,
 *                section 4.1.3). Of equal records, whose data are equal octet for octet, the first one counts.
 *                Data are not read, except the last four octets of an SOA record, its MINIMUM. Records outside
 *                of the zone are skipped, but may still cause DENIAL_BAD_RECORDS and DENIAL_OTHER_CLASS.
 *   chain        a buffer for the records of the chain, in the same form. They are written to its beginning;
 *                the octets after them do not change. denial_each_record goes over them.
 *   count        where to write the number that the result comes with, or 0 if it comes with none.
 *
 * Returns DENIAL_CHAIN_MADE with the number of octets that were written, or a fault, which leaves the buffer as
 * it was. The faults, in the order in which they are reported:
 *
 *   DENIAL_BAD_APEX
 *   DENIAL_BAD_RECORDS, DENIAL_OTHER_CLASS   the one that comes first in the octets, with its offset.
 *   DENIAL_NO_SINGLE_SOA
 *   DENIAL_UNEQUAL_TTLS                      with the offset of a record that has another TTL than the
 *                                            records of its owner and type before it.
 *   DENIAL_SHORT_BUFFER                      with the number of octets of the chain. Pass a buffer of length 0
 *                                            to get that number.
 *
 * DENIAL_OUT_OF_MEMORY may replace the last three, and DENIAL_CHAIN_MADE. Allocates memory as denial_judge_nsec
 * does: 48 octets and more for each record, and the octets of the chain.
 */
uint32_t denial_nsec_chain(const uint8_t *apex, size_t apex_length,
                           uint16_t rclass, bool assume_dnskey, bool occlude_below_dname,
                           const uint8_t *records, size_t records_length,
                           uint8_t *chain, size_t chain_length,
                           size_t *count);

/*
 * Writes the NSEC3 chain of a zone (RFC 5155, section 7.1), in the order of hashes, and then its NSEC3PARAM
 * record. The chain has one NSEC3 record for the hash of each owner that denial_nsec_chain has a record for, and
 * of each empty non-terminal above it. It lists the types of the owner. Names are hashed by SHA-1. All records
 * are of the class Internet. The NSEC3 records have the TTL of an NSEC chain, the NSEC3PARAM record has that of
 * the SOA. Parameters and results are those of denial_nsec_chain, except for these:
 *
 *   iterations   the number of additional iterations. 0 is recommended (RFC 9276, section 3.1).
 *   salt         the octets of the salt. No salt is recommended.
 *   opt_out      whether delegations without DS are left out, and all NSEC3 records have the opt-out flag (RFC
 *                5155, section 6). The NSEC3PARAM record has flags 0, as a zone publishes it: name servers
 *                ignore one with other flags, and send no NSEC3 record (section 4.1.2).
 *
 * The faults, in the order in which they are reported: DENIAL_BAD_APEX; DENIAL_LONG_SALT; DENIAL_BAD_RECORDS or
 * DENIAL_OTHER_CLASS, the one that comes first in the octets; DENIAL_NO_SINGLE_SOA; DENIAL_UNEQUAL_TTLS;
 * DENIAL_LONG_OWNER; DENIAL_COLLISION; DENIAL_SHORT_BUFFER. DENIAL_OUT_OF_MEMORY may replace the last five,
 * and DENIAL_CHAIN_MADE. A call with a buffer of length 0 hashes all names too.
 */
uint32_t denial_nsec3_chain(const uint8_t *apex, size_t apex_length,
                            uint16_t rclass, bool assume_dnskey, bool occlude_below_dname,
                            uint16_t iterations, const uint8_t *salt, size_t salt_length, bool opt_out,
                            const uint8_t *records, size_t records_length,
                            uint8_t *chain, size_t chain_length,
                            size_t *count);

/* The greatest number of octets of a name (RFC 1035, section 2.3.4). */
#define DENIAL_NAME_ROOM 255

/*
 * Finds two names of the NSEC3 chain of a zone that have the same hash, so that denial_nsec3_chain returns
 * DENIAL_COLLISION. The names of the chain are its owners and the empty non-terminals above them. `later` is the
 * first one in canonical order that has the hash of a name before it. `earlier` is the first one with that hash.
 * Parameters are those of denial_nsec3_chain, except for these:
 *
 *   earlier, later
 *                a buffer of DENIAL_NAME_ROOM octets for each of the two names. A name is written to its
 *                beginning, as in a message without compression and in lower case; the octets after it do not
 *                change. Its last octet is the 0 of the root: denial_name_length returns its length. Either
 *                buffer may be null.
 *
 * There is no assume_dnskey, which does not change the names. Returns DENIAL_COLLISION with the names, or
 * DENIAL_NO_COLLISION, or a fault. The faults, in the order in which they are reported: DENIAL_BAD_APEX;
 * DENIAL_LONG_SALT; DENIAL_BAD_RECORDS or DENIAL_OTHER_CLASS, the one that comes first in the octets. SOA
 * records, TTLs and the length of hashed owners are not checked. DENIAL_OUT_OF_MEMORY may replace
 * DENIAL_COLLISION and DENIAL_NO_COLLISION. The buffers change only if names are returned.
 *
 * Allocates memory as denial_judge_nsec does: 48 octets and more for each record, and more for each name and its
 * hash.
 */
uint32_t denial_nsec3_collision(const uint8_t *apex, size_t apex_length,
                                uint16_t rclass, bool occlude_below_dname,
                                uint16_t iterations, const uint8_t *salt, size_t salt_length, bool opt_out,
                                const uint8_t *records, size_t records_length,
                                uint8_t *earlier, uint8_t *later);

/* Returns the number of octets of a name, from the octet at `name` to the 0 of the root. */
static inline size_t denial_name_length(const uint8_t *name)
{
    size_t at = 0;

    while (name[at] != 0)
        at += 1 + (size_t)name[at];
    return at + 1;
}

/*
 * Calls a function with each record of a chain that denial_nsec_chain or denial_nsec3_chain wrote, until it
 * returns something other than 0. Returns what the function returned last, or 0 if there are no records.
 * `context` is passed to the function.
 */
static inline int denial_each_record(const uint8_t *chain, size_t length,
                                     int (*emit)(void *context, const uint8_t *record, size_t length),
                                     void *context)
{
    size_t at = 0;
    int answer = 0;

    while (at < length && answer == 0) {
        size_t end = at;

        while (chain[end] != 0)
            end += 1 + (size_t)chain[end];
        end += 1 + 8;
        end += 2 + (((size_t)chain[end] << 8) | chain[end + 1]);
        answer = emit(context, chain + at, end - at);
        at = end;
    }
    return answer;
}

/*
 * The library itself accepts no null pointer. In C and C++ the calls above go through the functions below. They
 * replace a null pointer by a number or octets of their own. So octets of length 0 may be null, and so may
 * `labels`, `count`, `earlier` and `later`; nothing is written there then.
 */
static inline const uint8_t *denial_octets(const uint8_t *octets)
{
    static const uint8_t none[1] = {0};

    return octets != NULL ? octets : none;
}

static inline uint32_t denial_judge_nsec_or_null(const uint8_t *apex, size_t apex_length,
                                                 const uint8_t *name, size_t name_length,
                                                 uint16_t rtype, uint16_t rclass,
                                                 const uint8_t *records, size_t records_length,
                                                 size_t *labels)
{
    size_t number = 0;

    return denial_judge_nsec(denial_octets(apex), apex_length, denial_octets(name), name_length, rtype,
                             rclass, denial_octets(records), records_length,
                             labels != NULL ? labels : &number);
}

static inline uint32_t denial_judge_nsec3_or_null(const uint8_t *apex, size_t apex_length,
                                                  const uint8_t *name, size_t name_length,
                                                  uint16_t rtype, uint16_t rclass, uint16_t limit,
                                                  const uint8_t *records, size_t records_length,
                                                  size_t *labels)
{
    size_t number = 0;

    return denial_judge_nsec3(denial_octets(apex), apex_length, denial_octets(name), name_length, rtype,
                              rclass, limit, denial_octets(records), records_length,
                              labels != NULL ? labels : &number);
}

static inline uint32_t denial_judge_nsec3_alone_or_null(const uint8_t *apex, size_t apex_length,
                                                        const uint8_t *name, size_t name_length,
                                                        uint16_t rtype, uint16_t rclass, uint16_t limit,
                                                        const uint8_t *records, size_t records_length,
                                                        size_t *labels)
{
    size_t number = 0;

    return denial_judge_nsec3_alone(denial_octets(apex), apex_length, denial_octets(name), name_length,
                                    rtype, rclass, limit, denial_octets(records), records_length,
                                    labels != NULL ? labels : &number);
}

static inline uint32_t denial_judge_nsec3_expansion_or_null(const uint8_t *apex, size_t apex_length,
                                                            const uint8_t *name, size_t name_length,
                                                            uint8_t rrsig_labels, uint16_t rclass,
                                                            uint16_t limit, const uint8_t *records,
                                                            size_t records_length, size_t *labels)
{
    size_t number = 0;

    return denial_judge_nsec3_expansion(denial_octets(apex), apex_length, denial_octets(name),
                                        name_length, rrsig_labels, rclass, limit,
                                        denial_octets(records), records_length,
                                        labels != NULL ? labels : &number);
}

static inline uint32_t denial_judge_nsec3_expansion_alone_or_null(const uint8_t *apex,
                                                                  size_t apex_length,
                                                                  const uint8_t *name,
                                                                  size_t name_length,
                                                                  uint8_t rrsig_labels, uint16_t rclass,
                                                                  uint16_t limit,
                                                                  const uint8_t *records,
                                                                  size_t records_length, size_t *labels)
{
    size_t number = 0;

    return denial_judge_nsec3_expansion_alone(denial_octets(apex), apex_length, denial_octets(name),
                                              name_length, rrsig_labels, rclass, limit,
                                              denial_octets(records), records_length,
                                              labels != NULL ? labels : &number);
}

static inline uint32_t denial_check_nsec_or_null(const uint8_t *apex, size_t apex_length,
                                                 const uint8_t *name, size_t name_length,
                                                 uint16_t rtype, uint16_t rclass,
                                                 const uint8_t *records, size_t records_length,
                                                 size_t *labels)
{
    size_t number = 0;

    return denial_check_nsec(denial_octets(apex), apex_length, denial_octets(name), name_length, rtype,
                             rclass, denial_octets(records), records_length,
                             labels != NULL ? labels : &number);
}

static inline uint32_t denial_check_nsec3_or_null(const uint8_t *apex, size_t apex_length,
                                                  const uint8_t *name, size_t name_length,
                                                  uint16_t rtype, uint16_t rclass,
                                                  const uint8_t *records, size_t records_length,
                                                  size_t *labels)
{
    size_t number = 0;

    return denial_check_nsec3(denial_octets(apex), apex_length, denial_octets(name), name_length, rtype,
                              rclass, denial_octets(records), records_length,
                              labels != NULL ? labels : &number);
}

static inline uint32_t denial_check_nsec3_alone_or_null(const uint8_t *apex, size_t apex_length,
                                                        const uint8_t *name, size_t name_length,
                                                        uint16_t rtype, uint16_t rclass,
                                                        const uint8_t *records, size_t records_length,
                                                        size_t *labels)
{
    size_t number = 0;

    return denial_check_nsec3_alone(denial_octets(apex), apex_length, denial_octets(name), name_length,
                                    rtype, rclass, denial_octets(records), records_length,
                                    labels != NULL ? labels : &number);
}

static inline uint32_t denial_nsec_chain_or_null(const uint8_t *apex, size_t apex_length,
                                                 uint16_t rclass, bool assume_dnskey,
                                                 bool occlude_below_dname, const uint8_t *records,
                                                 size_t records_length, uint8_t *chain,
                                                 size_t chain_length, size_t *count)
{
    uint8_t octet = 0;
    size_t number = 0;

    return denial_nsec_chain(denial_octets(apex), apex_length, rclass, assume_dnskey,
                             occlude_below_dname, denial_octets(records), records_length,
                             chain != NULL ? chain : &octet, chain_length,
                             count != NULL ? count : &number);
}

static inline uint32_t denial_nsec3_chain_or_null(const uint8_t *apex, size_t apex_length,
                                                  uint16_t rclass, bool assume_dnskey,
                                                  bool occlude_below_dname, uint16_t iterations,
                                                  const uint8_t *salt, size_t salt_length, bool opt_out,
                                                  const uint8_t *records, size_t records_length,
                                                  uint8_t *chain, size_t chain_length, size_t *count)
{
    uint8_t octet = 0;
    size_t number = 0;

    return denial_nsec3_chain(denial_octets(apex), apex_length, rclass, assume_dnskey,
                              occlude_below_dname, iterations, denial_octets(salt), salt_length,
                              opt_out, denial_octets(records), records_length,
                              chain != NULL ? chain : &octet, chain_length,
                              count != NULL ? count : &number);
}

static inline uint32_t denial_nsec3_collision_or_null(const uint8_t *apex, size_t apex_length,
                                                      uint16_t rclass, bool occlude_below_dname,
                                                      uint16_t iterations, const uint8_t *salt,
                                                      size_t salt_length, bool opt_out,
                                                      const uint8_t *records, size_t records_length,
                                                      uint8_t *earlier, uint8_t *later)
{
    uint8_t first[DENIAL_NAME_ROOM] = {0};
    uint8_t second[DENIAL_NAME_ROOM] = {0};

    return denial_nsec3_collision(denial_octets(apex), apex_length, rclass, occlude_below_dname, iterations,
                                  denial_octets(salt), salt_length, opt_out, denial_octets(records),
                                  records_length, earlier != NULL ? earlier : first,
                                  later != NULL ? later : second);
}

#define denial_judge_nsec(...) denial_judge_nsec_or_null(__VA_ARGS__)
#define denial_judge_nsec3(...) denial_judge_nsec3_or_null(__VA_ARGS__)
#define denial_judge_nsec3_alone(...) denial_judge_nsec3_alone_or_null(__VA_ARGS__)
#define denial_judge_nsec3_expansion(...) denial_judge_nsec3_expansion_or_null(__VA_ARGS__)
#define denial_judge_nsec3_expansion_alone(...) denial_judge_nsec3_expansion_alone_or_null(__VA_ARGS__)
#define denial_check_nsec(...) denial_check_nsec_or_null(__VA_ARGS__)
#define denial_check_nsec3(...) denial_check_nsec3_or_null(__VA_ARGS__)
#define denial_check_nsec3_alone(...) denial_check_nsec3_alone_or_null(__VA_ARGS__)
#define denial_nsec_chain(...) denial_nsec_chain_or_null(__VA_ARGS__)
#define denial_nsec3_chain(...) denial_nsec3_chain_or_null(__VA_ARGS__)
#define denial_nsec3_collision(...) denial_nsec3_collision_or_null(__VA_ARGS__)

#ifdef __cplusplus
}
#endif

#endif
