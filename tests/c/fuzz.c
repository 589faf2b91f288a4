/*
 * Calls the library with mutated octets for a time.
 *
 *     fuzz SECONDS APEX FILE..
 *
 * The records of the files are the seeds, and their owners are the names that it asks for. First it
 * cuts each seed at each place. Then it changes, cuts, doubles and joins octets at random. The octets
 * that it passes end right before a page that cannot be read, so that a read past their end ends the
 * program. The status is 1 if one of these happens:
 *
 * - a result is no code of `denial.h`, or differs when the same call is made again;
 * - a closest encloser has more labels than the name;
 * - a verdict and a whole answer over the same octets do not agree on an error;
 * - a chain has another length than the one that was reported, or is written into less room.
 */
#include <stdio.h>
#include <stdlib.h>
#include <string.h>
#include <sys/mman.h>
#include <time.h>
#include <unistd.h>

#include <denial.h>
#include "input.h"

enum { SEEDS = 64, MOST = 1 << 16 };

/* Octets of which no more can be read. */
struct guarded {
    uint8_t *end;
    size_t room;
};

static struct octets {
    uint8_t at[MOST];
    size_t length;
} seeds[SEEDS], message, apex, name;

static size_t seed_count;
static struct guarded guards[4];
static unsigned long answers[64];
static uint32_t state = 2463534242u;

/* The next number of a fixed sequence, below a limit. */
static size_t below(size_t limit)
{
    state ^= state << 13;
    state ^= state >> 17;
    state ^= state << 5;
    return limit == 0 ? 0 : state % limit;
}

static void make_guard(struct guarded *guard)
{
    size_t page = (size_t)sysconf(_SC_PAGESIZE);
    uint8_t *start;

    guard->room = (MOST / page + 1) * page;
    start = mmap(NULL, guard->room + page, PROT_READ | PROT_WRITE, MAP_PRIVATE | MAP_ANONYMOUS, -1, 0);
    if (start == MAP_FAILED || mprotect(start + guard->room, page, PROT_NONE) != 0) {
        perror("fuzz");
        exit(1);
    }
    guard->end = start + guard->room;
}

static const uint8_t *place(const struct guarded *guard, const struct octets *octets)
{
    uint8_t *at = guard->end - octets->length;

    memcpy(at, octets->at, octets->length);
    return at;
}

static size_t count_labels(const struct octets *octets)
{
    size_t at = 0, count = 0;

    while (at < octets->length && octets->at[at] != 0) {
        at += octets->at[at] + 1u;
        count++;
    }
    return count;
}

/* The calls: of each chain that for a verdict, and that for a whole answer; that for an answer which
 * was expanded from a wildcard; and the three of NSEC3 that want no NSEC3PARAM record, which have the
 * numbers of those that do and ALONE. */
enum { IS_HASHED = 1, IS_JUDGED = 2, EXPANSION = 4, ALONE = 8, LIMIT = 20 };

static const int calls[] = {0, IS_HASHED, IS_JUDGED, IS_HASHED | IS_JUDGED, EXPANSION,
                            ALONE | IS_HASHED, ALONE | IS_HASHED | IS_JUDGED, ALONE | EXPANSION};

static int is_fault(uint32_t answer)
{
    return answer >= DENIAL_BAD_APEX && answer <= DENIAL_OUT_OF_MEMORY;
}

/* Whether it is an answer about a name that was expanded from a wildcard. */
static int is_expansion_answer(uint32_t answer)
{
    switch (answer) {
    case DENIAL_JUDGED_NOT_PROVEN:
    case DENIAL_JUDGED_OUTSIDE_ZONE:
    case DENIAL_JUDGED_MAY_BE_UNSIGNED:
    case DENIAL_JUDGED_NO_CLOSER_NAME:
    case DENIAL_JUDGED_TOO_MANY_ITERATIONS:
        return 1;
    default:
        return is_fault(answer);
    }
}

static int is_answer(uint32_t answer, int call)
{
    int is_hashed = (call & IS_HASHED) != 0;

    if (call & ALONE && (answer == DENIAL_NO_PARAM || answer == DENIAL_HASHER_REFUSED))
        return 0;
    if (call & EXPANSION)
        return is_expansion_answer(answer);
    if (is_fault(answer))
        return is_hashed || answer <= DENIAL_BAD_RECORDS;
    if (call & IS_JUDGED)
        return answer == DENIAL_JUDGED_NXNAME
               || (answer >= DENIAL_JUDGED_NOT_PROVEN && answer <= DENIAL_JUDGED_TOO_MANY_ITERATIONS
                   && (is_hashed
                       || (answer != DENIAL_JUDGED_MAY_BE_UNSIGNED && answer != DENIAL_JUDGED_TOO_MANY_ITERATIONS)));
    return answer <= DENIAL_NO_NAME && (is_hashed || answer != DENIAL_OPT_OUT);
}

/* What is passed as the field Labels, where other calls take a type. */
static uint8_t labels_of(uint16_t rtype)
{
    return (uint8_t)(rtype % 8);
}

static uint32_t ask_call(int call, uint16_t rtype, const uint8_t *at[3], size_t *labels)
{
    switch (call) {
    case 0:
        return denial_check_nsec(at[0], apex.length, at[1], name.length, rtype, 1, at[2], message.length, labels);
    case IS_HASHED:
        return denial_check_nsec3(at[0], apex.length, at[1], name.length, rtype, 1, at[2], message.length, labels);
    case IS_JUDGED:
        return denial_judge_nsec(at[0], apex.length, at[1], name.length, rtype, 1, at[2], message.length, labels);
    case EXPANSION:
        return denial_judge_nsec3_expansion(at[0], apex.length, at[1], name.length, labels_of(rtype), 1, LIMIT,
                                            at[2], message.length, labels);
    case ALONE | IS_HASHED:
        return denial_check_nsec3_alone(at[0], apex.length, at[1], name.length, rtype, 1, at[2], message.length,
                                        labels);
    case ALONE | IS_HASHED | IS_JUDGED:
        return denial_judge_nsec3_alone(at[0], apex.length, at[1], name.length, rtype, 1, LIMIT, at[2],
                                        message.length, labels);
    case ALONE | EXPANSION:
        return denial_judge_nsec3_expansion_alone(at[0], apex.length, at[1], name.length, labels_of(rtype), 1, LIMIT,
                                                  at[2], message.length, labels);
    default:
        return denial_judge_nsec3(at[0], apex.length, at[1], name.length, rtype, 1, LIMIT, at[2], message.length,
                                  labels);
    }
}

/* Compares a verdict and a whole answer: either both are the same fault or none is one. For a whole
 * answer other names may be hashed, or none, so that the hasher may refuse or not. Parameter records with
 * unknown flags count for a verdict only, so that one of the two may have none, or several. */
static void compare(uint32_t verdict, uint32_t judged)
{
    if (verdict == DENIAL_HASHER_REFUSED || judged == DENIAL_HASHER_REFUSED)
        return;
    if (verdict == DENIAL_NO_PARAM && !is_fault(judged))
        return;
    if (judged == DENIAL_NO_PARAM && !is_fault(verdict))
        return;
    if ((is_fault(verdict) || is_fault(judged)) && verdict != judged) {
        printf("differs: answers %u and %u\n", (unsigned)verdict, (unsigned)judged);
        exit(1);
    }
}

/* Asks each function, each twice. */
static void ask(uint16_t rtype)
{
    const uint8_t *at[3];
    uint32_t said[16] = {0};
    size_t i;

    at[0] = place(&guards[0], &apex);
    at[1] = place(&guards[1], &name);
    at[2] = place(&guards[2], &message);
    for (i = 0; i < sizeof calls / sizeof *calls; i++) {
        size_t labels = 999, again_labels = 999;
        int call = calls[i];
        uint32_t again;

        said[call] = ask_call(call, rtype, at, &labels);
        again = ask_call(call, rtype, at, &again_labels);
        if (!is_answer(said[call], call) || again != said[call] || again_labels != labels
            || labels > count_labels(&name) || (call & EXPANSION && labels > 0 && labels != labels_of(rtype))) {
            printf("differs: answer %u with %zu labels, and again %u with %zu\n", (unsigned)said[call], labels,
                   (unsigned)again, again_labels);
            exit(1);
        }
        answers[said[call]]++;
    }
    compare(said[0], said[IS_JUDGED]);
    compare(said[IS_HASHED], said[IS_HASHED | IS_JUDGED]);
    compare(said[IS_HASHED], said[EXPANSION]);
    compare(said[ALONE | IS_HASHED], said[ALONE | IS_HASHED | IS_JUDGED]);
    compare(said[ALONE | IS_HASHED], said[ALONE | EXPANSION]);
}

/* Makes a chain of the message into so much room, which ends before what can't be written. */
static uint32_t make(int is_hashed, unsigned options, const uint8_t *at[3], size_t room, size_t *count)
{
    uint8_t *chain = guards[3].end - room;
    bool assume = (options & 1) != 0, occlude = (options & 2) != 0, opt_out = (options & 4) != 0;

    if (is_hashed)
        return denial_nsec3_chain(at[0], apex.length, 1, assume, occlude, (uint16_t)(options / 8), at[1], name.length, opt_out, at[2],
                                  message.length, chain, room, count);
    return denial_nsec_chain(at[0], apex.length, 1, assume, occlude, at[2], message.length, chain, room, count);
}

/* Whether there may be no chain for this reason. */
static int is_chain_fault(int is_hashed, uint32_t answer)
{
    switch (answer) {
    case DENIAL_BAD_APEX:
    case DENIAL_BAD_RECORDS:
    case DENIAL_OTHER_CLASS:
    case DENIAL_NO_SINGLE_SOA:
    case DENIAL_UNEQUAL_TTLS:
        return 1;
    default:
        return is_hashed && (answer == DENIAL_LONG_SALT || answer == DENIAL_LONG_OWNER);
    }
}

/* Counts the octets of a record. */
static int count_octets(void *count, const uint8_t *record, size_t length)
{
    (void)record;
    *(size_t *)count += length;
    return 0;
}

/* Asks how much room a chain takes, and makes it with one octet less and with as many. The octets of the
 * name are the salt. */
static void make_chain(int is_hashed, const uint8_t *at[3])
{
    unsigned options = (unsigned)below(32);
    size_t wanted = 999, less = 999, count = 999, octets = 0;
    uint32_t said = make(is_hashed, options, at, 0, &wanted);

    answers[said]++;
    if (said == DENIAL_SHORT_BUFFER && wanted <= guards[3].room) {
        if (make(is_hashed, options, at, wanted - 1, &less) == DENIAL_SHORT_BUFFER && less == wanted
            && make(is_hashed, options, at, wanted, &count) == DENIAL_CHAIN_MADE && count == wanted
            && denial_each_record(guards[3].end - wanted, wanted, count_octets, &octets) == 0 && octets == wanted)
            return;
    } else if (said == DENIAL_SHORT_BUFFER || (is_chain_fault(is_hashed, said) && wanted <= message.length)) {
        return;
    }
    printf("differs: a chain: %u with %zu octets, %zu with one less, %zu written, %zu in records\n", (unsigned)said, wanted, less, count,
           octets);
    exit(1);
}

/* Asks which names of the NSEC3 chain hash alike: by SHA-1 none do, or what is passed has a fault that the
 * chain has too. The octets of the name are the salt. */
static void ask_collision(const uint8_t *at[3])
{
    uint8_t earlier[DENIAL_NAME_ROOM] = {0}, later[DENIAL_NAME_ROOM] = {0};
    uint32_t said = denial_nsec3_collision(at[0], apex.length, 1, below(2) == 0, (uint16_t)below(4), at[1], name.length, below(2) == 0,
                                           at[2], message.length, earlier, later);

    answers[said]++;
    if ((said == DENIAL_NO_COLLISION || is_chain_fault(IS_HASHED, said)) && earlier[0] == 0 && later[0] == 0)
        return;
    printf("differs: a collision: %u\n", (unsigned)said);
    exit(1);
}

/* Makes both chains of the message, and asks for names that hash alike. */
static void make_chains(void)
{
    const uint8_t *at[3];

    at[0] = place(&guards[0], &apex);
    at[1] = place(&guards[1], &name);
    at[2] = place(&guards[2], &message);
    make_chain(0, at);
    make_chain(IS_HASHED, at);
    ask_collision(at);
}

/* Takes the owner of a record of the seed for the name, with a label before it at times. */
static void pick_name(const struct octets *seed)
{
    size_t at = 0, skip = below(6), length, data;

    for (;;) {
        size_t end = at;

        while (seed->at[end] != 0)
            end += seed->at[end] + 1u;
        length = end + 1 - at;
        data = (size_t)seed->at[end + 9] << 8 | seed->at[end + 10];
        if (skip-- == 0 || end + 11 + data >= seed->length)
            break;
        at = end + 11 + data;
    }
    name.length = 0;
    if (below(2) == 0) {
        memcpy(name.at, "\001x", 2);
        name.length = 2;
    }
    memcpy(name.at + name.length, seed->at + at, length);
    name.length += length;
}

static void mutate(struct octets *octets)
{
    size_t at = below(octets->length), count = below(octets->length - at + 1);

    if (octets->length == 0)
        return;
    switch (below(6)) {
    case 0:
        octets->at[at] = (uint8_t)below(256);
        break;
    case 1:
        octets->at[at] ^= (uint8_t)(1u << below(8));
        break;
    case 2:
        octets->length = at;
        break;
    case 3:
        memmove(octets->at + at, octets->at + at + count, octets->length - at - count);
        octets->length -= count;
        break;
    case 4:
        if (octets->length + count < MOST) {
            memmove(octets->at + at + count, octets->at + at, octets->length - at);
            octets->length += count;
        }
        break;
    default:
        octets->at[at] = (uint8_t)(octets->at[at] + (below(2) == 0 ? 1 : 255));
        break;
    }
}

static void cut_everywhere(void)
{
    size_t seed, length;

    for (seed = 0; seed < seed_count; seed++) {
        message = seeds[seed];
        pick_name(&message);
        for (length = 0; length <= seeds[seed].length; length++) {
            message.length = length;
            ask(1);
            make_chains();
        }
    }
}

static void run(void)
{
    static struct octets kept;
    size_t changes = below(4);

    message = seeds[below(seed_count)];
    pick_name(&message);
    if (below(4) == 0 && message.length < MOST / 2) {
        const struct octets *other = &seeds[below(seed_count)];

        if (other->length < MOST / 2) {
            memcpy(message.at + message.length, other->at, other->length);
            message.length += other->length;
        }
    }
    while (changes-- > 0)
        mutate(&message);
    if (below(8) == 0)
        mutate(&name);
    kept = apex;
    if (below(16) == 0)
        mutate(&apex);
    ask((uint16_t)below(70));
    make_chains();
    apex = kept;
}

int main(int argc, char **argv)
{
    time_t end;
    unsigned long runs = 0;
    ldns_rdf *apex_name;
    int i;

    if (argc < 4) {
        fprintf(stderr, "usage: fuzz SECONDS APEX FILE..\n");
        return 2;
    }
    for (i = 0; i < 4; i++)
        make_guard(&guards[i]);
    apex_name = name_of(argv[2]);
    apex.length = ldns_rdf_size(apex_name);
    memcpy(apex.at, ldns_rdf_data(apex_name), apex.length);
    for (i = 3; i < argc && seed_count < SEEDS; i++) {
        struct input input = {ldns_buffer_new(65536), NULL, 0, 0, 0, 0, 0};

        read_file(&input, apex_name, argv[i]);
        if (ldns_buffer_position(input.records) > 0 && ldns_buffer_position(input.records) <= MOST) {
            seeds[seed_count].length = ldns_buffer_position(input.records);
            memcpy(seeds[seed_count].at, ldns_buffer_begin(input.records), seeds[seed_count].length);
            seed_count++;
        }
        ldns_rdf_deep_free(input.name);
        ldns_buffer_free(input.records);
    }
    ldns_rdf_deep_free(apex_name);
    cut_everywhere();
    for (end = time(NULL) + atoi(argv[1]); time(NULL) < end; runs++)
        run();
    printf("same: %lu runs with %zu seeds; answers:", runs, seed_count);
    for (i = 0; i < 64; i++)
        if (answers[i] > 0)
            printf(" %d %lu", i, answers[i]);
    puts("");
    return 0;
}
