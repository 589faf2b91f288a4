/*
 * Calls the library with small messages that are made by hand, and compares each result with the code
 * of `denial.h` that it must return: each verdict, each whole answer, each fault and each text, and
 * octets cut at each place. It needs no other library. Link it with
 * `-Wl,--wrap=malloc,--wrap=realloc`, so that allocations can fail.
 */
#include <stdio.h>
#include <stdlib.h>
#include <string.h>

#include <denial.h>

enum {
    A = 1, NS = 2, CNAME = 5, SOA = 6, MX = 15, DNAME = 39, OPT = 41, DS = 43, RRSIG = 46, NSEC = 47, NSEC3 = 50,
    NSEC3PARAM = 51, NXNAME = 128, AXFR = 252, ANY = 255
};
enum { IN = 1, CH = 3 };

static int failures;

/* During a call of the library: whether it is refused all memory, or the request for memory that is
 * refused, counted from 0; and how many it made. The compiler may not know that malloc reads them. */
static volatile int is_calling, memory_is_refused;
static volatile long refused_request = -1, requests;

void *__real_malloc(size_t size);
void *__real_realloc(void *block, size_t size);

static int is_refused(void)
{
    return is_calling && (requests++ == refused_request || memory_is_refused);
}

void *__wrap_malloc(size_t size)
{
    return is_refused() ? NULL : __real_malloc(size);
}

void *__wrap_realloc(void *block, size_t size)
{
    return is_refused() ? NULL : __real_realloc(block, size);
}

/* Octets that grow. */
struct octets {
    uint8_t at[4096];
    size_t length;
};

static void put(struct octets *to, const void *octets, size_t length)
{
    memcpy(to->at + to->length, octets, length);
    to->length += length;
}

static void put_number(struct octets *to, unsigned long number, int octets)
{
    while (octets-- > 0)
        to->at[to->length++] = (uint8_t)(number >> (8 * octets));
}

/* A name from its text: labels, each with a dot after it; "." is the root. */
static void put_name(struct octets *to, const char *text)
{
    while (*text != 0 && strcmp(text, ".") != 0) {
        size_t label = strcspn(text, ".");

        put_number(to, label, 1);
        put(to, text, label);
        text += label + 1;
    }
    put_number(to, 0, 1);
}

static void put_record(struct octets *to, const char *owner, int rtype, int rclass, const struct octets *data)
{
    put_name(to, owner);
    put_number(to, (unsigned long)rtype, 2);
    put_number(to, (unsigned long)rclass, 2);
    put_number(to, 1800, 4);
    put_number(to, data->length, 2);
    put(to, data->at, data->length);
}

/* A bitmap of types below 64, which a 0 ends. */
static void put_types(struct octets *to, const int *rtypes)
{
    uint8_t bits[32] = {0};
    size_t length = 0;

    if (*rtypes == 0)
        return;
    for (; *rtypes != 0; rtypes++) {
        bits[*rtypes / 8] |= (uint8_t)(0x80 >> (*rtypes % 8));
        length = (size_t)*rtypes / 8 + 1;
    }
    put_number(to, 0, 1);
    put_number(to, length, 1);
    put(to, bits, length);
}

static void put_nsec(struct octets *to, const char *owner, int rclass, const char *next, const int *rtypes)
{
    struct octets data = {{0}, 0};

    put_name(&data, next);
    put_types(&data, rtypes);
    put_record(to, owner, NSEC, rclass, &data);
}

/* The salt of the zone of RFC 5155, appendix A. */
static const char salt[] = "\252\273\314\335";

/* An NSEC3PARAM record with that salt. */
static void put_salted_param(struct octets *to, const char *owner, int iterations)
{
    struct octets data = {{0}, 0};

    put_number(&data, 1, 1);
    put_number(&data, 0, 1);
    put_number(&data, (unsigned long)iterations, 2);
    put_number(&data, 4, 1);
    put(&data, salt, 4);
    put_record(to, owner, NSEC3PARAM, IN, &data);
}

/* An NSEC3 record with that salt and 12 iterations, from the owner's hash to that of another name. */
static void put_salted_nsec3(struct octets *to, const char *owner, int flags, const char *next, const int *rtypes)
{
    struct octets data = {{0}, 0};

    put_number(&data, 1, 1);
    put_number(&data, (unsigned long)flags, 1);
    put_number(&data, 12, 2);
    put_number(&data, 4, 1);
    put(&data, salt, 4);
    put_number(&data, 20, 1);
    put(&data, next, 20);
    put_types(&data, rtypes);
    put_record(to, owner, NSEC3, IN, &data);
}

static void put_param_of(struct octets *to, const char *owner, int algorithm, int iterations)
{
    struct octets data = {{0}, 0};

    put_number(&data, (unsigned long)algorithm, 1);
    put_number(&data, 0, 1);
    put_number(&data, (unsigned long)iterations, 2);
    put_number(&data, 0, 1);
    put_record(to, owner, NSEC3PARAM, IN, &data);
}

static void put_flagged_param(struct octets *to, const char *owner, int flags)
{
    struct octets data = {{0}, 0};

    put_number(&data, 1, 1);
    put_number(&data, (unsigned long)flags, 1);
    put_number(&data, 0, 2);
    put_number(&data, 0, 1);
    put_record(to, owner, NSEC3PARAM, IN, &data);
}

static void put_param(struct octets *to, const char *owner, int algorithm)
{
    put_param_of(to, owner, algorithm, 0);
}

static void put_nsec3_of(struct octets *to, const char *owner, int algorithm, int flags, const char *next,
                         const int *rtypes)
{
    struct octets data = {{0}, 0};

    put_number(&data, (unsigned long)algorithm, 1);
    put_number(&data, (unsigned long)flags, 1);
    put_number(&data, 0, 2);
    put_number(&data, 0, 1);
    put_number(&data, 20, 1);
    put(&data, next, 20);
    put_types(&data, rtypes);
    put_record(to, owner, NSEC3, IN, &data);
}

static void put_nsec3(struct octets *to, const char *owner, int flags, const char *next, const int *rtypes)
{
    put_nsec3_of(to, owner, 1, flags, next, rtypes);
}

/* Compares an answer and its labels with those that must come. */
static void expect(const char *what, uint32_t answer, size_t labels, uint32_t wanted, size_t wanted_labels)
{
    if (answer == wanted && labels == wanted_labels)
        return;
    printf("differs: %s: %u with %zu labels, not %u with %zu\n", what, (unsigned)answer, labels,
           (unsigned)wanted, wanted_labels);
    failures++;
}

typedef uint32_t check(const uint8_t *, size_t, const uint8_t *, size_t, uint16_t, uint16_t,
                       const uint8_t *, size_t, size_t *);

/* The most iterations that judge_nsec3 and judge_expansion allow. */
static uint16_t limit;

static uint32_t judge_nsec3(const uint8_t *apex, size_t apex_length, const uint8_t *name, size_t name_length,
                            uint16_t rtype, uint16_t rclass, const uint8_t *records, size_t length, size_t *labels)
{
    return denial_judge_nsec3(apex, apex_length, name, name_length, rtype, rclass, limit, records, length, labels);
}

/* Asks of an answer expanded from a wildcard, whose signatures have the type that is asked for as their
 * field Labels. */
static uint32_t judge_expansion(const uint8_t *apex, size_t apex_length, const uint8_t *name, size_t name_length,
                                uint16_t rtype, uint16_t rclass, const uint8_t *records, size_t length,
                                size_t *labels)
{
    return denial_judge_nsec3_expansion(apex, apex_length, name, name_length, (uint8_t)rtype, rclass, limit, records,
                                        length, labels);
}

static uint32_t judge_alone(const uint8_t *apex, size_t apex_length, const uint8_t *name, size_t name_length,
                            uint16_t rtype, uint16_t rclass, const uint8_t *records, size_t length, size_t *labels)
{
    return denial_judge_nsec3_alone(apex, apex_length, name, name_length, rtype, rclass, limit, records, length,
                                    labels);
}

static uint32_t expansion_alone(const uint8_t *apex, size_t apex_length, const uint8_t *name, size_t name_length,
                                uint16_t rtype, uint16_t rclass, const uint8_t *records, size_t length,
                                size_t *labels)
{
    return denial_judge_nsec3_expansion_alone(apex, apex_length, name, name_length, (uint8_t)rtype, rclass, limit,
                                              records, length, labels);
}

/* Asks, with octets that lie in blocks of their own length. */
static uint32_t ask_octets(check *call, const struct octets *apex, const struct octets *name, int rtype,
                           const struct octets *records, size_t *labels)
{
    uint8_t *parts[3];
    uint32_t answer;

    parts[0] = malloc(apex->length + 1);
    parts[1] = malloc(name->length + 1);
    parts[2] = malloc(records->length + 1);
    memcpy(parts[0], apex->at, apex->length);
    memcpy(parts[1], name->at, name->length);
    memcpy(parts[2], records->at, records->length);
    *labels = 999;
    requests = 0;
    is_calling = 1;
    answer = call(parts[0], apex->length, parts[1], name->length, (uint16_t)rtype, IN, parts[2],
                  records->length, labels);
    is_calling = 0;
    free(parts[0]);
    free(parts[1]);
    free(parts[2]);
    return answer;
}

static void ask(check *call, const char *apex_text, const char *name_text, int rtype,
                const struct octets *records, uint32_t wanted, size_t wanted_labels)
{
    struct octets apex = {{0}, 0}, name = {{0}, 0};
    size_t labels;
    uint32_t answer;

    put_name(&apex, apex_text);
    put_name(&name, name_text);
    answer = ask_octets(call, &apex, &name, rtype, records, &labels);
    expect(name_text, answer, labels, wanted, wanted_labels);
}

static void refuse(check *call, const struct octets *apex, const struct octets *name, const struct octets *records,
                   uint32_t wanted)
{
    size_t labels;
    uint32_t answer = ask_octets(call, apex, name, A, records, &labels);

    expect("octets that are refused", answer, labels, wanted, 0);
}

static const int at_apex[] = {SOA, RRSIG, NSEC, 0}, at_host[] = {A, RRSIG, NSEC, 0},
                 at_cut[] = {NS, RRSIG, NSEC, 0}, at_child[] = {NS, SOA, RRSIG, NSEC, 0}, nothing[] = {0};

/* a. with y.b.a. and the delegation c.a., and a signature between them. */
static void put_chain(struct octets *to)
{
    struct octets signature = {{1, 2, 3}, 3};

    put_nsec(to, "a.", IN, "y.b.a.", at_apex);
    put_record(to, "a.", RRSIG, IN, &signature);
    put_nsec(to, "Y.b.a.", IN, "c.A.", at_host);
    put_nsec(to, "c.a.", IN, "a.", at_cut);
}

static void try_nsec_verdicts(void)
{
    struct octets chain = {{0}, 0}, other = {{0}, 0}, none = {{0}, 0};

    put_chain(&chain);
    ask(denial_check_nsec, "a.", "b.a.", A, &chain, DENIAL_EMPTY_NAME, 0);
    ask(denial_check_nsec, "a.", "c.a.", NS, &chain, DENIAL_HAS, 0);
    ask(denial_check_nsec, "a.", "c.a.", DS, &chain, DENIAL_NO_TYPE, 0);
    ask(denial_check_nsec, "a.", "c.a.", A, &chain, DENIAL_BELOW_DELEGATION, 0);
    ask(denial_check_nsec, "a.", "x.c.a.", A, &chain, DENIAL_BELOW_DELEGATION, 0);
    ask(denial_check_nsec, "A.", "y.B.a.", MX, &chain, DENIAL_NO_TYPE, 0);
    ask(denial_check_nsec, "a.", "d.a.", A, &chain, DENIAL_NO_NAME, 1);
    ask(denial_check_nsec, "a.", "x.b.a.", A, &chain, DENIAL_NO_NAME, 2);
    ask(denial_check_nsec, "a.", "q.x.y.b.a.", A, &chain, DENIAL_NO_NAME, 3);
    ask(denial_check_nsec, "a.", "b.", A, &chain, DENIAL_OUTSIDE_ZONE, 0);
    ask(denial_check_nsec, "a.", "a.", SOA, &none, DENIAL_NOT_PROVEN, 0);
    ask(denial_check_nsec, "a.", "b.", SOA, &none, DENIAL_OUTSIDE_ZONE, 0);
    ask(denial_check_nsec, ".", ".", SOA, &none, DENIAL_NOT_PROVEN, 0);
    put_nsec(&other, "a.", CH, "a.", at_apex);
    ask(denial_check_nsec, "a.", "a.", SOA, &other, DENIAL_NOT_PROVEN, 0);
    put_nsec(&other, "a.", IN, "a.", at_cut);
    ask(denial_check_nsec, "a.", "a.", SOA, &other, DENIAL_NO_TYPE, 0);
}

/* The hash of "a." by SHA-1 without salt or further iterations, as text. */
static const char apex_owner[] = "qj2k5gbslc63lg0qour6j95c8s2b6ueh.a.";

static void try_nsec3_verdicts(void)
{
    static const char low[20] = {0}, high[20] = "\377\377\377\377\377\377\377\377\377\377"
                                                "\377\377\377\377\377\377\377\377\377";
    static const char zero_owner[] = "00000000000000000000000000000000.a.";
    struct octets chain = {{0}, 0}, opted = {{0}, 0}, cut = {{0}, 0};

    put_param(&chain, "a.", 1);
    put_nsec3(&chain, apex_owner, 0, low, at_apex);
    ask(denial_check_nsec3, "a.", "a.", SOA, &chain, DENIAL_HAS, 0);
    ask(denial_check_nsec3, "a.", "a.", A, &chain, DENIAL_NO_TYPE, 0);
    ask(denial_check_nsec3, "a.", "b.", A, &chain, DENIAL_OUTSIDE_ZONE, 0);
    put_nsec3(&chain, zero_owner, 0, high, nothing);
    ask(denial_check_nsec3, "a.", "x.a.", A, &chain, DENIAL_NO_NAME, 1);
    ask(denial_check_nsec3, "a.", "x.y.a.", A, &chain, DENIAL_NO_NAME, 1);
    put_param(&opted, "A.", 1);
    put_nsec3(&opted, apex_owner, 0, low, nothing);
    put_nsec3(&opted, zero_owner, 1, high, nothing);
    ask(denial_check_nsec3, "a.", "x.a.", A, &opted, DENIAL_OPT_OUT, 1);
    ask(denial_check_nsec3, "a.", "a.", A, &opted, DENIAL_EMPTY_NAME, 0);
    put_param(&cut, ".", 1);
    put_nsec3(&cut, "qj2k5gbslc63lg0qour6j95c8s2b6ueh.", 0, low, at_cut);
    ask(denial_check_nsec3, ".", "x.a.", A, &cut, DENIAL_BELOW_DELEGATION, 0);
    ask(denial_check_nsec3, ".", "b.", A, &cut, DENIAL_NOT_PROVEN, 0);
}

static const int at_alias[] = {CNAME, RRSIG, NSEC, 0}, at_dname[] = {DNAME, RRSIG, NSEC, 0},
                 at_signed_cut[] = {NS, DS, RRSIG, NSEC, 0}, at_no_name[] = {RRSIG, NSEC, NXNAME, 0};

/* Each whole answer that NSEC records give, over a whole chain. */
static void try_nsec_answers(void)
{
    struct octets chain = {{0}, 0}, part = {{0}, 0}, none = {{0}, 0}, other = {{0}, 0}, compact = {{0}, 0};
    struct octets foreign = {{0}, 0};

    put_nsec(&chain, "a.", IN, "alias.a.", at_apex);
    put_nsec(&chain, "alias.a.", IN, "*.c.a.", at_alias);
    put_nsec(&chain, "*.c.a.", IN, "cut.a.", at_alias);
    put_nsec(&chain, "cut.a.", IN, "d.a.", at_cut);
    put_nsec(&chain, "d.a.", IN, "*.n.a.", at_dname);
    put_nsec(&chain, "*.n.a.", IN, "sec.a.", at_host);
    put_nsec(&chain, "sec.a.", IN, "y.z.a.", at_signed_cut);
    put_nsec(&chain, "y.z.a.", IN, "a.", at_host);
    ask(denial_judge_nsec, "a.", "b.", A, &chain, DENIAL_JUDGED_OUTSIDE_ZONE, 0);
    ask(denial_judge_nsec, "a.", "a.", DS, &chain, DENIAL_JUDGED_AT_PARENT, 0);
    ask(denial_judge_nsec, "a.", "a.", SOA, &chain, DENIAL_JUDGED_EXISTS, 0);
    ask(denial_judge_nsec, "A.", "A.", MX, &chain, DENIAL_JUDGED_NO_DATA, 0);
    ask(denial_judge_nsec, "a.", "z.a.", A, &chain, DENIAL_JUDGED_NO_DATA, 0);
    ask(denial_judge_nsec, "a.", "alias.a.", A, &chain, DENIAL_JUDGED_ALIAS, 0);
    ask(denial_judge_nsec, "a.", "alias.a.", CNAME, &chain, DENIAL_JUDGED_EXISTS, 0);
    ask(denial_judge_nsec, "a.", "cut.a.", A, &chain, DENIAL_JUDGED_REFERRAL, 2);
    ask(denial_judge_nsec, "a.", "x.y.cut.a.", DS, &chain, DENIAL_JUDGED_REFERRAL, 2);
    ask(denial_judge_nsec, "a.", "cut.a.", DS, &chain, DENIAL_JUDGED_NO_DS, 0);
    ask(denial_judge_nsec, "a.", "sec.a.", DS, &chain, DENIAL_JUDGED_EXISTS, 0);
    ask(denial_judge_nsec, "a.", "x.d.a.", A, &chain, DENIAL_JUDGED_REDIRECTED, 2);
    ask(denial_judge_nsec, "a.", "d.a.", A, &chain, DENIAL_JUDGED_NO_DATA, 0);
    ask(denial_judge_nsec, "a.", "x.y.n.a.", A, &chain, DENIAL_JUDGED_WILDCARD, 2);
    ask(denial_judge_nsec, "a.", "x.n.a.", MX, &chain, DENIAL_JUDGED_WILDCARD_NO_DATA, 2);
    ask(denial_judge_nsec, "a.", "x.c.a.", MX, &chain, DENIAL_JUDGED_WILDCARD_ALIAS, 2);
    ask(denial_judge_nsec, "a.", "q.a.", A, &chain, DENIAL_JUDGED_NAME_ERROR, 1);
    ask(denial_judge_nsec, "a.", "x.z.a.", A, &chain, DENIAL_JUDGED_NAME_ERROR, 2);
    ask(denial_judge_nsec, "a.", "x.y.z.a.", A, &chain, DENIAL_JUDGED_NAME_ERROR, 3);
    put_nsec(&part, "sec.a.", IN, "y.z.a.", at_signed_cut);
    ask(denial_judge_nsec, "a.", "t.a.", A, &part, DENIAL_JUDGED_NO_CLOSER_NAME, 1);
    ask(denial_judge_nsec, "a.", "b.a.", A, &part, DENIAL_JUDGED_NOT_PROVEN, 0);
    ask(denial_judge_nsec, "a.", "a.", SOA, &none, DENIAL_JUDGED_NOT_PROVEN, 0);
    put_nsec(&other, "a.", CH, "a.", at_apex);
    ask(denial_judge_nsec, "a.", "a.", SOA, &other, DENIAL_JUDGED_NOT_PROVEN, 0);
    put_nsec(&compact, "g.a.", IN, "h.g.a.", at_no_name);
    ask(denial_judge_nsec, "a.", "g.a.", A, &compact, DENIAL_JUDGED_NXNAME, 0);
    ask(denial_judge_nsec, "a.", "g.a.", NSEC, &compact, DENIAL_JUDGED_EXISTS, 0);
    ask(denial_judge_nsec, "a.", "a.", AXFR, &chain, DENIAL_JUDGED_NOT_PROVEN, 0);
    ask(denial_judge_nsec, "a.", "q.a.", OPT, &chain, DENIAL_JUDGED_NOT_PROVEN, 0);
    /* No zone has these: the next name is before the owner, or the record is of a child's apex. */
    put_nsec(&foreign, "z.sub.a.", IN, "sub.a.", at_host);
    put_nsec(&foreign, "sub.a.", IN, "sub.a.", at_child);
    ask(denial_judge_nsec, "a.", "zz.a.", A, &foreign, DENIAL_JUDGED_NOT_PROVEN, 0);
    ask(denial_judge_nsec, "a.", "sub.a.", DS, &foreign, DENIAL_JUDGED_NOT_PROVEN, 0);
}

/* Each whole answer that two NSEC3 records give: that of the apex, and one that covers all the rest. */
static void try_nsec3_answers(void)
{
    static const char low[20] = {0}, high[20] = "\377\377\377\377\377\377\377\377\377\377"
                                                               "\377\377\377\377\377\377\377\377\377";
    static const char zero_owner[] = "00000000000000000000000000000000.a.";
    struct octets chain = {{0}, 0}, opted = {{0}, 0}, half = {{0}, 0}, many = {{0}, 0}, unknown = {{0}, 0};
    const struct {
        const int *rtypes;
        uint32_t of_apex, below;
        size_t labels;
    } cases[] = {
        {at_apex, DENIAL_JUDGED_NO_DATA, DENIAL_JUDGED_NAME_ERROR, 1},
        {at_alias, DENIAL_JUDGED_ALIAS, DENIAL_JUDGED_NAME_ERROR, 1},
        {at_dname, DENIAL_JUDGED_NO_DATA, DENIAL_JUDGED_REDIRECTED, 1},
        {at_host, DENIAL_JUDGED_EXISTS, DENIAL_JUDGED_NAME_ERROR, 1},
    };
    size_t i;

    for (i = 0; i < sizeof cases / sizeof *cases; i++) {
        struct octets records = {{0}, 0};

        put_param(&records, "a.", 1);
        put_nsec3(&records, apex_owner, 0, low, cases[i].rtypes);
        put_nsec3(&records, zero_owner, 0, high, nothing);
        ask(judge_nsec3, "a.", "a.", A, &records, cases[i].of_apex, 0);
        ask(judge_nsec3, "a.", "x.a.", A, &records, cases[i].below, cases[i].labels);
        ask(judge_nsec3, "a.", "x.y.a.", A, &records, cases[i].below, cases[i].labels);
        ask(judge_nsec3, "a.", "a.", DS, &records, DENIAL_JUDGED_AT_PARENT, 0);
        ask(judge_nsec3, "a.", "b.", A, &records, DENIAL_JUDGED_OUTSIDE_ZONE, 0);
    }
    put_param(&opted, "A.", 1);
    put_nsec3(&opted, apex_owner, 0, low, at_apex);
    put_nsec3(&opted, zero_owner, 1, high, nothing);
    ask(judge_nsec3, "a.", "x.a.", A, &opted, DENIAL_JUDGED_MAY_BE_UNSIGNED, 1);
    put_param(&chain, ".", 1);
    put_nsec3(&chain, "qj2k5gbslc63lg0qour6j95c8s2b6ueh.", 0, low, at_cut);
    ask(judge_nsec3, ".", "a.", A, &chain, DENIAL_JUDGED_REFERRAL, 1);
    ask(judge_nsec3, ".", "a.", DS, &chain, DENIAL_JUDGED_NO_DS, 0);
    ask(judge_nsec3, ".", "x.a.", A, &chain, DENIAL_JUDGED_REFERRAL, 1);
    ask(judge_nsec3, ".", "b.", A, &chain, DENIAL_JUDGED_NOT_PROVEN, 0);
    put_param(&half, "a.", 1);
    put_nsec3(&half, apex_owner, 0, low, at_apex);
    ask(judge_nsec3, "a.", "x.a.", A, &half, DENIAL_JUDGED_NOT_PROVEN, 0);
    /* Records with a flag other than opt-out do not count, except for a check of one name. */
    put_param(&unknown, "a.", 1);
    put_flagged_param(&unknown, "a.", 2);
    put_nsec3(&unknown, apex_owner, 0, low, at_apex);
    put_nsec3(&unknown, zero_owner, 2, high, nothing);
    ask(judge_nsec3, "a.", "a.", SOA, &unknown, DENIAL_JUDGED_EXISTS, 0);
    ask(judge_nsec3, "a.", "x.a.", A, &unknown, DENIAL_JUDGED_NOT_PROVEN, 0);
    ask(denial_check_nsec3, "a.", "x.a.", A, &unknown, DENIAL_NO_PARAM, 0);
    put_nsec3(&unknown, zero_owner, 0, high, nothing);
    ask(judge_nsec3, "a.", "x.a.", A, &unknown, DENIAL_JUDGED_NAME_ERROR, 1);
    /* No record has such a type. */
    ask(judge_nsec3, "a.", "a.", OPT, &unknown, DENIAL_JUDGED_NOT_PROVEN, 0);
    ask(judge_nsec3, "a.", "x.a.", AXFR, &unknown, DENIAL_JUDGED_NOT_PROVEN, 0);
    ask(judge_nsec3, "a.", "a.", ANY, &unknown, DENIAL_JUDGED_EXISTS, 0);
    put_param_of(&many, "a.", 1, 11);
    limit = 10;
    ask(judge_nsec3, "a.", "x.a.", A, &many, DENIAL_JUDGED_TOO_MANY_ITERATIONS, 0);
    ask(judge_nsec3, "a.", "b.", A, &many, DENIAL_JUDGED_OUTSIDE_ZONE, 0);
    limit = 11;
    ask(judge_nsec3, "a.", "x.a.", A, &many, DENIAL_JUDGED_NOT_PROVEN, 0);
    limit = 0;
}

/* Each answer about an expansion, over the record of RFC 5155, appendix B.4, which covers z.w.example,
 * the next closer name of a.z.w.example, whose signatures have 2 labels. */
static void try_expansions(void)
{
    static const char closer[] = "q04jkcevqvmu85r014c7dkba38o0ji5r.example.";
    /* The octets of r53bq7cc2uvmubfu5ocmm6pers9tk9en; and the hash of z.w.example as an owner. */
    static const char next[] = "\331\106\275\035\214\027\277\157\055\376"
                               "\056\031\153\033\056\337\023\332\045\327";
    static const char of_closer[] = "qlu7gtfaeh0ek0c05ksfhdpbcgglbe03.example.";
    struct octets records = {{0}, 0}, opted = {{0}, 0}, both = {{0}, 0}, many = {{0}, 0};

    limit = 12;
    put_salted_param(&records, "example.", 12);
    put_salted_nsec3(&records, closer, 0, next, at_host);
    ask(judge_expansion, "example.", "a.z.w.example.", 2, &records, DENIAL_JUDGED_NO_CLOSER_NAME, 2);
    ask(judge_expansion, "Example.", "A.z.W.example.", 2, &records, DENIAL_JUDGED_NO_CLOSER_NAME, 2);
    ask(judge_expansion, "example.", "a.b.z.w.example.", 2, &records, DENIAL_JUDGED_NO_CLOSER_NAME, 2);
    /* w.example exists, so that no record covers it. */
    ask(judge_expansion, "example.", "a.z.w.example.", 1, &records, DENIAL_JUDGED_NOT_PROVEN, 0);
    /* Fewer labels than the apex has, and as many as the name has, and more. */
    ask(judge_expansion, "example.", "a.z.w.example.", 0, &records, DENIAL_JUDGED_NOT_PROVEN, 0);
    ask(judge_expansion, "example.", "a.z.w.example.", 4, &records, DENIAL_JUDGED_NOT_PROVEN, 0);
    ask(judge_expansion, "example.", "a.z.w.example.", 255, &records, DENIAL_JUDGED_NOT_PROVEN, 0);
    ask(judge_expansion, "example.", "a.z.w.", 2, &records, DENIAL_JUDGED_OUTSIDE_ZONE, 0);
    /* Without the record of the closest encloser this is what the question gets. */
    ask(judge_nsec3, "example.", "a.z.w.example.", MX, &records, DENIAL_JUDGED_NOT_PROVEN, 0);
    put_salted_param(&opted, "example.", 12);
    put_salted_nsec3(&opted, closer, 1, next, at_host);
    ask(judge_expansion, "example.", "a.z.w.example.", 2, &opted, DENIAL_JUDGED_MAY_BE_UNSIGNED, 2);
    /* A record that matches the next closer name counts before one that covers it. */
    both = records;
    put_salted_nsec3(&both, of_closer, 0, next, at_host);
    ask(judge_expansion, "example.", "a.z.w.example.", 2, &both, DENIAL_JUDGED_NOT_PROVEN, 0);
    put_salted_param(&many, "example.", 13);
    ask(judge_expansion, "example.", "a.z.w.example.", 2, &many, DENIAL_JUDGED_TOO_MANY_ITERATIONS, 0);
    ask(judge_expansion, "example.", "a.z.w.example.", 4, &many, DENIAL_JUDGED_NOT_PROVEN, 0);
    ask(judge_expansion, "example.", "a.b.", 2, &many, DENIAL_JUDGED_OUTSIDE_ZONE, 0);
    limit = 11;
    ask(judge_expansion, "example.", "a.z.w.example.", 2, &records, DENIAL_JUDGED_TOO_MANY_ITERATIONS, 0);
    limit = 0;
}

/* NSEC3 records without an NSEC3PARAM record: the first that is not ignored gives the parameters. */
static void try_alone(void)
{
    static const char low[20] = {0}, high[20] = "\377\377\377\377\377\377\377\377\377\377"
                                                "\377\377\377\377\377\377\377\377\377";
    static const char zero_owner[] = "00000000000000000000000000000000.a.";
    struct octets chain = {{0}, 0}, other = {{0}, 0}, unknown = {{0}, 0}, none = {{0}, 0}, broken = {{1}, 1};
    struct octets apex = {{0}, 0}, name = {{0}, 0};

    put_nsec3(&chain, apex_owner, 0, low, at_apex);
    put_nsec3(&chain, zero_owner, 0, high, nothing);
    /* Data of an NSEC3PARAM record may be anything. */
    put_record(&chain, "a.", NSEC3PARAM, IN, &broken);
    ask(denial_check_nsec3_alone, "a.", "a.", SOA, &chain, DENIAL_HAS, 0);
    ask(denial_check_nsec3_alone, "A.", "x.y.a.", A, &chain, DENIAL_NO_NAME, 1);
    ask(judge_alone, "a.", "a.", SOA, &chain, DENIAL_JUDGED_EXISTS, 0);
    ask(judge_alone, "a.", "x.a.", A, &chain, DENIAL_JUDGED_NAME_ERROR, 1);
    ask(judge_alone, "a.", "b.", A, &chain, DENIAL_JUDGED_OUTSIDE_ZONE, 0);
    ask(expansion_alone, "a.", "x.a.", 1, &chain, DENIAL_JUDGED_NO_CLOSER_NAME, 1);
    /* Records that are skipped say nothing: with another algorithm, an unknown flag, of another zone or of a
     * child zone, or with an owner that is no hash. */
    put_nsec3_of(&unknown, zero_owner, 2, 0, high, nothing);
    put_nsec3(&unknown, zero_owner, 2, high, nothing);
    put_salted_nsec3(&unknown, "00000000000000000000000000000000.b.", 0, high, nothing);
    put_salted_nsec3(&unknown, "00000000000000000000000000000000.sub.a.", 0, high, nothing);
    put_salted_nsec3(&unknown, "sub.a.", 0, high, nothing);
    ask(judge_alone, "a.", "x.a.", A, &unknown, DENIAL_JUDGED_NOT_PROVEN, 0);
    put(&unknown, chain.at, chain.length);
    ask(judge_alone, "a.", "x.a.", A, &unknown, DENIAL_JUDGED_NAME_ERROR, 1);
    ask(denial_check_nsec3_alone, "a.", "x.a.", A, &unknown, DENIAL_NO_NAME, 1);
    ask(expansion_alone, "a.", "x.a.", 1, &unknown, DENIAL_JUDGED_NO_CLOSER_NAME, 1);
    /* The first has 12 iterations and a salt, so the others are ignored. */
    put_salted_nsec3(&other, zero_owner, 0, high, nothing);
    put(&other, chain.at, chain.length);
    ask(judge_alone, "a.", "a.", SOA, &other, DENIAL_JUDGED_TOO_MANY_ITERATIONS, 0);
    limit = 12;
    ask(judge_alone, "a.", "a.", SOA, &other, DENIAL_JUDGED_NOT_PROVEN, 0);
    limit = 0;
    ask(denial_check_nsec3_alone, "a.", "a.", SOA, &other, DENIAL_NOT_PROVEN, 0);
    ask(judge_alone, "a.", "a.", SOA, &none, DENIAL_JUDGED_NOT_PROVEN, 0);
    ask(denial_check_nsec3_alone, "a.", "b.", SOA, &none, DENIAL_OUTSIDE_ZONE, 0);
    put_name(&apex, "a.");
    put_name(&name, "x.a.");
    put_record(&chain, zero_owner, NSEC3, IN, &broken);
    refuse(judge_alone, &apex, &name, &chain, DENIAL_BAD_RECORDS);
    refuse(expansion_alone, &apex, &name, &chain, DENIAL_BAD_RECORDS);
    name.length--;
    refuse(judge_alone, &apex, &name, &chain, DENIAL_BAD_NAME);
    apex.length--;
    refuse(denial_check_nsec3_alone, &apex, &name, &chain, DENIAL_BAD_APEX);
}

/* Each number's text; the least number that has none follows the last that has one. */
static void try_texts(void)
{
    static const struct {
        uint32_t number;
        const char *text;
    } texts[] = {
        {DENIAL_NOT_PROVEN, "not proven"},
        {DENIAL_OUTSIDE_ZONE, "outside zone"},
        {DENIAL_BELOW_DELEGATION, "below delegation"},
        {DENIAL_HAS, "has"},
        {DENIAL_NO_TYPE, "no type"},
        {DENIAL_EMPTY_NAME, "empty name"},
        {DENIAL_OPT_OUT, "opt-out"},
        {DENIAL_NO_NAME, "no name"},
        {DENIAL_BAD_APEX, "malformed apex"},
        {DENIAL_BAD_NAME, "malformed name"},
        {DENIAL_BAD_RECORDS, "malformed records"},
        {DENIAL_NO_PARAM, "no single NSEC3PARAM record"},
        {DENIAL_HASHER_REFUSED, "unknown hash algorithm"},
        {DENIAL_OUT_OF_MEMORY, "out of memory"},
        {DENIAL_OTHER_CLASS, "record of another class"},
        {DENIAL_NO_SINGLE_SOA, "no single SOA record"},
        {DENIAL_UNEQUAL_TTLS, "unequal TTLs"},
        {DENIAL_SHORT_BUFFER, "buffer too short"},
        {DENIAL_LONG_SALT, "salt too long"},
        {DENIAL_LONG_OWNER, "hashed owner name too long"},
        {DENIAL_COLLISION, "hash collision"},
        {DENIAL_JUDGED_NOT_PROVEN, "not proven"},
        {DENIAL_JUDGED_OUTSIDE_ZONE, "outside zone"},
        {DENIAL_JUDGED_AT_PARENT, "at the parent"},
        {DENIAL_JUDGED_REFERRAL, "referral"},
        {DENIAL_JUDGED_REDIRECTED, "redirected by DNAME"},
        {DENIAL_JUDGED_EXISTS, "exists"},
        {DENIAL_JUDGED_NO_DS, "no DS"},
        {DENIAL_JUDGED_ALIAS, "alias"},
        {DENIAL_JUDGED_NO_DATA, "no data"},
        {DENIAL_JUDGED_WILDCARD, "wildcard"},
        {DENIAL_JUDGED_WILDCARD_ALIAS, "wildcard alias"},
        {DENIAL_JUDGED_WILDCARD_NO_DATA, "wildcard no data"},
        {DENIAL_JUDGED_NAME_ERROR, "name error"},
        {DENIAL_JUDGED_MAY_BE_UNSIGNED, "may be unsigned"},
        {DENIAL_JUDGED_NO_CLOSER_NAME, "no closer name"},
        {DENIAL_JUDGED_TOO_MANY_ITERATIONS, "too many iterations"},
        {DENIAL_JUDGED_NXNAME, "no such name"},
        {DENIAL_CHAIN_MADE, "chain made"},
        {DENIAL_NO_COLLISION, "no collision"},
        {DENIAL_NO_NAME + 1, "no number of this library"},
        {DENIAL_COLLISION + 1, "no number of this library"},
        {DENIAL_JUDGED_NXNAME + 1, "no number of this library"},
        {UINT32_MAX, "no number of this library"},
    };
    size_t i;

    for (i = 0; i < sizeof texts / sizeof *texts; i++)
        if (strcmp(denial_text(texts[i].number), texts[i].text) != 0) {
            printf("differs: the text of %u: %s, not %s\n", (unsigned)texts[i].number, denial_text(texts[i].number),
                   texts[i].text);
            failures++;
        }
}

/* The faults of a call for NSEC. */
static void try_nsec_faults(check *call, uint32_t not_proven)
{
    struct octets apex = {{0}, 0}, name = {{0}, 0}, bad = {{0}, 0};
    struct octets no_bitmap = {{1, 'a', 0, 0, 0}, 5}, broken = {{0}, 0}, foreign = {{0}, 0};

    put_name(&apex, "a.");
    put_name(&name, "x.a.");
    put(&bad, "\100", 1);
    refuse(call, &bad, &bad, &bad, DENIAL_BAD_APEX);
    refuse(call, &apex, &bad, &bad, DENIAL_BAD_NAME);
    refuse(call, &apex, &name, &bad, DENIAL_BAD_RECORDS);
    put_record(&broken, "a.", NSEC, IN, &no_bitmap);
    ask(call, "a.", "a.", A, &broken, DENIAL_BAD_RECORDS, 0);
    ask(call, "a.", "b.", A, &broken, DENIAL_BAD_RECORDS, 0);
    put_record(&foreign, "a.", NSEC, CH, &no_bitmap);
    ask(call, "a.", "a.", A, &foreign, not_proven, 0);
}

/* The faults of a call for NSEC3, and what is answered where there is none of the name and the type, or
 * the field Labels. */
static void try_nsec3_faults(check *call, const char *asked, int rtype, uint32_t wanted, size_t wanted_labels)
{
    struct octets apex = {{0}, 0}, name = {{0}, 0}, bad = {{0}, 0}, param = {{0}, 0}, chain = {{0}, 0};
    struct octets no_bitmap = {{1, 'a', 0, 0, 0}, 5}, broken = {{0}, 0};

    put_name(&apex, "a.");
    put_name(&name, "x.a.");
    put(&bad, "\100", 1);
    put_param(&param, "a.", 1);
    put_nsec3(&chain, apex_owner, 0, "01234567890123456789", at_apex);
    refuse(call, &bad, &bad, &bad, DENIAL_BAD_APEX);
    refuse(call, &apex, &bad, &bad, DENIAL_BAD_NAME);
    refuse(call, &apex, &name, &bad, DENIAL_BAD_RECORDS);
    put_record(&broken, "a.", NSEC3, IN, &no_bitmap);
    ask(call, "a.", asked, rtype, &broken, DENIAL_BAD_RECORDS, 0);
    ask(call, "a.", asked, rtype, &chain, DENIAL_NO_PARAM, 0);
    put_param(&chain, "b.", 1);
    ask(call, "a.", asked, rtype, &chain, DENIAL_NO_PARAM, 0);
    put_param(&param, "a.", 1);
    ask(call, "a.", asked, rtype, &param, DENIAL_NO_PARAM, 0);
    param.length = 0;
    put_param(&param, "a.", 2);
    ask(call, "a.", asked, rtype, &param, DENIAL_HASHER_REFUSED, 0);
    put_param(&chain, "a.", 1);
    memory_is_refused = 1;
    ask(call, "a.", asked, rtype, &chain, DENIAL_OUT_OF_MEMORY, 0);
    memory_is_refused = 0;
    ask(call, "a.", asked, rtype, &chain, wanted, wanted_labels);
}

/* Without memory the NSEC records prove the same; for a whole answer they are gathered in memory. */
static void try_without_memory(void)
{
    struct octets chain = {{0}, 0};

    put_chain(&chain);
    memory_is_refused = 1;
    ask(denial_check_nsec, "a.", "x.b.a.", A, &chain, DENIAL_NO_NAME, 2);
    ask(denial_judge_nsec, "a.", "x.b.a.", A, &chain, DENIAL_OUT_OF_MEMORY, 0);
    memory_is_refused = 0;
    ask(denial_judge_nsec, "a.", "x.b.a.", A, &chain, DENIAL_JUDGED_NAME_ERROR, 2);
}

/* Refuses each request for memory in turn: the answer is that there is none. */
static void refuse_each_request(check *call, const char *what, const struct octets *records)
{
    struct octets apex = {{0}, 0}, name = {{0}, 0};
    size_t labels;
    uint32_t answer;

    put_name(&apex, "a.");
    put_name(&name, "x.a.");
    for (refused_request = 0;; refused_request++) {
        answer = ask_octets(call, &apex, &name, A, records, &labels);
        if (requests <= refused_request)
            break;
        expect(what, answer, labels, DENIAL_OUT_OF_MEMORY, 0);
    }
    if (refused_request == 0) {
        printf("differs: no request for memory: %s\n", what);
        failures++;
    }
    refused_request = -1;
}

static void try_short_of_memory(void)
{
    static const char low[20] = {0};
    struct octets nsecs = {{0}, 0}, nsec3s = {{0}, 0};
    int i;

    put_param(&nsec3s, "a.", 1);
    for (i = 0; i < 20; i++) {
        put_nsec(&nsecs, "a.", IN, "y.a.", at_apex);
        put_nsec3(&nsec3s, apex_owner, 0, low, at_apex);
    }
    refuse_each_request(denial_judge_nsec, "NSEC, short of memory", &nsecs);
    refuse_each_request(denial_check_nsec3, "NSEC3 verdicts, short of memory", &nsec3s);
    refuse_each_request(judge_nsec3, "NSEC3, short of memory", &nsec3s);
    refuse_each_request(judge_expansion, "expansions, short of memory", &nsec3s);
    refuse_each_request(judge_alone, "NSEC3 alone, short of memory", &nsec3s);
    refuse_each_request(expansion_alone, "expansions alone, short of memory", &nsec3s);
    refuse_each_request(denial_check_nsec3_alone, "NSEC3 verdicts alone, short of memory", &nsec3s);
}

/* Null in the place of octets of length 0, and of what is written. */
static void try_null(void)
{
    struct octets apex = {{0}, 0}, chain = {{0}, 0}, zone = {{0}, 0}, soa = {{0}, 0};
    uint8_t made[256];
    size_t labels = 999, count = 999;
    uint32_t answer;

    put_name(&apex, "a.");
    put_chain(&chain);
    put_number(&soa, 0, 20);
    put_number(&soa, 300, 4);
    put_record(&zone, "a.", SOA, IN, &soa);
    answer = denial_judge_nsec(apex.at, apex.length, apex.at, apex.length, A, IN, NULL, 0, &labels);
    expect("no records", answer, labels, DENIAL_JUDGED_NOT_PROVEN, 0);
    expect("no labels", denial_judge_nsec(apex.at, apex.length, apex.at, apex.length, MX, IN, chain.at, chain.length, NULL),
           0, DENIAL_JUDGED_NO_DATA, 0);
    expect("no labels", denial_check_nsec(apex.at, apex.length, apex.at, apex.length, SOA, IN, chain.at, chain.length, NULL),
           0, DENIAL_HAS, 0);
    expect("no apex", denial_check_nsec(NULL, 0, apex.at, apex.length, A, IN, NULL, 0, NULL), 0, DENIAL_BAD_APEX, 0);
    expect("no name", denial_check_nsec3(apex.at, apex.length, NULL, 0, A, IN, NULL, 0, NULL), 0, DENIAL_BAD_NAME, 0);
    expect("no records", denial_judge_nsec3(apex.at, apex.length, apex.at, apex.length, A, IN, 0, NULL, 0, NULL), 0,
           DENIAL_NO_PARAM, 0);
    expect("no records", denial_judge_nsec3_alone(apex.at, apex.length, apex.at, apex.length, A, IN, 0, NULL, 0, NULL), 0,
           DENIAL_JUDGED_NOT_PROVEN, 0);
    expect("no records", denial_judge_nsec3_expansion(apex.at, apex.length, apex.at, apex.length, 0, IN, 0, NULL, 0, NULL), 0,
           DENIAL_NO_PARAM, 0);
    expect("no records",
           denial_judge_nsec3_expansion_alone(apex.at, apex.length, apex.at, apex.length, 0, IN, 0, NULL, 0, NULL), 0,
           DENIAL_JUDGED_NOT_PROVEN, 0);
    expect("no records", denial_check_nsec3_alone(apex.at, apex.length, apex.at, apex.length, A, IN, NULL, 0, NULL), 0,
           DENIAL_NOT_PROVEN, 0);
    expect("no buffer", denial_nsec_chain(apex.at, apex.length, IN, true, false, zone.at, zone.length, NULL, 0, &count), 0,
           DENIAL_SHORT_BUFFER, 0);
    expect("no count", denial_nsec_chain(apex.at, apex.length, IN, true, false, zone.at, zone.length, made, count, NULL), 0,
           DENIAL_CHAIN_MADE, 0);
    expect("no salt, no count",
           denial_nsec3_chain(apex.at, apex.length, IN, true, false, 0, NULL, 0, false, zone.at, zone.length, made,
                              sizeof made, NULL), 0, DENIAL_CHAIN_MADE, 0);
    expect("opt-out", denial_nsec3_chain(apex.at, apex.length, IN, true, false, 0, NULL, 0, true, zone.at, zone.length,
                                         made, sizeof made, &count), 0, DENIAL_CHAIN_MADE, 0);
    /* The flags of the first record, after its owner of one label before the apex, and of the last one, whose data
     * are five octets. */
    if (made[33 + apex.length + 11] != 1 || made[count - 4] != 0) {
        puts("differs: flags of an NSEC3 record and of NSEC3PARAM with opt-out");
        failures++;
    }
    expect("no records of a zone",
           denial_nsec3_chain(apex.at, apex.length, IN, true, false, 0, NULL, 0, false, NULL, 0, NULL, 0, NULL), 0,
           DENIAL_NO_SINGLE_SOA, 0);
}

/* Cuts the octets at each place: only between two records are they still records. */
static void try_cuts(void)
{
    struct octets chain = {{0}, 0}, part = {{0}, 0}, apex = {{0}, 0}, name = {{0}, 0}, cut;
    struct octets signature = {{1, 2, 3}, 3};
    size_t ends[5], count = 0, at, labels, length;
    uint32_t answer;

    put_chain(&chain);
    put_nsec(&part, "a.", IN, "y.b.a.", at_apex);
    ends[count++] = 0;
    ends[count++] = part.length;
    put_record(&part, "a.", RRSIG, IN, &signature);
    ends[count++] = part.length;
    put_nsec(&part, "y.b.a.", IN, "c.a.", at_host);
    ends[count++] = part.length;
    ends[count++] = chain.length;
    put_name(&apex, "a.");
    put_name(&name, "zz.a.");
    for (length = 0; length <= chain.length; length++) {
        int is_whole = 0;

        for (at = 0; at < count; at++)
            is_whole |= ends[at] == length;
        cut = chain;
        cut.length = length;
        answer = ask_octets(denial_check_nsec, &apex, &name, A, &cut, &labels);
        expect("cut records", answer, labels,
               !is_whole ? DENIAL_BAD_RECORDS : length == chain.length ? DENIAL_NO_NAME : DENIAL_NOT_PROVEN,
               length == chain.length ? 1 : 0);
        answer = ask_octets(denial_judge_nsec, &apex, &name, A, &cut, &labels);
        expect("cut records", answer, labels,
               !is_whole                  ? DENIAL_BAD_RECORDS
               : length == chain.length ? DENIAL_JUDGED_NAME_ERROR
                                          : DENIAL_JUDGED_NOT_PROVEN,
               length == chain.length ? 1 : 0);
    }
    for (length = 0; length < name.length; length++) {
        cut = name;
        cut.length = length;
        answer = ask_octets(denial_check_nsec, &apex, &cut, A, &chain, &labels);
        expect("a cut name", answer, labels, DENIAL_BAD_NAME, 0);
        answer = ask_octets(denial_check_nsec3, &cut, &name, A, &chain, &labels);
        expect("a cut apex", answer, labels, DENIAL_BAD_APEX, 0);
        answer = ask_octets(judge_nsec3, &cut, &name, A, &chain, &labels);
        expect("a cut apex", answer, labels, DENIAL_BAD_APEX, 0);
        answer = ask_octets(judge_expansion, &apex, &cut, A, &chain, &labels);
        expect("a cut name", answer, labels, DENIAL_BAD_NAME, 0);
    }
}

/* Makes the NSEC chain of the records, or the NSEC3 chain with a salt of so many octets, in a buffer with
 * so much room; compares the answer and what it counts. What is no chain's stays in the buffer. */
static uint32_t try_chain(int is_hashed, const struct octets *apex, const struct octets *records, size_t salt_length,
                          size_t room, uint32_t wanted, size_t wanted_count)
{
    static uint8_t octets[256], chain[2048];
    size_t count = 999, at;
    uint32_t answer;

    memset(chain, 0xee, sizeof chain);
    requests = 0;
    is_calling = 1;
    answer = is_hashed ? denial_nsec3_chain(apex->at, apex->length, IN, true, false, 0, octets, salt_length, false,
                                            records->at, records->length, chain, room, &count)
                       : denial_nsec_chain(apex->at, apex->length, IN, true, false, records->at, records->length,
                                           chain, room, &count);
    is_calling = 0;
    if (refused_request < 0 || requests > refused_request)
        expect(is_hashed ? "an NSEC3 chain" : "an NSEC chain", answer, count, wanted, wanted_count);
    for (at = answer == DENIAL_CHAIN_MADE ? count : 0; at < sizeof chain; at++)
        if (chain[at] != 0xee) {
            printf("differs: octet %zu of the buffer is another one\n", at);
            failures++;
            break;
        }
    return answer;
}

/* Chains of a. with b.a., whose octets are counted by hand, and each fault but a collision. */
static void try_chains(void)
{
    struct octets apex = {{0}, 0}, zone = {{0}, 0}, soa = {{0}, 0}, host = {{192, 0, 2, 1}, 4}, none = {{0}, 0};
    struct octets other, cut = {{1, 'a'}, 2}, deep = {{0}, 0};
    int is_hashed, i;

    put_name(&apex, "a.");
    put_number(&soa, 0, 20);
    put_number(&soa, 300, 4);
    put_record(&zone, "b.a.", A, IN, &host);
    put_record(&zone, "a.", SOA, IN, &soa);
    for (is_hashed = 0; is_hashed < 2; is_hashed++) {
        size_t length = is_hashed ? 179 : 53, later;

        try_chain(is_hashed, &apex, &zone, 0, length, DENIAL_CHAIN_MADE, length);
        try_chain(is_hashed, &apex, &zone, 0, 1024, DENIAL_CHAIN_MADE, length);
        try_chain(is_hashed, &apex, &zone, 0, length - 1, DENIAL_SHORT_BUFFER, length);
        try_chain(is_hashed, &apex, &zone, 0, 0, DENIAL_SHORT_BUFFER, length);
        try_chain(is_hashed, &cut, &zone, 0, 1024, DENIAL_BAD_APEX, 0);
        try_chain(is_hashed, &apex, &none, 0, 1024, DENIAL_NO_SINGLE_SOA, 0);
        other = zone;
        put(&other, "a", 1);
        try_chain(is_hashed, &apex, &other, 0, 1024, DENIAL_BAD_RECORDS, zone.length);
        other = zone;
        put_record(&other, "c.a.", A, CH, &host);
        put(&other, "a", 1);
        try_chain(is_hashed, &apex, &other, 0, 1024, DENIAL_OTHER_CLASS, zone.length);
        other = zone;
        host.at[3]++;
        put_record(&other, "b.a.", A, IN, &host);
        other.at[other.length - host.length - 3]++;
        try_chain(is_hashed, &apex, &other, 0, 1024, DENIAL_UNEQUAL_TTLS, zone.length);
        /* Of two owners with unequal TTLs the first in canonical order is reported, in any order of records. */
        other = zone;
        put_record(&other, "c.a.", A, IN, &host);
        host.at[3]++;
        put_record(&other, "c.a.", A, IN, &host);
        other.at[other.length - host.length - 3]++;
        later = other.length;
        put_record(&other, "b.a.", A, IN, &host);
        other.at[other.length - host.length - 3]++;
        try_chain(is_hashed, &apex, &other, 0, 1024, DENIAL_UNEQUAL_TTLS, later);
        soa.at[0]++;
        put_record(&other, "a.", SOA, IN, &soa);
        try_chain(is_hashed, &apex, &other, 0, 1024, DENIAL_NO_SINGLE_SOA, 0);
        refused_request = 0;
        while (try_chain(is_hashed, &apex, &zone, 0, 1024, DENIAL_OUT_OF_MEMORY, 0) == DENIAL_OUT_OF_MEMORY)
            refused_request++;
        refused_request = -1;
    }
    try_chain(1, &apex, &zone, 255, 1024, DENIAL_CHAIN_MADE, 179 + 3 * 255);
    try_chain(1, &apex, &zone, 256, 1024, DENIAL_LONG_SALT, 0);
    /* The owner of a hash has 33 octets before those of the apex: before one of 223 that is too many. */
    for (i = 0; i < 3; i++) {
        put_number(&deep, 63, 1);
        memset(deep.at + deep.length, 'a', 63);
        deep.length += 63;
    }
    put_number(&deep, 29, 1);
    memset(deep.at + deep.length, 'a', 29);
    deep.length += 29;
    put_number(&deep, 0, 1);
    other = deep;
    put_number(&other, SOA, 2);
    put_number(&other, IN, 2);
    put_number(&other, 1800, 4);
    put_number(&other, soa.length, 2);
    put(&other, soa.at, soa.length);
    try_chain(1, &deep, &other, 0, 1024, DENIAL_LONG_OWNER, 0);
}

/* Looks for names of the NSEC3 chain of the records that hash alike, with a salt of so many octets. SHA-1
 * has no such names to be written by hand, so that both buffers stay. */
static uint32_t try_collision(const struct octets *apex, const struct octets *records, size_t salt_length, uint32_t wanted)
{
    static uint8_t octets[256], earlier[DENIAL_NAME_ROOM], later[DENIAL_NAME_ROOM], kept[DENIAL_NAME_ROOM];
    uint32_t answer;

    memset(kept, 0xee, sizeof kept);
    memcpy(earlier, kept, sizeof kept);
    memcpy(later, kept, sizeof kept);
    requests = 0;
    is_calling = 1;
    answer = denial_nsec3_collision(apex->at, apex->length, IN, false, 0, octets, salt_length, false, records->at,
                                    records->length, earlier, later);
    is_calling = 0;
    if (refused_request < 0 || requests > refused_request)
        expect("names that hash alike", answer, 0, wanted, 0);
    if (memcmp(earlier, kept, sizeof kept) != 0 || memcmp(later, kept, sizeof kept) != 0) {
        printf("differs: names were written\n");
        failures++;
    }
    return answer;
}

/* No names of a. with b.a. hash alike; and each fault. */
static void try_collisions(void)
{
    struct octets apex = {{0}, 0}, zone = {{0}, 0}, host = {{192, 0, 2, 1}, 4}, none = {{0}, 0}, other, cut = {{1, 'a'}, 2};

    put_name(&apex, "a.");
    put_record(&zone, "b.a.", A, IN, &host);
    put_record(&zone, "y.x.a.", A, IN, &host);
    try_collision(&apex, &zone, 0, DENIAL_NO_COLLISION);
    try_collision(&apex, &none, 0, DENIAL_NO_COLLISION);
    try_collision(&apex, &zone, 255, DENIAL_NO_COLLISION);
    try_collision(&apex, &zone, 256, DENIAL_LONG_SALT);
    try_collision(&cut, &zone, 256, DENIAL_BAD_APEX);
    other = zone;
    put(&other, "a", 1);
    try_collision(&apex, &other, 0, DENIAL_BAD_RECORDS);
    other = zone;
    put_record(&other, "c.a.", A, CH, &host);
    put(&other, "a", 1);
    try_collision(&apex, &other, 0, DENIAL_OTHER_CLASS);
    refused_request = 0;
    while (try_collision(&apex, &zone, 0, DENIAL_OUT_OF_MEMORY) == DENIAL_OUT_OF_MEMORY)
        refused_request++;
    refused_request = -1;
    expect("no buffers for names", denial_nsec3_collision(apex.at, apex.length, IN, false, 0, NULL, 0, false, NULL, 0, NULL, NULL), 0,
           DENIAL_NO_COLLISION, 0);
    expect("the length of a name", 0, denial_name_length(apex.at), 0, apex.length);
}

int main(void)
{
    expect("the version", denial_version(), 0, DENIAL_VERSION, 0);
    try_nsec_verdicts();
    try_nsec3_verdicts();
    try_nsec_answers();
    try_nsec3_answers();
    try_expansions();
    try_alone();
    try_texts();
    try_nsec_faults(denial_check_nsec, DENIAL_NOT_PROVEN);
    try_nsec_faults(denial_judge_nsec, DENIAL_JUDGED_NOT_PROVEN);
    try_nsec3_faults(denial_check_nsec3, "a.", SOA, DENIAL_HAS, 0);
    try_nsec3_faults(judge_nsec3, "a.", SOA, DENIAL_JUDGED_EXISTS, 0);
    try_nsec3_faults(judge_expansion, "x.a.", 1, DENIAL_JUDGED_NO_CLOSER_NAME, 1);
    try_without_memory();
    try_short_of_memory();
    try_null();
    try_cuts();
    try_chains();
    try_collisions();
    puts(failures == 0 ? "same: verdicts, answers, chains, texts, faults and cuts" : "differs: see above");
    return failures != 0;
}
