/*
 * Makes the chain of a zone by this library and by libldns, and compares them.
 *
 *     signer nsec|nsec3 APEX FILE
 *
 * FILE has the records of a zone, one a line. The program leaves out what a signer added. NSEC3 chains
 * have two iterations and the salt abcd. libldns leaves out names below an owner of a DNAME record, so
 * this library is called to do the same. libldns lists no DNSKEY that is not there. With opt-out libldns
 * keeps delegations without DS in the chain, so such chains are not compared. The program compares
 * owners, next names or hashes, types and parameters, but not TTLs. It prints the number of records, and
 * the milliseconds of each library. The status is 1 if the chains differ.
 */
#include <stdio.h>
#include <stdlib.h>
#include <string.h>
#include <time.h>

#include <ldns/ldns.h>

#include <denial.h>

enum { ITERATIONS = 2, SALT_LENGTH = 2 };

static uint8_t salt[SALT_LENGTH] = {0xab, 0xcd};

/* Records in the form of a message, one after another, and as libldns has them. */
struct zone {
    ldns_dnssec_zone *ldns;
    ldns_buffer *octets;
};

static void end(const char *why)
{
    fprintf(stderr, "signer: %s\n", why);
    exit(1);
}

static double now(void)
{
    struct timespec time;

    clock_gettime(CLOCK_MONOTONIC, &time);
    return (double)time.tv_sec * 1000 + (double)time.tv_nsec / 1e6;
}

/* Whether a signer puts such records into a zone. */
static bool is_of_signer(ldns_rr_type rtype)
{
    return rtype == LDNS_RR_TYPE_RRSIG || rtype == LDNS_RR_TYPE_NSEC || rtype == LDNS_RR_TYPE_NSEC3 || rtype == LDNS_RR_TYPE_NSEC3PARAM;
}

/* Each record is written alone: libldns counts places in a buffer by 16 bits. */
static void add_record(struct zone *zone, ldns_rr *rr)
{
    uint8_t *octets;
    size_t length;

    if (ldns_rr2wire(&octets, rr, LDNS_SECTION_ANSWER, &length) != LDNS_STATUS_OK || !ldns_buffer_reserve(zone->octets, length))
        end("no record");
    ldns_buffer_write(zone->octets, octets, length);
    free(octets);
    if (ldns_dnssec_zone_add_rr(zone->ldns, rr) != LDNS_STATUS_OK)
        end("a record was not added");
}

static void read_zone(struct zone *zone, const char *path)
{
    FILE *file = fopen(path, "r");
    char line[65536];
    ldns_rr *rr;

    if (file == NULL)
        end("cannot open");
    zone->ldns = ldns_dnssec_zone_new();
    zone->octets = ldns_buffer_new(1 << 20);
    while (fgets(line, sizeof line, file) != NULL) {
        if (*line == ';' || *line == '\n')
            continue;
        if (ldns_rr_new_frm_str(&rr, line, 0, NULL, NULL) != LDNS_STATUS_OK)
            end("a line is no record");
        if (is_of_signer(ldns_rr_get_type(rr)))
            ldns_rr_free(rr);
        else
            add_record(zone, rr);
    }
    fclose(file);
}

/* The NSEC3PARAM record of the apex, which lists its type there. */
static ldns_rr *parameters(const ldns_rdf *apex)
{
    ldns_rr *rr = ldns_rr_new_frm_type(LDNS_RR_TYPE_NSEC3PARAM);

    ldns_rr_set_owner(rr, ldns_rdf_clone(apex));
    ldns_nsec3_add_param_rdfs(rr, LDNS_SHA1, 0, ITERATIONS, SALT_LENGTH, salt);
    return rr;
}

/* Makes the chain by libldns. */
static ldns_rr_list *by_ldns(struct zone *zone, const ldns_rdf *apex, bool is_hashed)
{
    ldns_rr_list *made = ldns_rr_list_new();
    ldns_status status;

    ldns_dnssec_zone_mark_glue(zone->ldns);
    if (is_hashed) {
        if (ldns_dnssec_zone_add_rr(zone->ldns, parameters(apex)) != LDNS_STATUS_OK)
            end("the parameters were not added");
        ldns_dnssec_zone_add_empty_nonterminals(zone->ldns);
        status = ldns_dnssec_zone_create_nsec3s(zone->ldns, made, LDNS_SHA1, 0, ITERATIONS, SALT_LENGTH, salt);
    } else {
        status = ldns_dnssec_zone_create_nsecs(zone->ldns, made);
    }
    if (status != LDNS_STATUS_OK)
        end(ldns_get_errorstr_by_id(status));
    return made;
}

/* The octets of the chain by this library. */
static uint8_t *by_denial(struct zone *zone, const ldns_rdf *apex, bool is_hashed, size_t *count)
{
    const uint8_t *at = ldns_rdf_data(apex), *records = ldns_buffer_begin(zone->octets);
    size_t length = ldns_rdf_size(apex), records_length = ldns_buffer_position(zone->octets), room = 2 * records_length;
    uint32_t answer;

    for (;;) {
        uint8_t *chain = malloc(room);

        if (chain == NULL)
            end("out of memory");
        if (is_hashed)
            answer = denial_nsec3_chain(at, length, 1, false, true, ITERATIONS, salt, SALT_LENGTH, false, records, records_length, chain,
                                        room, count);
        else
            answer = denial_nsec_chain(at, length, 1, false, true, records, records_length, chain, room, count);
        if (answer == DENIAL_CHAIN_MADE)
            return chain;
        free(chain);
        if (answer != DENIAL_SHORT_BUFFER)
            end(denial_text(answer));
        room = *count;
    }
}

/* Adds a record that is no NSEC3PARAM record to a list. */
static int add_to_list(void *list, const uint8_t *record, size_t length)
{
    ldns_rr *rr;
    size_t place = 0;

    if (ldns_wire2rr(&rr, record, length, &place, LDNS_SECTION_ANSWER) != LDNS_STATUS_OK || place != length)
        return 1;
    if (ldns_rr_get_type(rr) == LDNS_RR_TYPE_NSEC3PARAM)
        ldns_rr_free(rr);
    else
        ldns_rr_list_push_rr(list, rr);
    return 0;
}

/* Gives all records one TTL, and puts them into canonical order. */
static void settle(ldns_rr_list *list)
{
    size_t at;

    for (at = 0; at < ldns_rr_list_rr_count(list); at++) {
        ldns_rr_set_ttl(ldns_rr_list_rr(list, at), 0);
        ldns_rr2canonical(ldns_rr_list_rr(list, at));
    }
    ldns_rr_list_sort(list);
}

/* Says where two lists differ first. */
static int compare(ldns_rr_list *ours, ldns_rr_list *theirs)
{
    size_t at, count = ldns_rr_list_rr_count(ours);

    for (at = 0; at < count && at < ldns_rr_list_rr_count(theirs); at++) {
        if (ldns_rr_compare(ldns_rr_list_rr(ours, at), ldns_rr_list_rr(theirs, at)) != 0) {
            printf("differ: this library and libldns:\n");
            ldns_rr_print(stdout, ldns_rr_list_rr(ours, at));
            ldns_rr_print(stdout, ldns_rr_list_rr(theirs, at));
            return 1;
        }
    }
    if (count != ldns_rr_list_rr_count(theirs)) {
        printf("differ: %zu records, and %zu of libldns\n", count, ldns_rr_list_rr_count(theirs));
        return 1;
    }
    return 0;
}

int main(int argc, char **argv)
{
    bool is_hashed = argc > 1 && strcmp(argv[1], "nsec3") == 0;
    struct zone zone;
    ldns_rdf *apex = argc == 4 ? ldns_dname_new_frm_str(argv[2]) : NULL;
    ldns_rr_list *ours = ldns_rr_list_new(), *theirs;
    double begun, between, ended;
    size_t count;
    uint8_t *chain;

    if (apex == NULL)
        end("usage: signer nsec|nsec3 APEX FILE");
    read_zone(&zone, argv[3]);
    begun = now();
    chain = by_denial(&zone, apex, is_hashed, &count);
    between = now();
    theirs = by_ldns(&zone, apex, is_hashed);
    ended = now();
    if (denial_each_record(chain, count, add_to_list, ours) != 0)
        end("what was written is no chain");
    settle(ours);
    settle(theirs);
    if (compare(ours, theirs) != 0)
        return 1;
    printf("%s %s: the same %zu records; %.1f ms, libldns %.1f ms\n", argv[1], argv[2], ldns_rr_list_rr_count(ours), between - begun,
           ended - between);
    free(chain);
    return 0;
}
