#include <stdio.h>
#include <stdlib.h>
#include <string.h>

#include "input.h"

static void fail(const char *what, const char *which)
{
    fprintf(stderr, "%s: %s\n", what, which);
    exit(1);
}

ldns_rdf *name_of(const char *text)
{
    ldns_rdf *name = ldns_dname_new_frm_str(text);

    if (name == NULL)
        fail("no name", text);
    return name;
}

/* Takes over the question from a line such as ";name. IN TYPE", as dig prints it, or ";; name. IN TYPE", as drill does. */
static void read_question(struct input *input, const char *line)
{
    char name[1024], rtype[64];

    if (input->name != NULL || sscanf(line + strspn(line, ";"), "%1023s IN %63s", name, rtype) != 2)
        return;
    input->name = name_of(name);
    input->rtype = ldns_get_rr_type_by_name(rtype);
}

/* Writes an NSEC3PARAM record with the parameters of an NSEC3 record, for calls that take one: a response has none. */
static void write_param(struct input *input, const ldns_rdf *apex, const ldns_rr *nsec3)
{
    uint8_t salt_length = ldns_nsec3_salt_length(nsec3);
    uint8_t *salt = ldns_nsec3_salt_data(nsec3);

    ldns_buffer_write(input->records, ldns_rdf_data(apex), ldns_rdf_size(apex));
    ldns_buffer_write_u16(input->records, LDNS_RR_TYPE_NSEC3PARAM);
    ldns_buffer_write_u16(input->records, ldns_rr_get_class(nsec3));
    ldns_buffer_write_u32(input->records, 0);
    ldns_buffer_write_u16(input->records, (uint16_t)(5 + salt_length));
    ldns_buffer_write_u8(input->records, ldns_nsec3_algorithm(nsec3));
    ldns_buffer_write_u8(input->records, 0);
    ldns_buffer_write_u16(input->records, ldns_nsec3_iterations(nsec3));
    ldns_buffer_write_u8(input->records, salt_length);
    if (salt_length > 0)
        ldns_buffer_write(input->records, salt, salt_length);
    free(salt);
}

/* How many labels a name has as the field Labels counts them: an asterisk as the first is none. */
static uint8_t count_labels(const ldns_rdf *name)
{
    return (uint8_t)(ldns_dname_label_count(name) - (ldns_dname_is_wildcard(name) ? 1 : 0));
}

/* Takes the field Labels of a signature of records that answer the question, those of its name with
 * its type or CNAME, where it has fewer labels than they: they were expanded from a wildcard (RFC
 * 4035, section 5.3.2). */
static void read_expansion(struct input *input, const ldns_rr *signature)
{
    const ldns_rdf *owner = ldns_rr_owner(signature);
    ldns_rr_type covered = ldns_rdf2rr_type(ldns_rr_rrsig_typecovered(signature));
    uint8_t labels = ldns_rdf2native_int8(ldns_rr_rrsig_labels(signature));

    if (input->is_expanded || input->name == NULL || ldns_dname_compare(owner, input->name) != 0
        || (covered != input->rtype && covered != LDNS_RR_TYPE_CNAME) || labels >= count_labels(owner))
        return;
    input->is_expanded = 1;
    input->rrsig_labels = labels;
}

/* The NSEC and NSEC3 records that were read, and the signatures of those that were expanded from a wildcard. */
struct denying {
    ldns_rr_list *records;
    ldns_rr_list *expanded;
};

/* Whether the record has such a signature: the field Labels is not the number of labels of the owner (RFC 4034,
 * section 3.1.3). It was not signed with this owner, and would deny names that exist (CVE-2017-15105). */
static int was_expanded(const struct denying *denying, const ldns_rr *record)
{
    size_t i;

    for (i = 0; i < ldns_rr_list_rr_count(denying->expanded); i++) {
        const ldns_rr *signature = ldns_rr_list_rr(denying->expanded, i);

        if (ldns_rdf2rr_type(ldns_rr_rrsig_typecovered(signature)) == ldns_rr_get_type(record)
            && ldns_dname_compare(ldns_rr_owner(signature), ldns_rr_owner(record)) == 0)
            return 1;
    }
    return 0;
}

/* Writes a record in wire form. */
static void write_record(struct input *input, const ldns_rr *record)
{
    ldns_buffer_reserve(input->records, 65536 + 512);
    ldns_rr2buffer_wire(input->records, record, LDNS_SECTION_ANSWER);
}

/* Writes the NSEC and NSEC3 records that were not expanded, and before the first NSEC3 record its parameters. */
static void write_denying(struct input *input, const ldns_rdf *apex, const struct denying *denying)
{
    size_t i;

    for (i = 0; i < ldns_rr_list_rr_count(denying->records); i++) {
        const ldns_rr *record = ldns_rr_list_rr(denying->records, i);
        int is_hashed = ldns_rr_get_type(record) == LDNS_RR_TYPE_NSEC3;

        if (was_expanded(denying, record))
            continue;
        if (is_hashed && !input->has_param) {
            ldns_buffer_reserve(input->records, 512);
            write_param(input, apex, record);
            input->has_param = 1;
        }
        input->is_hashed |= is_hashed;
        write_record(input, record);
    }
}

/* Takes a signature into account: of records that answer the question, or of a record that denies. */
static void read_signature(struct input *input, struct denying *denying, const ldns_rr *signature)
{
    ldns_rr_type covered = ldns_rdf2rr_type(ldns_rr_rrsig_typecovered(signature));

    read_expansion(input, signature);
    if ((covered == LDNS_RR_TYPE_NSEC || covered == LDNS_RR_TYPE_NSEC3)
        && ldns_rdf2native_int8(ldns_rr_rrsig_labels(signature)) != count_labels(ldns_rr_owner(signature)))
        ldns_rr_list_push_rr(denying->expanded, ldns_rr_clone(signature));
}

/* Reads the record of a line. Writes it, unless it denies: whether it counts depends on its signatures. */
static void read_record(struct input *input, struct denying *denying, const char *line)
{
    ldns_rr *record = NULL;

    if (ldns_rr_new_frm_str(&record, line, 0, NULL, NULL) != LDNS_STATUS_OK)
        fail("no record", line);
    switch (ldns_rr_get_type(record)) {
    case LDNS_RR_TYPE_NSEC:
    case LDNS_RR_TYPE_NSEC3:
        ldns_rr_list_push_rr(denying->records, record);
        return;
    case LDNS_RR_TYPE_NSEC3PARAM:
        /* The parameters are those of the first NSEC3 record: a response has no such record. */
        break;
    case LDNS_RR_TYPE_RRSIG:
        read_signature(input, denying, record);
        /* fall through */
    default:
        write_record(input, record);
    }
    ldns_rr_free(record);
}

void read_file(struct input *input, const ldns_rdf *apex, const char *path)
{
    static char line[1 << 18];
    struct denying denying = {ldns_rr_list_new(), ldns_rr_list_new()};
    FILE *file = fopen(path, "r");

    if (file == NULL)
        fail("cannot read", path);
    while (fgets(line, sizeof line, file) != NULL) {
        line[strcspn(line, "\r\n")] = 0;
        if (line[0] == ';')
            read_question(input, line);
        else if (line[strspn(line, " \t")] != 0)
            read_record(input, &denying, line);
    }
    fclose(file);
    write_denying(input, apex, &denying);
    ldns_rr_list_deep_free(denying.records);
    ldns_rr_list_deep_free(denying.expanded);
}
