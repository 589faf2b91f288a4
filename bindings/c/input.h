/*
 * Reads files of records by libldns.
 */
#ifndef INPUT_H
#define INPUT_H

#include <ldns/ldns.h>

/* What was read of a file. */
struct input {
    /* The records, one after another in wire form without compression. */
    ldns_buffer *records;
    /* The question of an answer, or NULL. */
    ldns_rdf *name;
    ldns_rr_type rtype;
    /* Whether there are NSEC3 records, and whether the NSEC3PARAM record was written. */
    int is_hashed;
    int has_param;
    /* Whether records that answer the question were expanded from a wildcard, and if so the field
     * Labels of their first signature. */
    int is_expanded;
    uint8_t rrsig_labels;
};

/* Returns the name of a presentation format. Ends the program if the text is no name. */
ldns_rdf *name_of(const char *text);

/*
 * Reads an answer as `dig +dnssec` printed it, a chain or a signed zone, one record a line. Ends the
 * program if a line is no record. Leaves out NSEC and NSEC3 records that were expanded from a wildcard:
 * they would deny names that exist. With NSEC3 records there is one NSEC3PARAM record of the apex. If
 * the input has no question yet, it gets that of the first line that has one.
 */
void read_file(struct input *input, const ldns_rdf *apex, const char *path);

#endif
