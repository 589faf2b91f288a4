/*
 * Prints what the NSEC or NSEC3 records of a file prove about a name and a type.
 *
 *     denied [--check] APEX FILE [NAME TYPE]
 *
 * It prints a whole answer: that neither the name nor a wildcard exists, that the name is delegated, an
 * alias, and so on. If the data were expanded from a wildcard and the chain is NSEC3, it prints whether
 * no closer name exists than the one right above the wildcard. With --check it prints a verdict on the
 * one name and the one type. If labels come with an answer or a verdict, it also prints the name that
 * has that many labels.
 *
 * FILE is an answer as `dig +dnssec` printed it, a chain or a signed zone, one record a line. Without
 * NAME and TYPE the program takes the question of the answer. It leaves out NSEC and NSEC3 records that
 * were expanded from a wildcard, which the field Labels of their signatures shows, and passes all others
 * as they are. Of signatures the program reads only that field: a validator checks them first.
 */
#include <stdio.h>
#include <stdlib.h>
#include <string.h>

#include <denial.h>
#include "input.h"

/* The most iterations that are allowed (RFC 9276, section 3.2, leaves the number to the validator). */
enum { MOST_ITERATIONS = 150 };

/* Prints the text, and the last so many labels of the name. */
static void print_with_labels(const char *said, const ldns_rdf *name, size_t labels)
{
    ldns_rdf *left = ldns_rdf_clone(name);
    char *text;

    while (ldns_dname_label_count(left) > labels) {
        ldns_rdf *above = ldns_dname_left_chop(left);

        ldns_rdf_deep_free(left);
        left = above;
    }
    text = ldns_rdf2str(left);
    printf("%s %s\n", said, text);
    free(text);
    ldns_rdf_deep_free(left);
}

/* Whether the answer or the verdict comes with labels. */
static int has_labels(uint32_t answer)
{
    switch (answer) {
    case DENIAL_OPT_OUT:
    case DENIAL_NO_NAME:
    case DENIAL_JUDGED_REFERRAL:
    case DENIAL_JUDGED_REDIRECTED:
    case DENIAL_JUDGED_WILDCARD:
    case DENIAL_JUDGED_WILDCARD_ALIAS:
    case DENIAL_JUDGED_WILDCARD_NO_DATA:
    case DENIAL_JUDGED_NAME_ERROR:
    case DENIAL_JUDGED_MAY_BE_UNSIGNED:
    case DENIAL_JUDGED_NO_CLOSER_NAME:
        return 1;
    default:
        return 0;
    }
}

static int print_answer(uint32_t answer, const ldns_rdf *name, size_t labels)
{
    if (answer >= DENIAL_FAULT && answer < DENIAL_JUDGED_NOT_PROVEN) {
        fprintf(stderr, "denied: %s\n", denial_text(answer));
        return 1;
    }
    if (has_labels(answer))
        print_with_labels(denial_text(answer), name, labels);
    else
        puts(denial_text(answer));
    return 0;
}

/* Asks the library, by the chain that the records are of. */
static uint32_t ask(const struct input *input, const ldns_rdf *apex, int is_check, size_t *labels)
{
    const uint8_t *at_apex = ldns_rdf_data(apex), *at_name = ldns_rdf_data(input->name);
    size_t apex_length = ldns_rdf_size(apex), name_length = ldns_rdf_size(input->name);
    const uint8_t *records = ldns_buffer_begin(input->records);
    size_t length = ldns_buffer_position(input->records);
    uint16_t rtype = (uint16_t)input->rtype;

    if (is_check)
        return (input->is_hashed ? denial_check_nsec3_alone : denial_check_nsec)(
            at_apex, apex_length, at_name, name_length, rtype, LDNS_RR_CLASS_IN, records, length, labels);
    if (!input->is_hashed)
        return denial_judge_nsec(at_apex, apex_length, at_name, name_length, rtype, LDNS_RR_CLASS_IN, records, length,
                                 labels);
    if (input->is_expanded)
        return denial_judge_nsec3_expansion_alone(at_apex, apex_length, at_name, name_length, input->rrsig_labels,
                                                  LDNS_RR_CLASS_IN, MOST_ITERATIONS, records, length, labels);
    return denial_judge_nsec3_alone(at_apex, apex_length, at_name, name_length, rtype, LDNS_RR_CLASS_IN,
                                    MOST_ITERATIONS, records, length, labels);
}

int main(int argc, char **argv)
{
    struct input input = {NULL, NULL, 0, 0, 0, 0, 0};
    int is_check = argc > 1 && strcmp(argv[1], "--check") == 0, status;
    char **words = argv + 1 + is_check;
    ldns_rdf *apex;
    size_t labels;
    uint32_t answer;

    argc -= is_check;
    if (argc != 3 && argc != 5) {
        fprintf(stderr, "usage: denied [--check] APEX FILE [NAME TYPE]\n");
        return 2;
    }
    apex = name_of(words[0]);
    if (argc == 5) {
        input.name = name_of(words[2]);
        input.rtype = ldns_get_rr_type_by_name(words[3]);
    }
    input.records = ldns_buffer_new(65536);
    read_file(&input, apex, words[1]);
    if (input.name == NULL) {
        fprintf(stderr, "denied: no question: %s\n", words[1]);
        return 1;
    }
    answer = ask(&input, apex, is_check, &labels);
    status = print_answer(answer, input.name, labels);
    ldns_rdf_deep_free(apex);
    ldns_rdf_deep_free(input.name);
    ldns_buffer_free(input.records);
    return status;
}
