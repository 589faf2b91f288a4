/*
 * Calls the C library over the lines of standard input, for bench/growth: A records and one SOA record, in
 * the form of `denial`. The arguments are the apex and what to call.
 *
 *     nsec       denial_nsec_chain
 *     nsec3      denial_nsec3_chain
 *     collision  denial_nsec3_collision
 *     judge      denial_nsec_chain, and denial_judge_nsec over its records
 *     judge3     denial_nsec3_chain, and denial_judge_nsec3 over its records, for a name of 126 labels
 *
 * The exit status is 1 if a call does not do its work.
 */
#include <stdio.h>
#include <stdlib.h>
#include <string.h>

#include "denial.h"

enum { A = 1, SOA = 6, IN = 1, LONG_LIMIT = 150 };

struct octets {
    uint8_t *at;
    size_t length, room;
};

static void fail(const char *what)
{
    fprintf(stderr, "calls: %s\n", what);
    exit(1);
}

static void put(struct octets *to, const void *octets, size_t length)
{
    if (to->length + length > to->room) {
        to->room = 2 * (to->length + length);
        to->at = realloc(to->at, to->room);
        if (to->at == NULL)
            fail("out of memory");
    }
    memcpy(to->at + to->length, octets, length);
    to->length += length;
}

static void put_number(struct octets *to, unsigned long number, int octets)
{
    while (octets-- > 0) {
        uint8_t octet = (uint8_t)(number >> (8 * octets));

        put(to, &octet, 1);
    }
}

/* A name with its last dot. */
static void put_name(struct octets *to, const char *text)
{
    while (*text != 0 && strcmp(text, ".") != 0) {
        size_t label = strcspn(text, ".");

        put_number(to, label, 1);
        put(to, text, label);
        text += label + (text[label] == '.');
    }
    put_number(to, 0, 1);
}

static void put_data(struct octets *to, char **words, int count, int rtype)
{
    unsigned parts[4];

    if (rtype == A) {
        if (sscanf(words[0], "%u.%u.%u.%u", parts, parts + 1, parts + 2, parts + 3) != 4)
            fail("no address");
        for (int i = 0; i < 4; i++)
            put_number(to, parts[i], 1);
        return;
    }
    for (int i = 0; i < count; i++) {
        if (i < 2)
            put_name(to, words[i]);
        else
            put_number(to, strtoul(words[i], NULL, 10), 4);
    }
}

static void put_line(struct octets *to, char *line)
{
    struct octets data = {NULL, 0, 0};
    char *words[16];
    int count = 0, rtype;

    for (char *word = strtok(line, " \n"); word != NULL && count < 16; word = strtok(NULL, " \n"))
        words[count++] = word;
    if (count < 5)
        fail("a line is no record");
    rtype = strcmp(words[3], "SOA") == 0 ? SOA : A;
    put_data(&data, words + 4, count - 4, rtype);
    put_name(to, words[0]);
    put_number(to, (unsigned long)rtype, 2);
    put_number(to, IN, 2);
    put_number(to, strtoul(words[1], NULL, 10), 4);
    put_number(to, data.length, 2);
    put(to, data.at, data.length);
    free(data.at);
}

/* A name of 126 labels: as many labels of one octet as there is room for, below the apex. */
static void put_deep(struct octets *to, const struct octets *apex)
{
    while (to->length + apex->length + 2 <= DENIAL_NAME_ROOM)
        put(to, "\1q", 2);
    put(to, apex->at, apex->length);
}

static uint32_t chain(int hashed, const struct octets *apex, const struct octets *zone, struct octets *made)
{
    size_t count = 0;

    made->room = 8 * zone->length + 4096;
    made->at = malloc(made->room);
    if (made->at == NULL)
        fail("out of memory");
    uint32_t said = hashed ? denial_nsec3_chain(apex->at, apex->length, IN, true, false, 0, NULL, 0, false,
                                                zone->at, zone->length, made->at, made->room, &count)
                           : denial_nsec_chain(apex->at, apex->length, IN, true, false, zone->at, zone->length,
                                               made->at, made->room, &count);
    made->length = count;
    return said;
}

int main(int argc, char **argv)
{
    struct octets apex = {NULL, 0, 0}, zone = {NULL, 0, 0}, name = {NULL, 0, 0}, made = {NULL, 0, 0};
    static char line[1024];
    size_t labels = 0;

    if (argc != 3)
        fail("usage: calls APEX CALL < LINES");
    put_name(&apex, argv[1]);
    put_deep(&name, &apex);
    while (fgets(line, sizeof line, stdin) != NULL)
        put_line(&zone, line);
    const char *call = argv[2];
    int hashed = strchr(call, '3') != NULL;

    if (strcmp(call, "collision") == 0) {
        if (denial_nsec3_collision(apex.at, apex.length, IN, false, 0, NULL, 0, false, zone.at, zone.length,
                                   NULL, NULL) != DENIAL_NO_COLLISION)
            fail("collision");
        return 0;
    }
    if (chain(hashed, &apex, &zone, &made) != DENIAL_CHAIN_MADE)
        fail("no chain");
    if (strncmp(call, "judge", 5) != 0)
        return 0;
    uint32_t said = hashed ? denial_judge_nsec3(apex.at, apex.length, name.at, name.length, A, IN, LONG_LIMIT,
                                                made.at, made.length, &labels)
                           : denial_judge_nsec(apex.at, apex.length, name.at, name.length, A, IN, made.at,
                                               made.length, &labels);
    if (said != DENIAL_JUDGED_NAME_ERROR)
        fail(denial_text(said));
    return 0;
}
