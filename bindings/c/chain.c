/*
 * Makes the NSEC chain of the zone in examples/small.zone, and prints its records, one a line, as
 * examples/small.nsec has them. It needs no other library.
 */
#include <stdio.h>
#include <stdlib.h>
#include <string.h>

#include <denial.h>

enum { A = 1, NS = 2, SOA = 6, IN = 1 };

/* Octets that grow. */
struct octets {
    uint8_t at[1024];
    size_t length;
};

static void put(struct octets *to, const void *octets, size_t length)
{
    memcpy(to->at + to->length, octets, length);
    to->length += length;
}

static void put_number(struct octets *to, unsigned long number, int octets)
{
    while (octets-- > 0)
        to->at[to->length++] = (uint8_t)(number >> (8 * octets));
}

/* A name from its text: labels, each with a dot after it. */
static void put_name(struct octets *to, const char *text)
{
    while (*text != 0) {
        size_t label = strcspn(text, ".");

        put_number(to, label, 1);
        put(to, text, label);
        text += label + 1;
    }
    put_number(to, 0, 1);
}

/* A record as a message has it, without compression. */
static void put_record(struct octets *to, const char *owner, int rtype, unsigned long ttl, const struct octets *data)
{
    put_name(to, owner);
    put_number(to, (unsigned long)rtype, 2);
    put_number(to, IN, 2);
    put_number(to, ttl, 4);
    put_number(to, data->length, 2);
    put(to, data->at, data->length);
}

/* The records of the zone. Their order is of no matter. */
static void put_zone(struct octets *to)
{
    struct octets soa = {{0}, 0}, ns = {{0}, 0}, server = {{198, 51, 100, 53}, 4}, host = {{198, 51, 100, 80}, 4};
    static const unsigned long numbers[] = {2026112201, 7200, 900, 1209600, 300};
    size_t at;

    put_name(&soa, "ns.example.net.");
    put_name(&soa, "hostmaster.example.net.");
    for (at = 0; at < sizeof numbers / sizeof *numbers; at++)
        put_number(&soa, numbers[at], 4);
    put_name(&ns, "ns.example.net.");
    put_record(to, "www.example.net.", A, 300, &host);
    put_record(to, "ns.example.net.", A, 3600, &server);
    put_record(to, "example.net.", NS, 3600, &ns);
    put_record(to, "example.net.", SOA, 3600, &soa);
}

/* Prints a name without compression, and gives what follows it. */
static const uint8_t *print_name(const uint8_t *name)
{
    for (; *name != 0; name += 1 + *name)
        printf("%.*s.", *name, (const char *)name + 1);
    return name + 1;
}

/* Prints a type by its name, where it is one of this zone's chain. */
static void print_type(unsigned rtype)
{
    static const char *const names[] = {[A] = "A", [NS] = "NS", [SOA] = "SOA", [46] = "RRSIG", [47] = "NSEC", [48] = "DNSKEY"};

    if (rtype < sizeof names / sizeof *names && names[rtype] != NULL)
        printf(" %s", names[rtype]);
    else
        printf(" TYPE%u", rtype);
}

/* Prints the types of a bitmap: blocks of a window, a length and bits (RFC 4034, section 4.1.2). */
static void print_types(const uint8_t *at, const uint8_t *end)
{
    while (at < end) {
        unsigned bit;

        for (bit = 0; bit < 8u * at[1]; bit++)
            if (at[2 + bit / 8] & (0x80 >> bit % 8))
                print_type(256u * at[0] + bit);
        at += 2 + at[1];
    }
}

/* Prints an NSEC record, and counts it in `context`. */
static int print_record(void *context, const uint8_t *record, size_t length)
{
    const uint8_t *header = print_name(record);
    unsigned long ttl = (unsigned long)header[4] << 24 | (unsigned long)header[5] << 16 | (unsigned long)header[6] << 8 | header[7];

    printf(" %lu IN NSEC ", ttl);
    print_types(print_name(header + 10), record + length);
    putchar('\n');
    ++*(size_t *)context;
    return 0;
}

int main(void)
{
    struct octets apex = {{0}, 0}, zone = {{0}, 0};
    size_t count, records = 0;
    uint8_t nothing, *chain;
    uint32_t answer;

    put_name(&apex, "example.net.");
    put_zone(&zone);
    /* A buffer without room asks how many octets the chain has. */
    answer = denial_nsec_chain(apex.at, apex.length, IN, true, false, zone.at, zone.length, &nothing, 0, &count);
    chain = answer == DENIAL_SHORT_BUFFER ? malloc(count) : NULL;
    if (chain != NULL)
        answer = denial_nsec_chain(apex.at, apex.length, IN, true, false, zone.at, zone.length, chain, count, &count);
    if (answer != DENIAL_CHAIN_MADE) {
        fprintf(stderr, "chain: %s\n", denial_text(answer));
        free(chain);
        return 1;
    }
    denial_each_record(chain, count, print_record, &records);
    free(chain);
    return records == 3 ? 0 : 1;
}
