/* A first program: it asks whether an NSEC record denies a name, and prints `name error`. */
#include <denial.h>
#include <stdio.h>

static const uint8_t apex[] = "\7example", name[] = "\3www\7example";
/* example. 300 IN NSEC zone.example. NS SOA RRSIG NSEC */
static const uint8_t nsec[] = "\7example\0\0\57\0\1\0\0\1\54\0\26\4zone\7example\0\0\6\42\0\0\0\0\3";

int main(void)
{
    size_t labels; /* how many the closest encloser has */
    puts(denial_text(denial_judge_nsec(apex, 9, name, 13, 1, 1, nsec, sizeof nsec - 1, &labels)));
}
