/* Lets one request for memory fail: the one with the number in REFUSE_REQUEST, counted from 1. With
   REFUSE_ALL_LATER set, all later ones fail too. The first failure writes one octet to the
   descriptor in REFUSE_TOLD. Preload it: cc -shared -fPIC -o refuse_memory.so refuse_memory.c */
#include <errno.h>
#include <stddef.h>
#include <stdlib.h>
#include <unistd.h>

extern void *__libc_malloc(size_t size);
extern void *__libc_realloc(void *held, size_t size);

static unsigned long requests;

static int is_refused(void)
{
    static long first = -1;
    static int all_later;
    if (first < 0) {
        const char *number = getenv("REFUSE_REQUEST");
        first = number ? atol(number) : 0;
        all_later = getenv("REFUSE_ALL_LATER") != NULL;
    }
    requests++;
    if (first == 0 || requests < (unsigned long)first)
        return 0;
    if (requests > (unsigned long)first && !all_later)
        return 0;
    if (requests == (unsigned long)first)
        (void)!write(atoi(getenv("REFUSE_TOLD")), "r", 1);
    errno = ENOMEM;
    return 1;
}

void *malloc(size_t size)
{
    return is_refused() ? NULL : __libc_malloc(size);
}

void *realloc(void *held, size_t size)
{
    return is_refused() ? NULL : __libc_realloc(held, size);
}
