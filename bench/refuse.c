/* Refuses allocations of a program: the one of the number in REFUSE, counted from 1, or one
   in as many as REFUSE_ONE_IN says, at random by REFUSE_SEED. It is loaded before the C
   library (LD_PRELOAD), says so on standard error when it refuses the one, and leaves all
   else to that library. */
#define _GNU_SOURCE
#include <errno.h>
#include <malloc.h>
#include <stdatomic.h>
#include <stdlib.h>
#include <unistd.h>

extern void *__libc_malloc(size_t);
extern void *__libc_calloc(size_t, size_t);
extern void *__libc_realloc(void *, size_t);
extern void *__libc_memalign(size_t, size_t);

static atomic_long count;
static long refused, one_in, seed;

static long number_of(const char *name)
{
    const char *number = getenv(name);
    return number ? atol(number) : 0;
}

__attribute__((constructor)) static void begin(void)
{
    refused = number_of("REFUSE");
    one_in = number_of("REFUSE_ONE_IN");
    seed = number_of("REFUSE_SEED");
    atomic_store(&count, 0);
}

/* Whether the allocation of a number is refused at random: its number is mixed with the seed. */
static int is_unlucky(unsigned long number)
{
    unsigned long it = (number + (unsigned long)seed * 0x9e3779b97f4a7c15u) * 0xbf58476d1ce4e5b9u;
    it = (it ^ (it >> 31)) * 0x94d049bb133111ebu;
    return (it ^ (it >> 29)) % (unsigned long)one_in == 0;
}

static int is_refused(void)
{
    static const char said[] = "refused\n";
    if (one_in != 0 && is_unlucky((unsigned long)atomic_fetch_add(&count, 1))) {
        errno = ENOMEM;
        return 1;
    }
    if (refused == 0 || atomic_fetch_add(&count, 1) + 1 != refused)
        return 0;
    ssize_t written = write(2, said, sizeof said - 1);
    (void)written;
    errno = ENOMEM;
    return 1;
}

void *malloc(size_t size) { return is_refused() ? NULL : __libc_malloc(size); }

void *calloc(size_t many, size_t size) { return is_refused() ? NULL : __libc_calloc(many, size); }

void *realloc(void *old, size_t size) { return is_refused() ? NULL : __libc_realloc(old, size); }

void *memalign(size_t bound, size_t size) { return is_refused() ? NULL : __libc_memalign(bound, size); }

void *aligned_alloc(size_t bound, size_t size) { return memalign(bound, size); }

int posix_memalign(void **found, size_t bound, size_t size)
{
    void *made = memalign(bound, size);
    if (made == NULL)
        return ENOMEM;
    *found = made;
    return 0;
}
