/* Refuses one request for memory of the program that it is loaded into, by LD_PRELOAD.
 *
 * REFUSED_REQUEST is the number of the request, counted from 1. Once it is refused, an octet is written to the
 * descriptor REFUSED_TOLD. The other requests go to the GNU C library, by the names that it has for its own use. */
typedef unsigned long size;

extern void *__libc_malloc(size);
extern void *__libc_calloc(size, size);
extern void *__libc_realloc(void *, size);
extern void *__libc_memalign(size, size);
extern char *getenv(const char *);
extern long write(int, const void *, size);

enum { NO_MEMORY = 12 };

static size made;

/* The number that a variable of the environment holds, or 0. */
static size number_of(const char *name)
{
    const char *digit = getenv(name);
    size number = 0;
    while (digit && *digit >= '0' && *digit <= '9')
        number = 10 * number + (size)(*digit++ - '0');
    return number;
}

static int is_refused(void)
{
    if (++made != number_of("REFUSED_REQUEST"))
        return 0;
    write((int)number_of("REFUSED_TOLD"), "", 1);
    return 1;
}

void *malloc(size octets) { return is_refused() ? 0 : __libc_malloc(octets); }

void *calloc(size items, size octets) { return is_refused() ? 0 : __libc_calloc(items, octets); }

void *realloc(void *old, size octets) { return is_refused() ? 0 : __libc_realloc(old, octets); }

void *memalign(size line, size octets) { return is_refused() ? 0 : __libc_memalign(line, octets); }

void *aligned_alloc(size line, size octets) { return is_refused() ? 0 : __libc_memalign(line, octets); }

int posix_memalign(void **to, size line, size octets)
{
    void *given = is_refused() ? 0 : __libc_memalign(line, octets);
    if (!given)
        return NO_MEMORY;
    *to = given;
    return 0;
}
