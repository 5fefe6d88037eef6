/* The memory of the store, from malloc, for a machine for which the kit has no library for it: `make HEAP=`, see Makefile. */
#include <stdbool.h>
#include <stddef.h>
#include <stdlib.h>

/* Whether there is memory, and where; if there is none, a byte. */
struct tried {
    bool ok;
    void *at;
};

struct tried rattle_alloc(size_t length, size_t alignment);
struct tried rattle_realloc(void *at, size_t kept, size_t length, size_t alignment);
void rattle_dealloc(void *at);

static struct tried tried(void *at)
{
    static char nowhere;
    return (struct tried){at != NULL, at ? at : &nowhere};
}

/* malloc aligns to 16, which is the most that is asked for. A block of no bytes gets as many as its alignment. */
struct tried rattle_alloc(size_t length, size_t alignment) { return tried(malloc(length ? length : alignment)); }

struct tried rattle_realloc(void *at, size_t kept, size_t length, size_t alignment)
{
    (void)kept;
    return tried(realloc(at, length ? length : alignment));
}

void rattle_dealloc(void *at) { free(at); }
