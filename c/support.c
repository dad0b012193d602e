/* What the libraries have beside the archive of proved code: their version, and the system's heap under the names by which the archive asks
 * for memory. No proof speaks of this file; the proofs of the archive take the three calls to be malloc, realloc and free. */

#include "memplan.h"

#include <stdbool.h>
#include <stdlib.h>

const char *memplan_version(void)
{
    return MEMPLAN_VERSION;
}

/* The answer to a request for memory: whether there was some, and where. Where there was none, the address is one at which nothing lies. */
struct attempt {
    bool made;
    void *block;
};

struct attempt rattle_alloc(size_t size, size_t alignment);
struct attempt rattle_realloc(void *block, size_t kept, size_t size, size_t alignment);
void rattle_dealloc(void *block);

static char nowhere;

static struct attempt attempt_of(void *block)
{
    struct attempt attempt = { block != NULL, block != NULL ? block : &nowhere };
    return attempt;
}

/* Alignments are powers of two up to 16, which malloc keeps. A block of no bytes has an address of its own too. */
static size_t bytes_for(size_t size, size_t alignment)
{
    return size != 0 ? size : alignment;
}

struct attempt rattle_alloc(size_t size, size_t alignment)
{
    return attempt_of(malloc(bytes_for(size, alignment)));
}

/* Where it fails, the block stays as it was. */
struct attempt rattle_realloc(void *block, size_t kept, size_t size, size_t alignment)
{
    (void)kept;
    return attempt_of(realloc(block, bytes_for(size, alignment)));
}

void rattle_dealloc(void *block)
{
    free(block);
}
