/* The memory of liba64_c.a: the three functions by which it takes blocks, over malloc, realloc and free.
 *
 * tools/c_archives compiles this file for each architecture, and puts it into the archive. A program that has its own
 * allocator links its own three in their place. The archive asks for alignments that divide 16, which malloc and
 * realloc keep where they align a block to each power of two up to 16 that divides its size.
 */
#include <stdbool.h>
#include <stddef.h>
#include <stdlib.h>

/* What came of asking for memory. */
typedef struct {
    bool found;  /* whether there is a block */
    void *block; /* the block; where there is none, an address that is not null, and is not used */
} tried;

tried rattle_alloc(size_t size, size_t alignment);
tried rattle_realloc(void *block, size_t kept, size_t size, size_t alignment);
void rattle_dealloc(void *block);

static char none;

static tried tried_of(void *block) {
    return (tried){.found = block != NULL, .block = block ? block : &none};
}

/* malloc may answer null for no bytes, which is no want of memory: so as many are asked for as the alignment says. */
static size_t at_least_some(size_t size, size_t alignment) {
    return size ? size : alignment;
}

/* A new block of so many bytes. */
tried rattle_alloc(size_t size, size_t alignment) {
    return tried_of(malloc(at_least_some(size, alignment)));
}

/* The block with another size. Its first bytes, of which `kept` count, stay as they are, as realloc has it for all of
 * them. Where there is no memory the block is as it was. */
tried rattle_realloc(void *block, size_t kept, size_t size, size_t alignment) {
    (void)kept;
    return tried_of(realloc(block, at_least_some(size, alignment)));
}

/* Gives a block back. */
void rattle_dealloc(void *block) {
    free(block);
}
