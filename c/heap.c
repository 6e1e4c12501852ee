/* The heap of libcherisim: the functions that its proved code calls for memory. They are trusted: no proof looks at them.
 * Alignments divide 16, which malloc's does. A block of no bytes gets its alignment as size, and so an address of its own. */
#include <stddef.h>
#include <stdint.h>
#include <stdlib.h>
_Static_assert(_Alignof(max_align_t) % 16 == 0, "malloc aligns to 16 bytes");
typedef struct { uint8_t ok; void *block; } tried_t;
static uint8_t nothing; /* where nothing was allocated: `block` is never null */
static tried_t tried(void *block) { return (tried_t){block != NULL, block ? block : &nothing}; }
tried_t rattle_alloc(size_t size, size_t align) { return tried(malloc(size ? size : align)); }
tried_t rattle_realloc(void *block, size_t kept, size_t size, size_t align)
{
    (void)kept;
    return tried(realloc(block, size ? size : align));
}
void rattle_dealloc(void *block) { free(block); }
