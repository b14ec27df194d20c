/* How the proved code takes memory where the kit has no C for the processor: by malloc, realloc and free, as the kit's
   liblibc_c.a does on x86-64. */
#include <stdlib.h>

typedef struct { size_t is_given; void *at; } tried;

static char nothing[16]; /* what a refusal points at */

static tried told(void *block) { return (tried){block != NULL, block ? block : nothing}; }

tried rattle_alloc(size_t wanted, size_t alignment) { return told(malloc(wanted ? wanted : alignment)); }

tried rattle_realloc(void *block, size_t used, size_t wanted, size_t alignment) {
    (void)used;
    return told(realloc(block, wanted ? wanted : alignment));
}

void rattle_dealloc(void *block) { free(block); }
