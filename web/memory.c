/* The heap of the module: what the proved code calls for memory, and room for the files of whoever calls it.
 *
 * A block has its size ahead of it, and the sizes are four to a doubling: 16, 20, 24, 28, 32, 40 .. times 4 bytes. What
 * is given back is kept by its size for the next block of that size. Memory that isn't there is asked of the browser
 * in pieces of 16 MiB, or as much as is needed where it doesn't give one.
 */
typedef unsigned long size;
typedef struct { size is_given; char *at; } tried;

enum { ALIGNMENT = 16, PAGE = 65536, PAGES_AT_ONCE = 256, SIZES = 160 };

extern char __heap_base[];
static char *top = __heap_base;  /* where the memory begins that was never taken */
static char *kept[SIZES];        /* the first free block of each size; in it stands where the next one is */
static char nothing[ALIGNMENT];  /* what a refusal points at */

/* The size by its number, from 0. */
static size size_of(size number) { return (4 + number % 4) * 4 << number / 4; }

/* The number of the least size that is as large, or SIZES. */
static size number_of(size wanted) {
    if (wanted <= 16)
        return 0;
    if (wanted > 1ul << 40)
        return SIZES;
    size doublings = 63 - __builtin_clzl(wanted - 1) - 4;
    return doublings * 4 + ((wanted - 1) >> (doublings + 2)) - 3;
}

static size *head_of(char *block) { return (size *)(block - ALIGNMENT); }

static char *end_of(char *block, size number) {
    return block + (size_of(number) + ALIGNMENT - 1) / ALIGNMENT * ALIGNMENT;
}

/* Asks for more memory. Whether it came is seen by how much there is then, since a module with addresses of 32 bits is
   answered another number where none came. */
static int grow(size pages) {
    size before = __builtin_wasm_memory_size(0);
    __builtin_wasm_memory_grow(0, pages);
    return __builtin_wasm_memory_size(0) == before + pages;
}

/* Takes the memory up to an address, if it is there. */
static int reach(char *end) {
    size have = __builtin_wasm_memory_size(0) * PAGE, wanted = (size)end;
    size pages = wanted > have ? (wanted - have + PAGE - 1) / PAGE : 0;
    if (pages && !(pages < PAGES_AT_ONCE && grow(PAGES_AT_ONCE)) && !grow(pages))
        return 0;
    top = end;
    return 1;
}

static char *take(size wanted) {
    size number = number_of(wanted);
    if (number == SIZES)
        return 0;
    char *block = kept[number];
    if (block) {
        kept[number] = *(char **)block;
        return block;
    }
    block = top + ALIGNMENT;
    if (!reach(end_of(block, number)))
        return 0;
    *head_of(block) = number;
    return block;
}

static tried told(char *block) { return (tried){block != 0, block ? block : nothing}; }

tried rattle_alloc(size wanted, size alignment) { return told(take(wanted ? wanted : alignment)); }

void rattle_dealloc(char *block) {
    size number = *head_of(block);
    *(char **)block = kept[number];
    kept[number] = block;
}

tried rattle_realloc(char *block, size used, size wanted, size alignment) {
    size have = *head_of(block), number = number_of(wanted);
    if (wanted <= size_of(have))
        return told(block);
    if (number < SIZES && end_of(block, have) == top && reach(end_of(block, number))) {
        *head_of(block) = number;
        return told(block);
    }
    char *larger = take(wanted);
    if (larger) {
        __builtin_memcpy(larger, block, used);
        rattle_dealloc(block);
    }
    return told(larger);
}

/* Room for a file, an answer or its length: its address, or 0 where there is no memory. It isn't given back. */
char *pbaudit_room(size bytes) {
    char *room = top;
    return bytes < 1ul << 40 && reach(room + (bytes + ALIGNMENT - 1) / ALIGNMENT * ALIGNMENT) ? room : 0;
}

/* What the compiler calls and its library for this target hasn't got, or wants of its host. */
int memcmp(const void *one, const void *other, size count) {
    const unsigned char *a = one, *b = other;
    for (size at = 0; at < count; at++)
        if (a[at] != b[at])
            return a[at] < b[at] ? -1 : 1;
    return 0;
}

size __stack_chk_guard = 0x595e9fbd94fda766;
void __stack_chk_fail(void) { __builtin_trap(); }
