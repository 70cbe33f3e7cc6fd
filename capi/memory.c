/* The memory that the library takes: its three functions over malloc, realloc and free.
 *
 * A block may be asked to be aligned to 1, 2, 4, 8 or 16 bytes, which is what malloc and realloc give a block of a
 * size that is a multiple of it. Sizes stay below 2^63. Where there is no memory, the answer names no block, and a
 * pointer that is not null comes beside it. */
#include <stdalign.h>
#include <stdbool.h>
#include <stddef.h>
#include <stdlib.h>

struct tried {
    bool is_block;
    void *block;
};

struct tried rattle_alloc(size_t size, size_t align);
struct tried rattle_realloc(void *block, size_t kept, size_t size, size_t align);
void rattle_dealloc(void *block);

_Static_assert(sizeof(size_t) == 8 && alignof(max_align_t) >= 16, "the library is for 64 bits and blocks aligned to 16");

static char none;

static struct tried answer(void *block) {
    struct tried tried = {block != NULL, block != NULL ? block : &none};
    return tried;
}

/* New memory of this size. For no bytes malloc may answer null, so it is asked for some. */
struct tried rattle_alloc(size_t size, size_t align) {
    return answer(malloc(size != 0 ? size : align));
}

/* The block with another size, which may move it. What it begins with, `kept` bytes and more, stays. Where there is no
 * memory, the block is as it was. */
struct tried rattle_realloc(void *block, size_t kept, size_t size, size_t align) {
    (void)kept;
    return answer(realloc(block, size != 0 ? size : align));
}

void rattle_dealloc(void *block) {
    free(block);
}
