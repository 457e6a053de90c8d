/* The heap for compiled Rattle, over the C library's heap. It is for machines for which the kit has no object of its own. */
#include <stdint.h>
#include <stdlib.h>

struct block {
    uint64_t found;
    void *at;
};

static uint64_t nothing;

static struct block block_of(void *at) { return (struct block){at != NULL, at != NULL ? at : &nothing}; }

struct block rattle_alloc(uint64_t size, uint64_t align) {
    return block_of(malloc(size != 0 ? size : align));
}

struct block rattle_realloc(void *at, uint64_t old, uint64_t size, uint64_t align) {
    (void)old;
    return block_of(realloc(at, size != 0 ? size : align));
}

void rattle_dealloc(void *at) { free(at); }
