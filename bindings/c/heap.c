/* The three functions by which the library gets its memory, over the program's malloc, realloc and free. They are trusted: the library's proofs
   take them to do what is said here, and nothing checks it. All three come from one allocator, which aligns a block up to 16 bytes. */
#include <stdbool.h>
#include <stddef.h>
#include <stdint.h>
#include <stdlib.h>

/* Whether there is memory, and where. Where there is none, the pointer is of a byte that no one reads or writes. */
typedef struct {
    bool ok;
    uint8_t *block;
} enforce_tried;

enforce_tried rattle_alloc(size_t size, size_t align);
enforce_tried rattle_realloc(uint8_t *block, size_t kept, size_t size, size_t align);
void rattle_dealloc(uint8_t *block);

/* Which library it is, for whoever has the file alone: `strings libenforce.a | grep "^enforce "`. */
#ifdef ENFORCE_SOURCES
__attribute__((used)) static const char which[] = "enforce " ENFORCE_SOURCES;
#endif

static uint8_t nothing;

static enforce_tried tried(uint8_t *block) { return (enforce_tried){block != NULL, block ? block : &nothing}; }

/* A block of this size; a size of 0 takes the alignment's place, so that each block has an address of its own. */
enforce_tried rattle_alloc(size_t size, size_t align) { return tried(malloc(size ? size : align)); }

/* The block at another size, with its first bytes as they were; where there is no memory, the block is as it was. */
enforce_tried rattle_realloc(uint8_t *block, size_t kept, size_t size, size_t align) {
    (void)kept;
    return tried(realloc(block, size ? size : align));
}

void rattle_dealloc(uint8_t *block) { free(block); }
