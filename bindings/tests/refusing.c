/* In the place of heap.c: refuses the allocation of a number, counted from 1, of the calls of a thread; 0 refuses none. */
#include <stdbool.h>
#include <stddef.h>
#include <stdint.h>
#include <stdlib.h>

typedef struct {
    bool ok;
    uint8_t *block;
} enforce_tried;

_Thread_local long refused_number, asked;

static uint8_t nothing;

static bool refuses(void) { return ++asked == refused_number; }

static enforce_tried tried(uint8_t *block) { return (enforce_tried){block != NULL, block ? block : &nothing}; }

enforce_tried rattle_alloc(size_t size, size_t align) { return tried(refuses() ? NULL : malloc(size ? size : align)); }

enforce_tried rattle_realloc(uint8_t *block, size_t kept, size_t size, size_t align) {
    (void)kept;
    return tried(refuses() ? NULL : realloc(block, size ? size : align));
}

void rattle_dealloc(uint8_t *block) { free(block); }
