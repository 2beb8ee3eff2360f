// Preloaded into a program of one thread: counts the bytes that malloc, calloc and realloc gave it and that it has not freed, each block with the word that malloc keeps before it. At each write to standard output it prints the
// count on standard error. For the GNU C library.
#include <malloc.h>
#include <stdio.h>
#include <sys/syscall.h>
#include <unistd.h>

extern void *__libc_malloc(size_t size);
extern void *__libc_calloc(size_t count, size_t size);
extern void *__libc_realloc(void *old, size_t size);
extern void __libc_free(void *block);

static size_t live;

static size_t size_of(void *block) {
    return block == NULL ? 0 : malloc_usable_size(block) + sizeof(size_t);
}

static void *counted(void *block) {
    live += size_of(block);
    return block;
}

void *malloc(size_t size) {
    return counted(__libc_malloc(size));
}

void *calloc(size_t count, size_t size) {
    return counted(__libc_calloc(count, size));
}

void *realloc(void *old, size_t size) {
    size_t before = size_of(old);
    void *block = __libc_realloc(old, size);
    if (block != NULL || size == 0) {
        live -= before;
    }
    return counted(block);
}

void free(void *block) {
    live -= size_of(block);
    __libc_free(block);
}

ssize_t write(int to, const void *bytes, size_t count) {
    if (to == STDOUT_FILENO) {
        dprintf(STDERR_FILENO, "live %zu\n", live);
    }
    return syscall(SYS_write, to, bytes, count);
}
