/* Loaded before the C library, it refuses allocations of a program: those whose numbers, from 1, stand in REFUSE, the lowest first. At each of them the program is
   forked. In the child this one is refused, and in the program itself none. So one run of the program leads to each refusal, and a child does only what comes after its own.
   The files N.1 and N.2 of REFUSE_FOLDER get what the child of the allocation N writes to standard output and to standard error. The file `statuses` there has a line for
   each child: N, its status as `waitpid` gives it, and how many bytes the program itself had written to either. At most REFUSE_JOBS children run side by side.

   Where REFUSE is empty it writes how many allocations there were to standard error, as its last line.

   An unproved program has a heap of its own, which finds wrong accesses. It is led here too. Before that last line stands one for it with the number
   of the first allocation at each place and what tells the place, where a place is the innermost calls that lead to it: the same in each run. */
#define _GNU_SOURCE
#include <dlfcn.h>
#include <errno.h>
#include <fcntl.h>
#include <link.h>
#include <stdatomic.h>
#include <stdbool.h>
#include <stddef.h>
#include <stdint.h>
#include <stdio.h>
#include <stdlib.h>
#include <string.h>
#include <sys/mman.h>
#include <sys/resource.h>
#include <sys/stat.h>
#include <sys/wait.h>
#include <unistd.h>

enum { PAGE = 4096, CALLS = 8, MOST = 4096, SECONDS = 60 };

/* An allocation that is refused, in a child, and the process while it runs. */
struct child {
    long number;
    pid_t process;
    int status;
    off_t written[2];
};

extern void *__libc_stack_end;

static atomic_long count;
static bool is_led;
static uintptr_t base, end;
static uintptr_t places[MOST];
static long firsts[MOST];
static int found;
static const char *left;
static bool is_child;
static struct child children[4 * MOST];
static int forked, running;
static void *(*next_malloc)(size_t);
static void *(*next_realloc)(void *, size_t);

static const char *setting(const char *name) {
    const char *text = getenv(name);
    return text ? text : "";
}

/* Where the program itself is loaded, which comes first. */
static int read_base(struct dl_phdr_info *info, size_t size, void *unused) {
    (void)size, (void)unused;
    base = end = info->dlpi_addr;
    for (int i = 0; i < info->dlpi_phnum; i++) {
        uintptr_t last = base + info->dlpi_phdr[i].p_vaddr + info->dlpi_phdr[i].p_memsz;
        if (info->dlpi_phdr[i].p_type == PT_LOAD && last > end) end = last;
    }
    return 1;
}

/* Notes the place of an allocation of the first thread, by the frames on its stack: each has the address of the one above it, and the one to which its call returns. */
static void note(long number) {
    uintptr_t place = 0, *frame = __builtin_frame_address(0);
    if ((char *)__libc_stack_end - (char *)frame > 64 << 20) return;
    for (int i = 0; i < CALLS; i++) {
        uintptr_t *above = (uintptr_t *)frame[0];
        if (frame[1] >= base && frame[1] < end) place = (place ^ (frame[1] - base)) * 0x9e3779b97f4a7c15;
        if (above <= frame || above >= (uintptr_t *)__libc_stack_end) break;
        frame = above;
    }
    for (int i = 0; i < found; i++)
        if (places[i] == place) return;
    if (found == MOST) return;
    places[found] = place;
    firsts[found++] = number;
}

/* Waits until a child ends. From then on its number may be that of another one. */
static void await(void) {
    int status, i = 0;
    pid_t process = waitpid(-1, &status, 0);
    if (process <= 0) abort();
    while (i < forked && children[i].process != process) i++;
    if (i == forked) abort();
    children[i].process = 0;
    children[i].status = status;
    running--;
}

/* In a child: the input goes on from here, where the program had come to, and what is written goes to files of its own. It ends after so many processor seconds. */
static void part(long number, off_t from) {
    char name[PAGE];
    int file = open("/proc/self/fd/0", O_RDONLY);
    if (file < 0 || lseek(file, from, SEEK_SET) < 0 || dup2(file, 0) < 0 || close(file)) abort();
    for (int to = 1; to <= 2; to++) {
        snprintf(name, sizeof name, "%s/%ld.%d", setting("REFUSE_FOLDER"), number, to);
        file = open(name, O_WRONLY | O_CREAT | O_EXCL, 0600);
        if (file < 0 || dup2(file, to) < 0 || close(file)) abort();
    }
    if (setrlimit(RLIMIT_CPU, &(struct rlimit){SECONDS, SECONDS})) abort();
}

/* Whether this is the child in which the allocation of this number is refused. */
static bool is_forked(long number) {
    struct stat threads;
    int before = errno;
    if (running >= atoi(setting("REFUSE_JOBS"))) await();
    /* a child has the thread alone that forks it */
    if (stat("/proc/self/task", &threads) || threads.st_nlink != 3 || forked == 4 * MOST) abort();
    struct child *child = &children[forked++];
    *child = (struct child){number, 0, 0, {lseek(1, 0, SEEK_CUR), lseek(2, 0, SEEK_CUR)}};
    off_t from = lseek(0, 0, SEEK_CUR);
    if ((child->process = fork()) < 0) abort();
    is_child = child->process == 0;
    if (is_child) part(number, from);
    running++;
    errno = before;
    return is_child;
}

static bool is_refused(void) {
    char *rest;
    if (is_child) return false;
    if (!left) left = setting("REFUSE");
    long number = atomic_fetch_add(&count, 1) + 1;
    if (*left == 0 && is_led && forked == 0) note(number);
    if (*left == 0 || number != strtol(left, &rest, 10)) return false;
    left = *rest ? rest + 1 : rest;
    return is_forked(number);
}

static void *refuse(void) {
    errno = ENOMEM;
    return NULL;
}

static void *own_malloc(size_t size) { return is_refused() ? refuse() : next_malloc(size); }

static void *own_realloc(void *block, size_t size) { return is_refused() ? refuse() : next_realloc(block, size); }

void *malloc(size_t size) {
    if (!next_malloc) next_malloc = dlsym(RTLD_NEXT, "malloc");
    return own_malloc(size);
}

void *realloc(void *block, size_t size) {
    if (!next_realloc) next_realloc = dlsym(RTLD_NEXT, "realloc");
    return own_realloc(block, size);
}

/* Where the program has a function of this name, it is a jump (x86-64: e9 and the distance from the next instruction) to its own heap. It becomes a jump to here, by way of
   a page so far below it, and what it led to is returned. Otherwise nothing changes. */
static void *lead(const char *name, void *here, size_t below) {
    unsigned char *jump = dlsym(RTLD_DEFAULT, name), far[14] = {0xff, 0x25};
    unsigned char *start = jump - (uintptr_t)jump % PAGE;
    int32_t before, after;
    if (jump[0] != 0xe9) return NULL;
    unsigned char *page = mmap(start - below, PAGE, PROT_READ | PROT_WRITE, MAP_PRIVATE | MAP_ANONYMOUS, -1, 0);
    if (page == MAP_FAILED || page - jump != (after = page - (jump + 5)) + 5 || mprotect(start, 2 * PAGE, PROT_READ | PROT_WRITE | PROT_EXEC)) abort();
    memcpy(far + 6, &here, sizeof here);
    memcpy(page, far, sizeof far);
    memcpy(&before, jump + 1, sizeof before);
    memcpy(jump + 1, &after, sizeof after);
    if (mprotect(page, PAGE, PROT_READ | PROT_EXEC) || mprotect(start, 2 * PAGE, PROT_READ | PROT_EXEC)) abort();
    return jump + 5 + before;
}

__attribute__((constructor)) static void begin(void) {
    dl_iterate_phdr(read_base, NULL);
    void *heap = lead("malloc", own_malloc, 64 << 20);
    if (heap) next_malloc = heap;
    is_led = heap != NULL;
    heap = lead("realloc", own_realloc, 65 << 20);
    if (heap) next_realloc = heap;
}

/* Says how each child ended. */
static void tell_children(void) {
    char line[PAGE];
    while (running > 0) await();
    snprintf(line, sizeof line, "%s/statuses", setting("REFUSE_FOLDER"));
    int file = open(line, O_WRONLY | O_CREAT | O_EXCL, 0600);
    for (struct child *it = children; it < children + forked; it++) {
        int length = snprintf(line, sizeof line, "%ld %d %ld %ld\n", it->number, it->status, (long)it->written[0], (long)it->written[1]);
        if (write(file, line, length) != length) abort();
    }
}

__attribute__((destructor)) static void tell(void) {
    static bool is_told;
    if (is_child || is_told) return;
    is_told = true;
    if (forked > 0) {
        tell_children();
        return;
    }
    long all = atomic_load(&count);
    if (is_led) {
        fprintf(stderr, "places");
        for (int i = 0; i < found; i++) fprintf(stderr, " %ld:%lx", firsts[i], (unsigned long)places[i]);
        fprintf(stderr, "\n");
    }
    fprintf(stderr, "%ld\n", all);
}

/* A proved program ends by this call, which runs no destructor. */
__attribute__((noreturn)) void _exit(int status) {
    void (*next)(int) = dlsym(RTLD_NEXT, "_exit");
    tell();
    next(status);
    __builtin_unreachable();
}
