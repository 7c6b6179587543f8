/* Refuses one growth of a program, and counts them. refused_memory.py builds it and loads it before the C library.

   A growth is a call that asks for memory after main has begun: malloc, calloc, realloc and reallocarray of more than no bytes,
   aligned_alloc, memalign and posix_memalign, whether the program makes it or the C library on its behalf. The stacks of threads,
   which the C library maps by itself, and what the loader takes before main are none. GROWTHS is the descriptor of a file of eight
   bytes that holds the count; REFUSED is the number of the growth to refuse, from 1, or 0 for none. */
#define _GNU_SOURCE
#include <dlfcn.h>
#include <errno.h>
#include <stdatomic.h>
#include <stdlib.h>
#include <sys/mman.h>
#include <unistd.h>

typedef int Main(int, char **, char **);
typedef int Start(Main *, int, char **, void (*)(void), void (*)(void), void (*)(void), void *);

extern void *__libc_malloc(size_t), *__libc_calloc(size_t, size_t), *__libc_realloc(void *, size_t), *__libc_memalign(size_t, size_t);

static _Atomic unsigned long *growths;
static unsigned long refused;
static Main *program;

static int refuses(void) {
    if (!growths || atomic_fetch_add(growths, 1) + 1 != refused) return 0;
    errno = ENOMEM;
    return 1;
}

void *malloc(size_t size) { return refuses() ? NULL : __libc_malloc(size); }
void *calloc(size_t count, size_t size) { return refuses() ? NULL : __libc_calloc(count, size); }
void *realloc(void *block, size_t size) { return size && refuses() ? NULL : __libc_realloc(block, size); }
void *memalign(size_t alignment, size_t size) { return refuses() ? NULL : __libc_memalign(alignment, size); }
void *aligned_alloc(size_t alignment, size_t size) { return memalign(alignment, size); }

void *reallocarray(void *block, size_t count, size_t size) {
    size_t bytes;
    return __builtin_mul_overflow(count, size, &bytes) ? NULL : realloc(block, bytes);
}

int posix_memalign(void **block, size_t alignment, size_t size) {
    void *taken = memalign(alignment, size);
    if (taken) *block = taken;
    return taken ? 0 : ENOMEM;
}

static int counted(int count, char **words, char **environment) {
    int file = atoi(getenv("GROWTHS"));
    void *shared = mmap(NULL, sizeof *growths, PROT_READ | PROT_WRITE, MAP_SHARED, file, 0);
    if (shared == MAP_FAILED) _exit(127);
    close(file);
    refused = strtoul(getenv("REFUSED"), NULL, 10);
    growths = shared;
    return program(count, words, environment);
}

int __libc_start_main(Main *main, int count, char **words, void (*init)(void), void (*fini)(void), void (*loader)(void), void *stack) {
    program = main;
    return ((Start *)dlsym(RTLD_NEXT, "__libc_start_main"))(counted, count, words, init, fini, loader, stack);
}
