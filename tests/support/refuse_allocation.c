/* Preloaded before a program: counts its allocations, and refuses one. The file REFUSALS has three numbers of eight bytes,
   which whoever started the program may read and write while it runs: how many allocations were made, the number of the
   one that is refused, the first being 1, and how many were refused. */
#define _GNU_SOURCE
#include <dlfcn.h>
#include <errno.h>
#include <fcntl.h>
#include <stdint.h>
#include <stdlib.h>
#include <sys/mman.h>
#include <unistd.h>

enum { MADE, REFUSED_NUMBER, REFUSED, COUNT };

static volatile uint64_t *numbers;

__attribute__((constructor)) static void begin(void) {
    const char *path = getenv("REFUSALS");
    int file = path == NULL ? -1 : open(path, O_RDWR);
    if (file < 0) return;
    void *shared = mmap(NULL, COUNT * sizeof(uint64_t), PROT_READ | PROT_WRITE, MAP_SHARED, file, 0);
    close(file);
    if (shared != MAP_FAILED) numbers = shared;
}

static int is_refused(void) {
    if (numbers == NULL) return 0;
    numbers[MADE] += 1;
    if (numbers[MADE] != numbers[REFUSED_NUMBER]) return 0;
    numbers[REFUSED] += 1;
    return 1;
}

static void *next(const char *name) { return dlsym(RTLD_NEXT, name); }

void *malloc(size_t size) {
    static void *(*real)(size_t);
    if (real == NULL) real = (void *(*)(size_t))next("malloc");
    if (!is_refused()) return real(size);
    errno = ENOMEM;
    return NULL;
}

void *realloc(void *old, size_t size) {
    static void *(*real)(void *, size_t);
    if (real == NULL) real = (void *(*)(void *, size_t))next("realloc");
    if (!is_refused()) return real(old, size);
    errno = ENOMEM;
    return NULL;
}

void *aligned_alloc(size_t alignment, size_t size) {
    static void *(*real)(size_t, size_t);
    if (real == NULL) real = (void *(*)(size_t, size_t))next("aligned_alloc");
    if (!is_refused()) return real(alignment, size);
    errno = ENOMEM;
    return NULL;
}

int posix_memalign(void **made_at, size_t alignment, size_t size) {
    static int (*real)(void **, size_t, size_t);
    if (real == NULL) real = (int (*)(void **, size_t, size_t))next("posix_memalign");
    return is_refused() ? ENOMEM : real(made_at, alignment, size);
}
