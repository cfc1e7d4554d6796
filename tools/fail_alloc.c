/* Makes one call of the allocator fail. For tools/fail_alloc, which preloads it.
   FAIL_ALLOC: the number of the call, counted from 1; 0 or nothing: none. FAIL_ALLOC_COUNT: a file that is told, at the
   end, how many calls there were. */
#include <errno.h>
#include <stdio.h>
#include <stdlib.h>

extern void *__libc_malloc(size_t);
extern void *__libc_calloc(size_t, size_t);
extern void *__libc_realloc(void *, size_t);
extern void *__libc_memalign(size_t, size_t);

static unsigned long calls;
static unsigned long failing;

__attribute__((constructor)) static void begin(void) {
    const char *number = getenv("FAIL_ALLOC");
    calls = 0;
    failing = number ? strtoul(number, NULL, 10) : 0;
}

__attribute__((destructor)) static void end(void) {
    const char *path = getenv("FAIL_ALLOC_COUNT");
    unsigned long counted = calls;
    failing = 0;
    if (path) {
        FILE *file = fopen(path, "w");
        if (file) {
            fprintf(file, "%lu\n", counted);
            fclose(file);
        }
    }
}

static int fails(void) {
    calls++;
    if (calls != failing)
        return 0;
    errno = ENOMEM;
    return 1;
}

void *malloc(size_t size) { return fails() ? NULL : __libc_malloc(size); }

void *calloc(size_t count, size_t size) { return fails() ? NULL : __libc_calloc(count, size); }

void *realloc(void *old, size_t size) { return fails() ? NULL : __libc_realloc(old, size); }

void *memalign(size_t alignment, size_t size) { return fails() ? NULL : __libc_memalign(alignment, size); }

void *aligned_alloc(size_t alignment, size_t size) { return memalign(alignment, size); }

int posix_memalign(void **out, size_t alignment, size_t size) {
    void *got = memalign(alignment, size);
    if (!got)
        return ENOMEM;
    *out = got;
    return 0;
}
