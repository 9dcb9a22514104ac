/* Stands before the C library's calls for memory: refuses the one that REFUSE names, counted from 1, or with REFUSE=all each. Where AFTER is
   set, the calls are counted behind the first for so many bytes, which is granted. What was refused is told by a byte on descriptor TOLD. */
#define _GNU_SOURCE
#include <dlfcn.h>
#include <errno.h>
#include <stddef.h>
#include <stdlib.h>
#include <string.h>
#include <unistd.h>

static size_t count, refused, after;
static int told = -1, all, begun;

static void read_words(void) {
    const char *word = getenv("REFUSE");
    all = word && !strcmp(word, "all");
    refused = word ? strtoul(word, NULL, 10) : 0;
    word = getenv("AFTER");
    after = word ? strtoul(word, NULL, 10) : 0;
    word = getenv("TOLD");
    told = word ? atoi(word) : -1;
    begun = after ? 1 : 2;
}

static int is_refused(size_t size) {
    if (!begun)
        read_words();
    if (begun == 1) {
        if (size == after)
            begun = 2;
        return 0;
    }
    count++;
    if (!all && count != refused)
        return 0;
    if (told >= 0 && write(told, "x", 1) < 0)
        _exit(120);
    errno = ENOMEM;
    return 1;
}

#define NEXT(function) \
    static __typeof__(&function) next; \
    if (!next) \
        next = (__typeof__(&function))dlsym(RTLD_NEXT, #function)

void *malloc(size_t size) {
    NEXT(malloc);
    return is_refused(size) ? NULL : next(size);
}

void *calloc(size_t number, size_t size) {
    NEXT(calloc);
    return is_refused(number * size) ? NULL : next(number, size);
}

void *realloc(void *old, size_t size) {
    NEXT(realloc);
    return is_refused(size) ? NULL : next(old, size);
}

void *aligned_alloc(size_t alignment, size_t size) {
    NEXT(aligned_alloc);
    return is_refused(size) ? NULL : next(alignment, size);
}

int posix_memalign(void **made, size_t alignment, size_t size) {
    NEXT(posix_memalign);
    return is_refused(size) ? ENOMEM : next(made, alignment, size);
}
