/* Wraps the C library's malloc and realloc for refuse.sh and starve.py: refuses one allocation, which the environment
 * variable REFUSE_AT counts from 1, and says so on standard error. */
#define _GNU_SOURCE
#include <dlfcn.h>
#include <stdlib.h>
#include <unistd.h>

static long count;

/* Whether this allocation is the one to refuse. */
static int is_refused(void) {
    const char *at = getenv("REFUSE_AT");
    if (!at || ++count != atol(at)) return 0;
    static const char said[] = "refused an allocation\n";
    (void)!write(2, said, sizeof said - 1);
    return 1;
}

void *malloc(size_t size) {
    static void *(*next)(size_t);
    if (!next) next = (void *(*)(size_t))dlsym(RTLD_NEXT, "malloc");
    return is_refused() ? 0 : next(size);
}

void *realloc(void *old, size_t size) {
    static void *(*next)(void *, size_t);
    if (!next) next = (void *(*)(void *, size_t))dlsym(RTLD_NEXT, "realloc");
    return size && is_refused() ? 0 : next(old, size);
}
