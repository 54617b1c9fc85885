// Refuses one allocation of a program: loaded before the C library (LD_PRELOAD), it stands in the
// place of malloc and realloc, the two functions from which a program here takes memory. The call
// whose number REFUSE_NUMBER gives, counted from 1, answers NULL, and makes the file REFUSE_MARK.
#define _GNU_SOURCE
#include <dlfcn.h>
#include <fcntl.h>
#include <stdlib.h>
#include <unistd.h>

static int is_refused(void) {
    static unsigned long calls;
    const char *number = getenv("REFUSE_NUMBER");
    const char *mark = getenv("REFUSE_MARK");
    if (!number || !mark) return 0;
    if (__atomic_add_fetch(&calls, 1, __ATOMIC_SEQ_CST) != strtoul(number, 0, 10)) return 0;
    int file = open(mark, O_CREAT | O_WRONLY, 0600);
    if (file >= 0) close(file);
    return 1;
}

void *malloc(size_t size) {
    static void *(*next)(size_t);
    if (!next) next = (void *(*)(size_t))dlsym(RTLD_NEXT, "malloc");
    return is_refused() ? 0 : next(size);
}

void *realloc(void *old, size_t size) {
    static void *(*next)(void *, size_t);
    if (!next) next = (void *(*)(void *, size_t))dlsym(RTLD_NEXT, "realloc");
    return is_refused() ? 0 : next(old, size);
}
