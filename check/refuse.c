// Refuses one growth of memory of the program that it is loaded into: the one whose number REFUSE has, counted from 1 over all
// calls of malloc, calloc and realloc. At the end it writes the file that REFUSED names, where there was such a growth.
#define _GNU_SOURCE
#include <dlfcn.h>
#include <errno.h>
#include <fcntl.h>
#include <stdatomic.h>
#include <stdlib.h>
#include <sys/syscall.h>
#include <unistd.h>

extern void *__libc_malloc(size_t);
extern void *__libc_calloc(size_t, size_t);
extern void *__libc_realloc(void *, size_t);

static atomic_ulong met;
static unsigned long refused;

__attribute__((constructor)) static void begin(void) {
    const char *number = getenv("REFUSE");
    refused = number ? strtoul(number, NULL, 10) : 0;
    atomic_store(&met, 0);
}

__attribute__((destructor)) static void tell(void) {
    const char *file = getenv("REFUSED");
    if (file && refused && atomic_load(&met) >= refused) {
        int it = open(file, O_CREAT | O_WRONLY, 0600);
        if (it >= 0) close(it);
    }
}

// A program that ends without its destructors says so too.
void _exit(int status) {
    tell();
    syscall(SYS_exit_group, status);
    __builtin_unreachable();
}

static int is_refused(void) {
    if (refused == 0 || atomic_fetch_add(&met, 1) + 1 != refused) return 0;
    errno = ENOMEM;
    return 1;
}

void *malloc(size_t size) { return is_refused() ? NULL : __libc_malloc(size); }
void *calloc(size_t count, size_t size) { return is_refused() ? NULL : __libc_calloc(count, size); }
void *realloc(void *old, size_t size) { return is_refused() ? NULL : __libc_realloc(old, size); }
