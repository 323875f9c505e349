// A library to preload: refuses the growths of a program's memory, by malloc, calloc, realloc,
// aligned_alloc and posix_memalign, whose numbers, counted from 1, are those from WANTING_FROM to
// WANTING_TO, and writes at the program's end how many were asked for into the file that
// WANTING_COUNT names. Smaller sizes count too; memory that is given back doesn't.
#define _GNU_SOURCE
#include <dlfcn.h>
#include <errno.h>
#include <stdatomic.h>
#include <stdio.h>
#include <stdlib.h>
#include <sys/syscall.h>
#include <unistd.h>

extern void *__libc_malloc(size_t);
extern void *__libc_calloc(size_t, size_t);
extern void *__libc_realloc(void *, size_t);
extern void *__libc_memalign(size_t, size_t);

static atomic_ulong asked;
static unsigned long from, to;

static unsigned long number_of(const char *name) {
    const char *text = getenv(name);
    return text == NULL ? 0 : strtoul(text, NULL, 10);
}

__attribute__((constructor)) static void begin(void) {
    from = number_of("WANTING_FROM");
    to = number_of("WANTING_TO");
    atomic_store(&asked, 0);
}

__attribute__((destructor)) static void end(void) {
    const unsigned long count = atomic_load(&asked);
    const char *name = getenv("WANTING_COUNT");
    FILE *file = name == NULL ? NULL : fopen(name, "w");
    if (file == NULL) return;
    fprintf(file, "%lu\n", count);
    fclose(file);
}

// The program ends by this call, after which no destructor runs.
void _exit(int status) {
    end();
    syscall(SYS_exit_group, status);
    __builtin_unreachable();
}

static int is_refused(void) {
    const unsigned long number = atomic_fetch_add(&asked, 1) + 1;
    if (number < from || number > to) return 0;
    errno = ENOMEM;
    return 1;
}

void *malloc(size_t size) { return is_refused() ? NULL : __libc_malloc(size); }

void *calloc(size_t count, size_t size) {
    return is_refused() ? NULL : __libc_calloc(count, size);
}

void *realloc(void *old, size_t size) { return is_refused() ? NULL : __libc_realloc(old, size); }

void *aligned_alloc(size_t alignment, size_t size) {
    return is_refused() ? NULL : __libc_memalign(alignment, size);
}

int posix_memalign(void **result, size_t alignment, size_t size) {
    if (is_refused()) return ENOMEM;
    *result = __libc_memalign(alignment, size);
    return *result == NULL ? ENOMEM : 0;
}
