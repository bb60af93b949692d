/* Loaded before the C library, it refuses one allocation of a program: the one whose number, counted from 1, is in
 * REFUSE_ALLOCATION. It writes a line to standard error when it does. */
#include <errno.h>
#include <stddef.h>
#include <stdlib.h>
#include <unistd.h>

extern void *__libc_malloc(size_t size);
extern void *__libc_calloc(size_t count, size_t size);
extern void *__libc_realloc(void *old, size_t size);
extern void *__libc_memalign(size_t alignment, size_t size);

static const char refused_line[] = "allocation refused\n";
static unsigned long made, refused_at;

__attribute__((constructor)) static void read_number(void) {
    const char *number = getenv("REFUSE_ALLOCATION");
    refused_at = number ? strtoul(number, NULL, 10) : 0;
}

static int is_refused(void) {
    if (refused_at == 0 || ++made != refused_at)
        return 0;
    if (write(STDERR_FILENO, refused_line, sizeof refused_line - 1) < 0)
        abort();
    errno = ENOMEM;
    return 1;
}

void *malloc(size_t size) { return is_refused() ? NULL : __libc_malloc(size); }

void *calloc(size_t count, size_t size) { return is_refused() ? NULL : __libc_calloc(count, size); }

void *realloc(void *old, size_t size) { return is_refused() ? NULL : __libc_realloc(old, size); }

void *aligned_alloc(size_t alignment, size_t size) { return is_refused() ? NULL : __libc_memalign(alignment, size); }

int posix_memalign(void **made_at, size_t alignment, size_t size) {
    if (is_refused())
        return ENOMEM;
    *made_at = __libc_memalign(alignment, size);
    return *made_at ? 0 : ENOMEM;
}
