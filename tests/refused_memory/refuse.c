/* Loaded before the C library, refuses the allocation whose number REFUSE gives, and with REFUSE_ALL=1 all after it.
   With REFUSE=0 none is refused; REFUSE_COUNT names a file that then gets their number. For the test beside it. */
#define _GNU_SOURCE
#include <errno.h>
#include <stdio.h>
#include <stdlib.h>

extern void *__libc_malloc(size_t);
extern void *__libc_realloc(void *, size_t);
extern void *__libc_calloc(size_t, size_t);
extern void *__libc_memalign(size_t, size_t);

static long count, refused = -1;

static int is_refused(void) {
    if (refused < 0) refused = getenv("REFUSE") ? atol(getenv("REFUSE")) : 0;
    count++;
    if (refused == 0 || count < refused || (count > refused && !getenv("REFUSE_ALL"))) return 0;
    errno = ENOMEM;
    return 1;
}

void *malloc(size_t size) { return is_refused() ? NULL : __libc_malloc(size); }
void *realloc(void *old, size_t size) { return is_refused() ? NULL : __libc_realloc(old, size); }
void *calloc(size_t items, size_t size) { return is_refused() ? NULL : __libc_calloc(items, size); }
void *aligned_alloc(size_t align, size_t size) { return is_refused() ? NULL : __libc_memalign(align, size); }

__attribute__((destructor)) static void tell(void) {
    const char *name = getenv("REFUSE_COUNT");
    const long all = count;
    FILE *file = name ? fopen(name, "w") : NULL;
    if (file && (fprintf(file, "%ld\n", all) < 0 || fclose(file))) _Exit(70);
}
