/* Refuses one allocation: the one whose number REFUSED names, counted from 1, and says so by a byte to the file descriptor TOLD.
   usage: LD_PRELOAD=refuse.so REFUSED=7 TOLD=3 PROGRAM .. */

#include <errno.h>
#include <stdatomic.h>
#include <stdlib.h>
#include <unistd.h>

static atomic_long calls;
static long refused = -1;
static int told = -1;

extern void *__libc_malloc(size_t size);
extern void *__libc_calloc(size_t count, size_t size);
extern void *__libc_realloc(void *old, size_t size);
extern void *__libc_memalign(size_t align, size_t size);

static int refuses(void) {
    if (refused < 0) {
        const char *number = getenv("REFUSED"), *descriptor = getenv("TOLD");
        refused = number ? atol(number) : 0;
        told = descriptor ? atoi(descriptor) : -1;
    }
    if (atomic_fetch_add(&calls, 1) + 1 != refused)
        return 0;
    if (told >= 0 && write(told, "!", 1) != 1)
        _exit(99);
    errno = ENOMEM;
    return 1;
}

void *malloc(size_t size) { return refuses() ? NULL : __libc_malloc(size); }
void *calloc(size_t count, size_t size) { return refuses() ? NULL : __libc_calloc(count, size); }
void *realloc(void *old, size_t size) { return refuses() ? NULL : __libc_realloc(old, size); }
void *aligned_alloc(size_t align, size_t size) { return refuses() ? NULL : __libc_memalign(align, size); }
void *memalign(size_t align, size_t size) { return refuses() ? NULL : __libc_memalign(align, size); }

int posix_memalign(void **to, size_t align, size_t size) {
    void *made = refuses() ? NULL : __libc_memalign(align, size);
    if (!made)
        return ENOMEM;
    *to = made;
    return 0;
}
