/* For LD_PRELOAD: memory that is refused. REFUSE_FROM=K refuses the K-th allocation of the process and every later one,
   REFUSE_ONLY=K that one alone, and REFUSE_TOLD=PATH has the number of allocations counted in a file of eight bytes. */
#include <errno.h>
#include <fcntl.h>
#include <stdatomic.h>
#include <stddef.h>
#include <stdlib.h>
#include <sys/mman.h>
#include <unistd.h>

extern void *__libc_malloc(size_t);
extern void *__libc_calloc(size_t, size_t);
extern void *__libc_realloc(void *, size_t);
extern void *__libc_memalign(size_t, size_t);

static atomic_long own_count;
static atomic_long *count = &own_count;
static long from, only;

static long number_in(const char *name) {
    const char *text = getenv(name);
    return text ? atol(text) : 0;
}

/* The counter lies in the file, since a program may end without a word to its libraries. */
static void count_in(const char *path) {
    int file = open(path, O_RDWR | O_CREAT | O_TRUNC, 0644);
    if (file < 0 || ftruncate(file, sizeof(atomic_long)))
        return;
    void *place = mmap(NULL, sizeof(atomic_long), PROT_READ | PROT_WRITE, MAP_SHARED, file, 0);
    close(file);
    if (place != MAP_FAILED)
        count = place;
}

__attribute__((constructor)) static void begin(void) {
    const char *told = getenv("REFUSE_TOLD");
    if (told && *told)
        count_in(told);
    atomic_store(count, 0);
    from = number_in("REFUSE_FROM");
    only = number_in("REFUSE_ONLY");
}

static int is_refused(void) {
    long number = atomic_fetch_add(count, 1) + 1;
    if ((from && number >= from) || (only && number == only)) {
        errno = ENOMEM;
        return 1;
    }
    return 0;
}

void *malloc(size_t size) { return is_refused() ? NULL : __libc_malloc(size); }

void *calloc(size_t items, size_t size) { return is_refused() ? NULL : __libc_calloc(items, size); }

void *realloc(void *old, size_t size) { return is_refused() ? NULL : __libc_realloc(old, size); }

void *aligned_alloc(size_t align, size_t size) { return is_refused() ? NULL : __libc_memalign(align, size); }

void *memalign(size_t align, size_t size) { return is_refused() ? NULL : __libc_memalign(align, size); }

int posix_memalign(void **place, size_t align, size_t size) {
    void *got = is_refused() ? NULL : __libc_memalign(align, size);
    if (!got)
        return ENOMEM;
    *place = got;
    return 0;
}
