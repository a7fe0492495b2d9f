/* Preloaded before the C library, refuses allocations of the program that it is loaded into, which need not be built anew for that.

   REFUSE_AT names the allocation that is refused, counted from 1 over all threads; with REFUSE_ALL all later ones are refused too. REFUSE_COUNT is a
   file, whose first eight bytes are the number of all that were asked for, whatever way the program ends.

   cc -shared -fPIC -O2 -o refuse.so bench/refuse.c */
#include <errno.h>
#include <fcntl.h>
#include <stdatomic.h>
#include <stdlib.h>
#include <sys/mman.h>
#include <unistd.h>

void *__libc_malloc(size_t);
void *__libc_calloc(size_t, size_t);
void *__libc_realloc(void *, size_t);
void *__libc_memalign(size_t, size_t);

static atomic_long own_count;
static atomic_long *asked = &own_count;
static long refused_at = 0;
static int refuses_all = 0;

__attribute__((constructor)) static void begin(void) {
    const char *at = getenv("REFUSE_AT"), *name = getenv("REFUSE_COUNT");
    int file = name ? open(name, O_RDWR | O_CREAT | O_TRUNC, 0600) : -1;
    if (file >= 0 && ftruncate(file, sizeof *asked) == 0) {
        void *shared = mmap(NULL, sizeof *asked, PROT_READ | PROT_WRITE, MAP_SHARED, file, 0);
        if (shared != MAP_FAILED)
            asked = shared;
    }
    if (file >= 0)
        close(file);
    refused_at = at ? atol(at) : 0;
    refuses_all = getenv("REFUSE_ALL") != NULL;
}

static int is_refused(void) {
    long number = atomic_fetch_add(asked, 1) + 1;
    if (!refused_at || number < refused_at || (number > refused_at && !refuses_all))
        return 0;
    errno = ENOMEM;
    return 1;
}

void *malloc(size_t size) { return is_refused() ? NULL : __libc_malloc(size); }
void *calloc(size_t count, size_t size) { return is_refused() ? NULL : __libc_calloc(count, size); }
void *realloc(void *old, size_t size) { return is_refused() ? NULL : __libc_realloc(old, size); }
void *memalign(size_t alignment, size_t size) { return is_refused() ? NULL : __libc_memalign(alignment, size); }
void *aligned_alloc(size_t alignment, size_t size) { return memalign(alignment, size); }

int posix_memalign(void **place, size_t alignment, size_t size) {
    void *found = memalign(alignment, size);
    if (!found)
        return ENOMEM;
    *place = found;
    return 0;
}
