/* Refuses a request for memory of the program that it is loaded into (LD_PRELOAD, Linux with glibc).
 *
 * REFUSE_MEMORY_AT=N      refuses the Nth request, counted from 1; none where it is not set
 * REFUSE_MEMORY_LATER=1   refuses all later ones too
 * REFUSE_MEMORY_COUNT=F   keeps the number of requests in the file F, as 8 bytes of this processor
 *
 * A request is a call of malloc, calloc, realloc, aligned_alloc, memalign or posix_memalign, or of mmap for memory of
 * no file. What the C library takes for itself behind these calls is not counted. */
#define _GNU_SOURCE
#include <errno.h>
#include <fcntl.h>
#include <stdatomic.h>
#include <stdint.h>
#include <stdlib.h>
#include <sys/mman.h>
#include <sys/syscall.h>
#include <unistd.h>

/* What glibc gives for these calls. It has them under these names too, so that no look-up is needed: that may take
 * memory. */
void *__libc_malloc(size_t);
void *__libc_calloc(size_t, size_t);
void *__libc_realloc(void *, size_t);
void *__libc_memalign(size_t, size_t);

static _Atomic uint64_t own_count;
static _Atomic uint64_t *count = &own_count;
static uint64_t refused_at;
static int and_later;

static void *system_mmap(void *at, size_t size, int protection, int flags, int file, off_t offset) {
    return (void *)syscall(SYS_mmap, at, size, protection, flags, file, offset);
}

/* Runs before main. A request that comes before it is not counted in the file, and never refused. The count is in the
 * file at once, since a program may end in any way. */
__attribute__((constructor)) static void begin(void) {
    const char *at = getenv("REFUSE_MEMORY_AT");
    const char *later = getenv("REFUSE_MEMORY_LATER");
    const char *name = getenv("REFUSE_MEMORY_COUNT");
    if (name) {
        int file = open(name, O_RDWR | O_CREAT | O_TRUNC | O_CLOEXEC, 0666);
        if (file < 0 || ftruncate(file, sizeof own_count) != 0) _exit(99);
        void *shared = system_mmap(NULL, sizeof own_count, PROT_READ | PROT_WRITE, MAP_SHARED, file, 0);
        if (shared == MAP_FAILED) _exit(99);
        close(file);
        count = shared;
    }
    and_later = later && *later == '1';
    refused_at = at ? strtoull(at, NULL, 10) : 0;
}

static int is_refused(void) {
    uint64_t number = atomic_fetch_add(count, 1) + 1;
    if (refused_at == 0 || number < refused_at) return 0;
    if (number != refused_at && !and_later) return 0;
    errno = ENOMEM;
    return 1;
}

void *malloc(size_t size) { return is_refused() ? NULL : __libc_malloc(size); }

void *calloc(size_t number, size_t size) { return is_refused() ? NULL : __libc_calloc(number, size); }

/* No bytes give the block back, which is no request. */
void *realloc(void *block, size_t size) {
    if (block && size == 0) return __libc_realloc(block, 0);
    return is_refused() ? NULL : __libc_realloc(block, size);
}

void *memalign(size_t alignment, size_t size) { return is_refused() ? NULL : __libc_memalign(alignment, size); }

void *aligned_alloc(size_t alignment, size_t size) { return is_refused() ? NULL : __libc_memalign(alignment, size); }

int posix_memalign(void **result, size_t alignment, size_t size) {
    if (is_refused()) return ENOMEM;
    void *block = __libc_memalign(alignment, size);
    if (!block) return ENOMEM;
    *result = block;
    return 0;
}

void *mmap(void *at, size_t size, int protection, int flags, int file, off_t offset) {
    if ((flags & MAP_ANONYMOUS) && is_refused()) return MAP_FAILED;
    return system_mmap(at, size, protection, flags, file, offset);
}

void *mmap64(void *at, size_t size, int protection, int flags, int file, off_t offset) __attribute__((alias("mmap")));
