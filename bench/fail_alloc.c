/* Preloaded: refuses the allocations from the number FAIL_FIRST on, FAIL_COUNT of them, counted from 1 over all threads.
   How many were asked for stands in the file FAIL_TOLD, as eight octets, whatever way the program ends. The file FAIL_FROM
   has FAIL_FIRST, as eight octets, and may be written while the program runs; 0 refuses nothing. */
#define _GNU_SOURCE
#include <dlfcn.h>
#include <errno.h>
#include <fcntl.h>
#include <stdatomic.h>
#include <stdlib.h>
#include <sys/mman.h>
#include <unistd.h>

extern void *__libc_malloc(size_t);
extern void *__libc_calloc(size_t, size_t);
extern void *__libc_realloc(void *, size_t);
extern void *__libc_memalign(size_t, size_t);

static atomic_ulong own_asked, own_first;
static atomic_ulong *asked = &own_asked, *first = &own_first;
static unsigned long count;
static atomic_int is_read;

static void read_numbers(void) {
    const char *text = getenv("FAIL_FIRST");
    atomic_store(first, text ? strtoul(text, 0, 10) : 0);
    text = getenv("FAIL_COUNT");
    count = text ? strtoul(text, 0, 10) : 1;
    atomic_store(&is_read, 1);
}

/* a number that stands in a file, where one is named */
static void share(atomic_ulong **number, const char *name) {
    const char *path = getenv(name);
    if (!path || !*path) return;
    int file = open(path, O_RDWR | O_CREAT | O_TRUNC, 0644);
    if (file < 0 || ftruncate(file, sizeof **number) != 0) _exit(99);
    void *mapped = mmap(0, sizeof **number, PROT_READ | PROT_WRITE, MAP_SHARED, file, 0);
    if (mapped == MAP_FAILED) _exit(99);
    *number = mapped;
    close(file);
}

__attribute__((constructor)) static void begin(void) {
    share(&asked, "FAIL_TOLD");
    share(&first, "FAIL_FROM");
    read_numbers();
}

static int is_refused(void) {
    /* what the loader asks for before any code of the program is not counted */
    if (!atomic_load(&is_read)) return 0;
    unsigned long number = atomic_fetch_add(asked, 1) + 1;
    unsigned long from = atomic_load(first);
    if (from && number >= from && number - from < count) {
        errno = ENOMEM;
        return 1;
    }
    return 0;
}

void *malloc(size_t size) { return is_refused() ? 0 : __libc_malloc(size); }
void *calloc(size_t n, size_t size) { return is_refused() ? 0 : __libc_calloc(n, size); }
void *realloc(void *old, size_t size) { return is_refused() ? 0 : __libc_realloc(old, size); }
void *memalign(size_t to, size_t size) { return is_refused() ? 0 : __libc_memalign(to, size); }
void *aligned_alloc(size_t to, size_t size) { return is_refused() ? 0 : __libc_memalign(to, size); }
int posix_memalign(void **out, size_t to, size_t size) {
    if (is_refused()) return ENOMEM;
    void *got = __libc_memalign(to, size);
    if (!got) return ENOMEM;
    *out = got;
    return 0;
}
