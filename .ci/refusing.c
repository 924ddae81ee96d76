/* Loaded before the C library (LD_PRELOAD), refuses growths of memory to a program: the one
   whose number, counted from 1, stands in REFUSED_GROWTH, and each one after it if REFUSED_AFTER
   is set. The file that COUNTED_GROWTHS names has how many growths there were, as a number of 8
   bytes: it is kept while the program runs, which may end without any call of this. */
#include <errno.h>
#include <fcntl.h>
#include <stdatomic.h>
#include <stddef.h>
#include <stdlib.h>
#include <sys/mman.h>
#include <unistd.h>

extern void *__libc_malloc(size_t size);
extern void *__libc_calloc(size_t count, size_t size);
extern void *__libc_realloc(void *block, size_t size);

static atomic_long own;
static atomic_long *growths = &own;
static long refused;
static int refuses_after;

__attribute__((constructor)) static void begin(void) {
    const char *number = getenv("REFUSED_GROWTH");
    const char *file = getenv("COUNTED_GROWTHS");
    refused = number ? atol(number) : 0;
    refuses_after = getenv("REFUSED_AFTER") != NULL;
    if (file) {
        int opened = open(file, O_RDWR | O_CREAT | O_TRUNC, 0600);
        if (opened < 0 || ftruncate(opened, sizeof *growths) != 0)
            abort();
        growths = mmap(NULL, sizeof *growths, PROT_READ | PROT_WRITE, MAP_SHARED, opened, 0);
        if (growths == MAP_FAILED)
            abort();
        close(opened);
    } else {
        growths = &own;
    }
    *growths = 0;
}

static int is_refused(void) {
    long growth = atomic_fetch_add(growths, 1) + 1;
    if (refused == 0 || growth < refused || (growth > refused && !refuses_after))
        return 0;
    errno = ENOMEM;
    return 1;
}

void *malloc(size_t size) { return is_refused() ? NULL : __libc_malloc(size); }

void *calloc(size_t count, size_t size) { return is_refused() ? NULL : __libc_calloc(count, size); }

void *realloc(void *block, size_t size) { return is_refused() ? NULL : __libc_realloc(block, size); }
