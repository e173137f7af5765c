/* Loaded before the C library (LD_PRELOAD). Counts the requests for memory, from its own start on, in the eight bytes of the file
   that REFUSE_COUNT names; refuses the one whose number REFUSE_AT has, and with REFUSE_LASTING all later ones too. */
#define _GNU_SOURCE
#include <errno.h>
#include <fcntl.h>
#include <stdatomic.h>
#include <stdlib.h>
#include <sys/mman.h>

extern void *__libc_malloc(size_t);
extern void *__libc_realloc(void *, size_t);
extern void *__libc_calloc(size_t, size_t);

static atomic_ulong *requests;
static unsigned long refused_number;
static int is_lasting;

__attribute__((constructor)) static void start_counting(void) {
    const char *name = getenv("REFUSE_COUNT"), *number = getenv("REFUSE_AT");
    int file = name ? open(name, O_RDWR) : -1;
    void *count = file >= 0 ? mmap(0, sizeof *requests, PROT_READ | PROT_WRITE, MAP_SHARED, file, 0) : MAP_FAILED;
    if (count == MAP_FAILED) abort();
    refused_number = number ? strtoul(number, 0, 10) : 0;
    is_lasting = getenv("REFUSE_LASTING") != 0;
    requests = count;
}

static int is_refused(void) {
    if (!requests) return 0;
    unsigned long number = atomic_fetch_add(requests, 1) + 1;
    if (!refused_number || number < refused_number || (number > refused_number && !is_lasting)) return 0;
    errno = ENOMEM;
    return 1;
}

void *malloc(size_t size) { return is_refused() ? 0 : __libc_malloc(size); }
void *realloc(void *old, size_t size) { return is_refused() ? 0 : __libc_realloc(old, size); }
void *calloc(size_t count, size_t size) { return is_refused() ? 0 : __libc_calloc(count, size); }
