// Refuses one request for memory of a program: the one whose number is in REFUSE_AT, counted from 1. Where REFUSE_MARK names a
// file, it is made when that request is met, and gets the address that the program lies at, that of the frame of the request, and
// the stack from there on, by which memory.py finds out who asked. Built and used by memory.py; nothing of it is proved.
#define _GNU_SOURCE
#include <errno.h>
#include <fcntl.h>
#include <link.h>
#include <stdatomic.h>
#include <stdint.h>
#include <stdlib.h>
#include <unistd.h>

extern void *__libc_malloc(size_t);
extern void *__libc_calloc(size_t, size_t);
extern void *__libc_realloc(void *, size_t);
extern void *__libc_memalign(size_t, size_t);

static const uintptr_t PAGE = 4096;
static const int MOST_PAGES = 64;

static atomic_long requests;
static long refuse_at = -1;

__attribute__((constructor)) static void begin(void) {
    const char *at = getenv("REFUSE_AT");
    refuse_at = at ? atol(at) : 0;
    requests = 0;
}

// The program itself is the first object.
static int keep_base(struct dl_phdr_info *info, size_t size, void *base) {
    (void)size;
    *(uintptr_t *)base = info->dlpi_addr;
    return 1;
}

// Writes the stack from this frame on, a page at a time, as far as there is one.
static void keep_stack(int to, uintptr_t frame) {
    uintptr_t from[2] = {0, frame};
    dl_iterate_phdr(keep_base, &from[0]);
    if (write(to, from, sizeof from) != sizeof from) return;
    for (int page = 0; page < MOST_PAGES; page++) {
        uintptr_t end = (frame | (PAGE - 1)) + 1;
        if (write(to, (const void *)frame, end - frame) != (ssize_t)(end - frame)) return;
        frame = end;
    }
}

static int is_refused(void *frame) {
    if (refuse_at <= 0 || atomic_fetch_add(&requests, 1) + 1 != refuse_at) return 0;
    const char *mark = getenv("REFUSE_MARK");
    int made = mark ? open(mark, O_WRONLY | O_CREAT | O_TRUNC, 0644) : -1;
    if (made >= 0) {
        keep_stack(made, (uintptr_t)frame);
        close(made);
    }
    return 1;
}

void *malloc(size_t size) {
    if (is_refused(__builtin_frame_address(0))) { errno = ENOMEM; return 0; }
    return __libc_malloc(size);
}

void *calloc(size_t count, size_t size) {
    if (is_refused(__builtin_frame_address(0))) { errno = ENOMEM; return 0; }
    return __libc_calloc(count, size);
}

void *realloc(void *old, size_t size) {
    if (is_refused(__builtin_frame_address(0))) { errno = ENOMEM; return 0; }
    return __libc_realloc(old, size);
}

void *aligned_alloc(size_t align, size_t size) {
    if (is_refused(__builtin_frame_address(0))) { errno = ENOMEM; return 0; }
    return __libc_memalign(align, size);
}

int posix_memalign(void **to, size_t align, size_t size) {
    if (is_refused(__builtin_frame_address(0))) return ENOMEM;
    *to = __libc_memalign(align, size);
    return *to ? 0 : ENOMEM;
}
