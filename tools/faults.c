/* Counts the requests for memory, the reads of standard input or the writes to standard output of a program, and has one
   of them fail. The file FAULT_COUNT holds the count, of eight bytes; FAULT_KIND is memory, read or write; FAULT_AT is the
   number of the call that fails, from 1 on, or 0. */
#define _GNU_SOURCE
#include <errno.h>
#include <fcntl.h>
#include <stdint.h>
#include <stdlib.h>
#include <string.h>
#include <sys/mman.h>
#include <sys/syscall.h>
#include <sys/uio.h>
#include <unistd.h>

extern void *__libc_malloc(size_t);
extern void *__libc_calloc(size_t, size_t);
extern void *__libc_realloc(void *, size_t);
extern void *__libc_memalign(size_t, size_t);

static uint64_t *count;
static uint64_t at;
static char kind;

__attribute__((constructor)) static void begin(void) {
    const char *file = getenv("FAULT_COUNT"), *which = getenv("FAULT_KIND"), *number = getenv("FAULT_AT");
    int fd = file ? open(file, O_RDWR) : -1;
    if (fd < 0 || !which || !number) return;
    void *page = mmap(0, 8, PROT_READ | PROT_WRITE, MAP_SHARED, fd, 0);
    close(fd);
    if (page == MAP_FAILED) return;
    kind = which[0];
    at = strtoull(number, 0, 10);
    count = page;
}

static int fails(char what) {
    return count && what == kind && ++*count == at;
}

void *malloc(size_t size) {
    return fails('m') ? 0 : __libc_malloc(size);
}

void *calloc(size_t many, size_t size) {
    return fails('m') ? 0 : __libc_calloc(many, size);
}

void *realloc(void *old, size_t size) {
    return fails('m') ? 0 : __libc_realloc(old, size);
}

void *aligned_alloc(size_t align, size_t size) {
    return fails('m') ? 0 : __libc_memalign(align, size);
}

void *memalign(size_t align, size_t size) {
    return aligned_alloc(align, size);
}

int posix_memalign(void **to, size_t align, size_t size) {
    void *made = aligned_alloc(align, size);
    if (!made) return ENOMEM;
    *to = made;
    return 0;
}

static ssize_t failed(void) {
    errno = EIO;
    return -1;
}

ssize_t read(int fd, void *to, size_t size) {
    return fd == 0 && fails('r') ? failed() : syscall(SYS_read, fd, to, size);
}

ssize_t readv(int fd, const struct iovec *to, int many) {
    return fd == 0 && fails('r') ? failed() : syscall(SYS_readv, fd, to, many);
}

ssize_t write(int fd, const void *from, size_t size) {
    return fd == 1 && fails('w') ? failed() : syscall(SYS_write, fd, from, size);
}

ssize_t writev(int fd, const struct iovec *from, int many) {
    return fd == 1 && fails('w') ? failed() : syscall(SYS_writev, fd, from, many);
}
