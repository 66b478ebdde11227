/* Preloaded into the program by fault_cases.py. ONE_BYTE: each read and write moves at most one byte.
   REFUSED=N: the Nth allocation, from 1, is refused; the number of allocations is written to descriptor 9 at the end.
   FAILING=N: each Nth write at a place and sync fails; the write has written the first half of its bytes. */
#define _GNU_SOURCE
#include <errno.h>
#include <stdlib.h>
#include <stdio.h>
#include <sys/syscall.h>
#include <unistd.h>

extern void *__libc_malloc(size_t), *__libc_calloc(size_t, size_t), *__libc_realloc(void *, size_t), *__libc_memalign(size_t, size_t);

static long asked, refused = -1;
static long disk_calls, failing = 0;
static size_t most = (size_t)-1;

static void __attribute__((constructor)) begin(void) {
    if (getenv("ONE_BYTE")) most = 1;
    if (getenv("REFUSED")) refused = atol(getenv("REFUSED"));
    if (getenv("FAILING")) failing = atol(getenv("FAILING"));
    asked = 0;
}

static void __attribute__((destructor)) end(void) {
    if (refused >= 0) dprintf(9, "%ld", asked);
}

/* A program that ends so runs no destructors. */
void _exit(int status) {
    end();
    for (;;) syscall(SYS_exit_group, status);
}

static size_t cut(size_t count) { return count < most ? count : most; }

static int fails(void) { return failing && __atomic_add_fetch(&disk_calls, 1, __ATOMIC_SEQ_CST) % failing == 0; }

ssize_t read(int file, void *into, size_t count) { return syscall(SYS_read, file, into, cut(count)); }
ssize_t write(int file, const void *bytes, size_t count) { return syscall(SYS_write, file, bytes, cut(count)); }
ssize_t pread(int file, void *into, size_t count, off_t at) { return syscall(SYS_pread64, file, into, cut(count), at); }
ssize_t pwrite(int file, const void *bytes, size_t count, off_t at) {
    if (fails()) {
        syscall(SYS_pwrite64, file, bytes, count / 2, at);
        errno = EIO;
        return -1;
    }
    return syscall(SYS_pwrite64, file, bytes, cut(count), at);
}
ssize_t pread64(int file, void *into, size_t count, off_t at) { return pread(file, into, count, at); }
ssize_t pwrite64(int file, const void *bytes, size_t count, off_t at) { return pwrite(file, bytes, count, at); }

int fsync(int file) {
    if (fails()) {
        errno = EIO;
        return -1;
    }
    return syscall(SYS_fsync, file);
}

static int refuses(void) {
    asked++;
    if (asked != refused) return 0;
    errno = ENOMEM;
    return 1;
}

void *malloc(size_t size) { return refuses() ? NULL : __libc_malloc(size); }
void *calloc(size_t count, size_t size) { return refuses() ? NULL : __libc_calloc(count, size); }
void *realloc(void *old, size_t size) { return refuses() ? NULL : __libc_realloc(old, size); }
void *memalign(size_t align, size_t size) { return refuses() ? NULL : __libc_memalign(align, size); }
void *aligned_alloc(size_t align, size_t size) { return memalign(align, size); }
int posix_memalign(void **to, size_t align, size_t size) {
    void *made = memalign(align, size);
    if (!made) return ENOMEM;
    *to = made;
    return 0;
}
