/* Counts the allocations, the calls on files and those of several bytes of a program that is started with this library before the C library, and has those of one
   kind from one number to another fail, or move one byte. TURN: the kind and the two numbers; TURN_LOG: the file that gets the counts at the end. */
#define _GNU_SOURCE
#include <errno.h>
#include <fcntl.h>
#include <stdarg.h>
#include <stdio.h>
#include <stdlib.h>
#include <sys/stat.h>
#include <sys/syscall.h>
#include <sys/types.h>
#include <unistd.h>

enum { MEMORY, FILES, SHORT };
static long counts[3], kind = -1, first, last;

extern void *__libc_malloc(size_t), *__libc_realloc(void *, size_t);

__attribute__((constructor)) static void begin(void) {
    const char *turn = getenv("TURN");
    if (turn) sscanf(turn, "%ld %ld %ld", &kind, &first, &last);
}

__attribute__((destructor)) static void end(void) {
    char text[80];
    int fd = getenv("TURN_LOG") ? syscall(SYS_openat, AT_FDCWD, getenv("TURN_LOG"), O_WRONLY | O_CREAT | O_TRUNC, 0600) : -1;
    if (fd >= 0) syscall(SYS_write, fd, text, snprintf(text, sizeof text, "%ld %ld %ld", counts[MEMORY], counts[FILES], counts[SHORT]));
}

static int turn(int of, int error) {
    long now = ++counts[of];
    if (kind != of || now < first || now > last) return 0;
    errno = error;
    return 1;
}

static size_t moved(size_t n) { return n > 1 && turn(SHORT, 0) ? 1 : n; }

void *malloc(size_t n) { return turn(MEMORY, ENOMEM) ? NULL : __libc_malloc(n); }
void *realloc(void *block, size_t n) { return turn(MEMORY, ENOMEM) ? NULL : __libc_realloc(block, n); }

ssize_t read(int fd, void *to, size_t n) { return turn(FILES, EIO) ? -1 : syscall(SYS_read, fd, to, moved(n)); }
ssize_t pread(int fd, void *to, size_t n, off_t at) { return turn(FILES, EIO) ? -1 : syscall(SYS_pread64, fd, to, moved(n), at); }
ssize_t write(int fd, const void *from, size_t n) { return turn(FILES, ENOSPC) ? -1 : syscall(SYS_write, fd, from, moved(n)); }
int statx(int folder, const char *path, int flags, unsigned mask, struct statx *to) {
    return turn(FILES, EIO) ? -1 : syscall(SYS_statx, folder, path, flags, mask, to);
}

int fsync(int fd) { return turn(FILES, EIO) ? -1 : syscall(SYS_fsync, fd); }
int rename(const char *from, const char *to) { return turn(FILES, EIO) ? -1 : syscall(SYS_rename, from, to); }

int open(const char *path, int flags, ...) {
    va_list more;
    va_start(more, flags);
    mode_t mode = flags & O_CREAT ? va_arg(more, mode_t) : 0;
    va_end(more);
    return turn(FILES, EIO) ? -1 : syscall(SYS_openat, AT_FDCWD, path, flags, mode);
}
