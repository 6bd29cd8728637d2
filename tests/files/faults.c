/* Fails, shortens or stops at the n-th call on the files of a store. Loaded with LD_PRELOAD.
 *
 * FAULT_FOLDER  the folder of the store; its files are A and B
 * FAULT_KIND    fail (EIO), short (half of a read or write), stop (the process ends before the call),
 *               interrupt (every second call gives EINTR, from call n on), sync (EIO, of syncs alone)
 * FAULT_CALL    n, from 1 on; "short" counts reads and writes of more than one byte, "sync" the syncs
 * FAULT_FIRED   the path of a file that is made when the fault comes
 */
#define _GNU_SOURCE
#include <errno.h>
#include <fcntl.h>
#include <stdio.h>
#include <stdlib.h>
#include <string.h>
#include <sys/syscall.h>
#include <unistd.h>

static long seen = 0;

static int is_of_store(int fd) {
    static char *folder;
    char link[64], path[4096];
    if (!folder && !(folder = getenv("FAULT_FOLDER"))) return 0;
    snprintf(link, sizeof link, "/proc/self/fd/%d", fd);
    long count = syscall(SYS_readlinkat, AT_FDCWD, link, path, sizeof path - 1);
    if (count <= 0) return 0;
    path[count] = 0;
    size_t len = strlen(folder);
    return !strncmp(path, folder, len) && (!strcmp(path + len, "/A") || !strcmp(path + len, "/B"));
}

static void fired(void) {
    long fd = syscall(SYS_openat, AT_FDCWD, getenv("FAULT_FIRED"), O_CREAT | O_WRONLY, 0600);
    if (fd >= 0) syscall(SYS_close, fd);
}

/* What is to be done with a call of so many bytes, or with a sync (0): 0 the call, 1 fail, 2 half of it, 3 EINTR. */
static int verdict(int fd, size_t count) {
    char *kind = getenv("FAULT_KIND");
    if (!kind || !is_of_store(fd)) return 0;
    long at = atol(getenv("FAULT_CALL"));
    if (!strcmp(kind, "short") && count < 2) return 0;
    if (!strcmp(kind, "sync") && count > 0) return 0;
    seen++;
    if (!strcmp(kind, "interrupt")) {
        if (seen < at || (seen - at) % 2) return 0;
        fired();
        return 3;
    }
    if (seen != at) return 0;
    fired();
    if (!strcmp(kind, "stop")) syscall(SYS_exit_group, 9);
    return !strcmp(kind, "short") ? 2 : 1;
}

#define JUDGED(fd, count)                              \
    int what = verdict(fd, count);                     \
    if (what == 1) { errno = EIO; return -1; }         \
    if (what == 3) { errno = EINTR; return -1; }       \
    if (what == 2) count = count / 2

ssize_t pwrite(int fd, const void *bytes, size_t count, off_t at) {
    JUDGED(fd, count);
    return syscall(SYS_pwrite64, fd, bytes, count, at);
}
ssize_t pwrite64(int fd, const void *bytes, size_t count, off_t at) { return pwrite(fd, bytes, count, at); }

ssize_t pread(int fd, void *bytes, size_t count, off_t at) {
    JUDGED(fd, count);
    return syscall(SYS_pread64, fd, bytes, count, at);
}
ssize_t pread64(int fd, void *bytes, size_t count, off_t at) { return pread(fd, bytes, count, at); }

ssize_t write(int fd, const void *bytes, size_t count) {
    JUDGED(fd, count);
    return syscall(SYS_write, fd, bytes, count);
}

ssize_t read(int fd, void *bytes, size_t count) {
    JUDGED(fd, count);
    return syscall(SYS_read, fd, bytes, count);
}

static int synced(int fd, long number) {
    int what = verdict(fd, 0);
    if (what) { errno = what == 3 ? EINTR : EIO; return -1; }
    return syscall(number, fd);
}
int fsync(int fd) { return synced(fd, SYS_fsync); }
int fdatasync(int fd) { return synced(fd, SYS_fdatasync); }
