/* What a program does to regular files, logged and, where told, cut or made to fail. Loaded by LD_PRELOAD.
 *
 * SHIM_LOG=FILE     a line for each call that changes a regular file or makes it durable: the call, the file's name, then
 *                     pwrite: place, bytes in hexadecimal, result        write: bytes, result
 *                     ftruncate: length, result                          fdatasync, fsync: result
 * SHIM_END=WHEN:j   the process ends before the j-th pwrite, after it, or after the j-th fdatasync (WHEN: before, after, synced)
 * SHIM_FAIL=CALL:j  the j-th such call fails with EIO and does nothing (CALL: pwrite, fdatasync, write, fsync)
 * SHIM_SHORT=CALL:j the j-th such call writes only the first half of its bytes (CALL: pwrite, write)
 * For j several numbers may stand, as in pwrite:3,4.
 *
 * The calls are made by syscall, so that the log's own writes are not logged. */
#define _GNU_SOURCE
#include <errno.h>
#include <fcntl.h>
#include <stdio.h>
#include <stdlib.h>
#include <string.h>
#include <sys/stat.h>
#include <sys/syscall.h>
#include <unistd.h>

static int is_regular(int fd) {
    struct stat status;
    return fstat(fd, &status) == 0 && S_ISREG(status.st_mode);
}

/* Whether the variable says `what`, a colon and this number, alone or among others. */
static int is_told(const char *variable, const char *what, long number) {
    char *told = getenv(variable);
    size_t length = strlen(what);
    if (!told || strncmp(told, what, length) != 0 || told[length] != ':')
        return 0;
    told += length;
    do {
        if (strtol(told + 1, &told, 10) == number)
            return 1;
    } while (*told == ',');
    return 0;
}

static void end_if_told(const char *when, long number) {
    if (is_told("SHIM_END", when, number))
        _exit(0);
}

/* The last part of the path behind a descriptor. */
static const char *name_of(int fd, char *path, size_t room) {
    char link[64];
    snprintf(link, sizeof link, "/proc/self/fd/%d", fd);
    ssize_t length = readlink(link, path, room - 1);
    path[length < 0 ? 0 : length] = 0;
    const char *slash = strrchr(path, '/');
    return slash ? slash + 1 : path;
}

/* One line: call, name, place or length where the call has one (-1: none), bytes where it has any, result. errno is kept. */
static void log_line(const char *call, int fd, long place, const unsigned char *bytes, size_t count, long result) {
    const char *to = getenv("SHIM_LOG");
    int kept = errno;
    char path[4096], *line = malloc(2 * count + sizeof path);
    int log = to ? open(to, O_WRONLY | O_CREAT | O_APPEND | O_CLOEXEC, 0600) : -1;
    if (log >= 0 && line) {
        int end = sprintf(line, "%s %s", call, name_of(fd, path, sizeof path));
        if (place >= 0)
            end += sprintf(line + end, " %ld", place);
        if (count > 0)
            end += sprintf(line + end, " ");
        for (size_t i = 0; i < count; i++)
            end += sprintf(line + end, "%02X", bytes[i]);
        end += sprintf(line + end, " %ld\n", result);
        if (syscall(SYS_write, log, line, (size_t)end) != end)
            abort();
    }
    if (log >= 0)
        close(log);
    free(line);
    errno = kept;
}

static long failed(void) {
    errno = EIO;
    return -1;
}

static size_t shortened(const char *call, long number, size_t count) {
    return is_told("SHIM_SHORT", call, number) ? count / 2 : count;
}

ssize_t pwrite(int fd, const void *bytes, size_t count, off_t place) {
    static long number;
    if (!is_regular(fd))
        return syscall(SYS_pwrite64, fd, bytes, count, place);
    number++;
    end_if_told("before", number);
    long result = is_told("SHIM_FAIL", "pwrite", number)
                      ? failed()
                      : syscall(SYS_pwrite64, fd, bytes, shortened("pwrite", number, count), place);
    log_line("pwrite", fd, place, bytes, count, result);
    end_if_told("after", number);
    return result;
}

ssize_t pwrite64(int fd, const void *bytes, size_t count, off64_t place) {
    return pwrite(fd, bytes, count, place);
}

ssize_t write(int fd, const void *bytes, size_t count) {
    static long number;
    if (!is_regular(fd))
        return syscall(SYS_write, fd, bytes, count);
    number++;
    long result = is_told("SHIM_FAIL", "write", number)
                      ? failed()
                      : syscall(SYS_write, fd, bytes, shortened("write", number, count));
    log_line("write", fd, -1, bytes, count, result);
    return result;
}

static int made_durable(const char *call, int fd, long made_by, long number) {
    long result = is_told("SHIM_FAIL", call, number) ? failed() : syscall(made_by, fd);
    if (is_regular(fd))
        log_line(call, fd, -1, NULL, 0, result);
    return result;
}

int fdatasync(int fd) {
    static long number;
    int result = made_durable("fdatasync", fd, SYS_fdatasync, ++number);
    end_if_told("synced", number);
    return result;
}

int fsync(int fd) {
    static long number;
    return made_durable("fsync", fd, SYS_fsync, ++number);
}

int ftruncate(int fd, off_t length) {
    long result = syscall(SYS_ftruncate, fd, length);
    log_line("ftruncate", fd, length, NULL, 0, result);
    return result;
}

int ftruncate64(int fd, off64_t length) {
    return ftruncate(fd, length);
}
