/* Stands between the reader's program and the C library (LD_PRELOAD), so that a test can cut the power at any step of a write. The program itself
   has no hook: it is tested as it is built. Lengths are in bytes.

   A step is a point just before one of these calls: open for writing, write, fsync, rename and unlink of files, and send to the driver; halfway
   through each write and send; and just after each send. Steps are numbered from 1.
     CALLS_CUT=N     the process kills itself (SIGKILL) at step N
     CALLS_LOG=FILE  each step is a line in this file: number, what, name, and for writes and sends the bytes that come next, in hexadecimal */
#define _GNU_SOURCE
#include <dlfcn.h>
#include <fcntl.h>
#include <signal.h>
#include <stdarg.h>
#include <stdio.h>
#include <stdlib.h>
#include <string.h>
#include <sys/socket.h>
#include <sys/syscall.h>
#include <sys/types.h>
#include <unistd.h>

enum { FILES = 256, NAME_BYTES = 512, LINE_BYTES = 8192 };

static char names[FILES][NAME_BYTES]; /* of the files that are open for writing, and of folders, by descriptor */
static long passed, cut = -1;
static int log_file = -1;

__attribute__((constructor)) static void begin(void)
{
    const char *number = getenv("CALLS_CUT"), *file = getenv("CALLS_LOG");
    if (number != NULL) {
        cut = strtol(number, NULL, 10);
    }
    if (file != NULL) {
        log_file = (int)syscall(SYS_openat, AT_FDCWD, file, O_WRONLY | O_CREAT | O_APPEND | O_CLOEXEC, 0600);
    }
}

static void step(const char *what, const char *name, const unsigned char *bytes, size_t count)
{
    passed++;
    if (log_file >= 0) {
        char line[LINE_BYTES];
        size_t used = (size_t)snprintf(line, sizeof line, "%ld %s %s ", passed, what, name);
        for (size_t at = 0; at < count && used + 4 < sizeof line; at++) {
            used += (size_t)snprintf(line + used, sizeof line - used, "%02x", bytes[at]);
        }
        line[used++] = '\n';
        (void)!syscall(SYS_write, log_file, line, used);
    }
    if (passed == cut) {
        (void)kill(getpid(), SIGKILL);
    }
}

static const char *name_of(int file)
{
    return file > 2 && file < FILES ? names[file] : "";
}

static int opened(const char *name, int flags, mode_t mode)
{
    const int writes = (flags & O_ACCMODE) != O_RDONLY;
    if (writes) {
        step("open", name, NULL, 0);
    }
    const int file = (int)syscall(SYS_openat, AT_FDCWD, name, flags, mode);
    if (file >= 0 && file < FILES) {
        (void)snprintf(names[file], NAME_BYTES, "%s", name);
    }
    return file;
}

int open64(const char *name, int flags, ...)
{
    va_list rest;
    va_start(rest, flags);
    const mode_t mode = flags & O_CREAT ? va_arg(rest, mode_t) : 0;
    va_end(rest);
    return opened(name, flags, mode);
}

int open(const char *name, int flags, ...)
{
    va_list rest;
    va_start(rest, flags);
    const mode_t mode = flags & O_CREAT ? va_arg(rest, mode_t) : 0;
    va_end(rest);
    return opened(name, flags, mode);
}

int close(int file)
{
    if (file > 2 && file < FILES) {
        names[file][0] = '\0';
    }
    return (int)syscall(SYS_close, file);
}

ssize_t write(int file, const void *bytes, size_t count)
{
    const char *name = name_of(file);
    if (*name == '\0') {
        return syscall(SYS_write, file, bytes, count);
    }
    const size_t half = count / 2;
    step("write", name, bytes, half);
    const ssize_t first = syscall(SYS_write, file, bytes, half);
    if (first < 0 || (size_t)first < half) {
        return first;
    }
    step("write", name, (const unsigned char *)bytes + half, count - half);
    const ssize_t second = syscall(SYS_write, file, (const char *)bytes + half, count - half);
    return second < 0 ? first : first + second;
}

ssize_t send(int file, const void *bytes, size_t count, int flags)
{
    const size_t half = count / 2;
    step("send", "-", bytes, half);
    const ssize_t first = syscall(SYS_sendto, file, bytes, half, flags, NULL, 0);
    if (first < 0 || (size_t)first < half) {
        return first;
    }
    step("send", "-", (const unsigned char *)bytes + half, count - half);
    const ssize_t second = syscall(SYS_sendto, file, (const char *)bytes + half, count - half, flags, NULL, 0);
    step("sent", "-", NULL, 0);
    return second < 0 ? first : first + second;
}

int fsync(int file)
{
    step("fsync", name_of(file), NULL, 0);
    return (int)syscall(SYS_fsync, file);
}

int fdatasync(int file)
{
    step("fdatasync", name_of(file), NULL, 0);
    return (int)syscall(SYS_fdatasync, file);
}

int rename(const char *from, const char *to)
{
    char both[2 * NAME_BYTES];
    (void)snprintf(both, sizeof both, "%s>%s", from, to);
    step("rename", both, NULL, 0);
    return (int)syscall(SYS_rename, from, to);
}

int unlink(const char *name)
{
    step("unlink", name, NULL, 0);
    return (int)syscall(SYS_unlink, name);
}
