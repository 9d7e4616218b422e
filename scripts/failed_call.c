/* Loaded before the C library, it lets calls of a process fail. FAILED_CALL says which: "fdatasync log.a 8 5 2" are the eighth
 * and the ninth fdatasync of a file log.a, which return the error 5. With the error 0 the process is killed, with -1 the call never
 * ends. A socket that is made has the name "socket", and a file that is renamed its old name. The file FAILED_ONCE is there
 * from then on. */
#define _GNU_SOURCE
#include <errno.h>
#include <fcntl.h>
#include <limits.h>
#include <signal.h>
#include <stdarg.h>
#include <stdatomic.h>
#include <stdio.h>
#include <stdlib.h>
#include <string.h>
#include <sys/file.h>
#include <sys/socket.h>
#include <sys/stat.h>
#include <sys/syscall.h>
#include <unistd.h>

static atomic_int calls;

/* Whether a path leads to a file of this name. The path of a folder may end with a slash. */
static int leads_to(const char *path, const char *name)
{
    size_t length = strlen(path), wanted = strlen(name);
    length -= length > 1 && path[length - 1] == '/';
    if (length < wanted || strncmp(path + length - wanted, name, wanted) != 0)
        return 0;
    return length == wanted || path[length - wanted - 1] == '/';
}

/* Whether this call fails on the file at a path. Its error is then set. */
static int fails(const char *call, const char *path)
{
    char failing[16], file[NAME_MAX + 1];
    int place, error, count, call_of_file;
    const char *wanted = getenv("FAILED_CALL"), *once = getenv("FAILED_ONCE");
    if (!wanted || !once || sscanf(wanted, "%15s %255s %d %d %d", failing, file, &place, &error, &count) != 5)
        return 0;
    if (strcmp(call, failing) != 0 || !leads_to(path, file))
        return 0;
    call_of_file = ++calls;
    if (call_of_file < place || place + count <= call_of_file)
        return 0;
    syscall(SYS_close, (int)syscall(SYS_openat, AT_FDCWD, once, O_WRONLY | O_CREAT, 0600));
    if (!error)
        kill(getpid(), SIGKILL);
    while (error < 0)
        pause();
    errno = error;
    return 1;
}

/* The same of a file that is open. */
static int fails_on(const char *call, int file)
{
    char link[32], path[PATH_MAX] = "";
    snprintf(link, sizeof link, "/proc/self/fd/%d", file);
    return readlink(link, path, sizeof path - 1) > 0 && fails(call, path);
}

int open(const char *path, int flags, ...)
{
    va_list more;
    va_start(more, flags);
    int mode = va_arg(more, int);
    va_end(more);
    return fails("open", path) ? -1 : (int)syscall(SYS_openat, AT_FDCWD, path, flags, mode);
}

int flock(int file, int operation)
{
    return fails_on("flock", file) ? -1 : (int)syscall(SYS_flock, file, operation);
}

int socket(int domain, int type, int protocol)
{
    return fails("socket", "socket") ? -1 : (int)syscall(SYS_socket, domain, type, protocol);
}

int statx(int folder, const char *path, int flags, unsigned mask, struct statx *found)
{
    return fails("statx", path) ? -1 : (int)syscall(SYS_statx, folder, path, flags, mask, found);
}

ssize_t read(int file, void *bytes, size_t count)
{
    return fails_on("read", file) ? -1 : syscall(SYS_read, file, bytes, count);
}

ssize_t write(int file, const void *bytes, size_t count)
{
    return fails_on("write", file) ? -1 : syscall(SYS_write, file, bytes, count);
}

ssize_t pread(int file, void *bytes, size_t count, off_t at)
{
    return fails_on("pread", file) ? -1 : syscall(SYS_pread64, file, bytes, count, at);
}

ssize_t pread64(int file, void *bytes, size_t count, off64_t at)
{
    return pread(file, bytes, count, at);
}

int rename(const char *path, const char *new)
{
    return fails("rename", path) ? -1 : (int)syscall(SYS_rename, path, new);
}

int unlink(const char *path)
{
    return fails("unlink", path) ? -1 : (int)syscall(SYS_unlink, path);
}

ssize_t pwrite(int file, const void *bytes, size_t count, off_t at)
{
    return fails_on("pwrite", file) ? -1 : syscall(SYS_pwrite64, file, bytes, count, at);
}

ssize_t pwrite64(int file, const void *bytes, size_t count, off64_t at)
{
    return pwrite(file, bytes, count, at);
}

int fsync(int file)
{
    return fails_on("fsync", file) ? -1 : (int)syscall(SYS_fsync, file);
}

int fdatasync(int file)
{
    return fails_on("fdatasync", file) ? -1 : (int)syscall(SYS_fdatasync, file);
}
