/* Loaded before the C library, it leaves out syncs of a world's files and reports them as done. SYNCS_LEFT_OUT names them:
 * "log body", "log gate", "image body", "image gate", "folder" or "folder above". A file whose last write had one byte is
 * synced for a gate. The folder above has no image.a. */
#define _GNU_SOURCE
#include <limits.h>
#include <stdio.h>
#include <stdlib.h>
#include <string.h>
#include <sys/stat.h>
#include <sys/syscall.h>
#include <unistd.h>

enum { DESCRIPTORS = 1024 };

/* How many bytes the last write of each descriptor had. */
static size_t written[DESCRIPTORS];

ssize_t pwrite(int file, const void *bytes, size_t count, off_t at)
{
    if (file >= 0 && file < DESCRIPTORS)
        written[file] = count;
    return syscall(SYS_pwrite64, file, bytes, count, at);
}

ssize_t pwrite64(int file, const void *bytes, size_t count, off64_t at)
{
    return pwrite(file, bytes, count, at);
}

static int is_named(const char *name)
{
    const char *left_out = getenv("SYNCS_LEFT_OUT");
    return left_out && strcmp(left_out, name) == 0;
}

/* Whether a sync of this file is left out: of log.a for its gate it is called "log gate". */
static int is_left_out(int file)
{
    char link[32], path[PATH_MAX] = "", name[32];
    snprintf(link, sizeof link, "/proc/self/fd/%d", file);
    const char *last = readlink(link, path, sizeof path - 1) > 0 ? strrchr(path, '/') : NULL;
    if (!last || file >= DESCRIPTORS)
        return 0;
    snprintf(name, sizeof name, "%.*s %s", (int)strcspn(last + 1, "."), last + 1, written[file] == 1 ? "gate" : "body");
    return is_named(name);
}

int fdatasync(int file)
{
    return is_left_out(file) ? 0 : (int)syscall(SYS_fdatasync, file);
}

int fsync(int file)
{
    struct stat status;
    const char *name = faccessat(file, "image.a", F_OK, 0) == 0 ? "folder" : "folder above";
    if (fstat(file, &status) == 0 && S_ISDIR(status.st_mode) && is_named(name))
        return 0;
    return (int)syscall(SYS_fsync, file);
}
