/* Loaded before the C library, it asks before each call on a file of a world, and reports what came of it. CALLS_ASKED names
 * the port for that. A question is "write image.a 0 1 0": the call, the file, its place, its length, the first byte. The answer
 * is '.' for the call as it is, or it fails: having written nothing ('0'), half ('1') or all ('2'). One call at a time is made.
 * If DROP_LEFT_OUT is set, the system isn't asked to drop its copies of a file. */
#define _GNU_SOURCE
#include <errno.h>
#include <fcntl.h>
#include <limits.h>
#include <pthread.h>
#include <stdio.h>
#include <stdlib.h>
#include <string.h>
#include <sys/syscall.h>
#include <unistd.h>

static pthread_mutex_t one_call = PTHREAD_MUTEX_INITIALIZER;
static int port = -1;

__attribute__((constructor)) static void begin(void)
{
    const char *path = getenv("CALLS_ASKED");
    port = path ? fcntl(open(path, O_RDWR), F_DUPFD_CLOEXEC, 100) : -1;
    if (port >= 0 && write(port, "begin\n", 6) != 6)
        abort();
}

/* The answer to the question of a call, which holds up all others until its result is reported. It is 0 if the file isn't of a
 * world, or for a write that is neither the first nor the last one of an image's words. */
static char answer_to(const char *call, int file, long at, size_t count, int first)
{
    char link[32], path[PATH_MAX] = "", line[PATH_MAX + 64], answer;
    snprintf(link, sizeof link, "/proc/self/fd/%d", file);
    const char *last = port >= 0 && readlink(link, path, sizeof path - 1) > 0 ? strrchr(path, '/') : NULL;
    if (!last || (strncmp(last, "/image.", 7) != 0 && strncmp(last, "/log.", 5) != 0))
        return 0;
    if (last[1] == 'i' && at > 17 && count == 512)
        return 0;
    int length = snprintf(line, sizeof line, "%s %s %ld %zu %d\n", call, last + 1, at, count, first);
    pthread_mutex_lock(&one_call);
    if (write(port, line, length) != length || read(port, &answer, 1) != 1)
        abort();
    return answer;
}

/* Reports what came of a call, and gives it back. A call that was answered so fails, whatever it did. */
static ssize_t reported(char answer, ssize_t result)
{
    char line[32];
    if (answer == 0)
        return result;
    if (answer != '.')
        errno = EIO, result = -1;
    int number = errno, length = snprintf(line, sizeof line, "did %zd\n", result);
    if (write(port, line, length) != length)
        abort();
    pthread_mutex_unlock(&one_call);
    errno = number;
    return result;
}

ssize_t pwrite(int file, const void *bytes, size_t count, off_t at)
{
    char answer = answer_to("write", file, at, count, *(const unsigned char *)bytes);
    size_t asked = answer == '0' ? 0 : answer == '1' ? count / 2 : count;
    return reported(answer, syscall(SYS_pwrite64, file, bytes, asked, at));
}

ssize_t pread(int file, void *bytes, size_t count, off_t at)
{
    char answer = count == 0 ? 0 : answer_to("read", file, at, count, 0);
    return reported(answer, syscall(SYS_pread64, file, bytes, count, at));
}

int fdatasync(int file)
{
    char answer = answer_to("sync", file, 0, 0, 0);
    return (int)reported(answer, syscall(SYS_fdatasync, file));
}

int fsync(int file)
{
    char answer = answer_to("sync", file, 0, 0, 0);
    return (int)reported(answer, syscall(SYS_fsync, file));
}

int posix_fadvise(int file, off_t at, off_t count, int advice)
{
    return getenv("DROP_LEFT_OUT") ? 0 : syscall(SYS_fadvise64, file, at, count, advice) < 0 ? errno : 0;
}

ssize_t pwrite64(int file, const void *bytes, size_t count, off64_t at)
{
    return pwrite(file, bytes, count, at);
}

ssize_t pread64(int file, void *bytes, size_t count, off64_t at)
{
    return pread(file, bytes, count, at);
}

int posix_fadvise64(int file, off64_t at, off64_t count, int advice)
{
    return posix_fadvise(file, at, count, advice);
}
