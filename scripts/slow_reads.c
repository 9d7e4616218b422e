/* Loaded before the C library, it waits a random while, up to READS_SLOWED microseconds, after each read of a file and each
 * query of its length. So a server writes more in between. */
#define _GNU_SOURCE
#include <stdlib.h>
#include <sys/random.h>
#include <sys/stat.h>
#include <sys/syscall.h>
#include <unistd.h>

static void wait_a_while(void)
{
    const char *most = getenv("READS_SLOWED");
    unsigned number = 0;
    if (most && atoi(most) > 0 && getrandom(&number, sizeof number, 0) == sizeof number)
        usleep(number % (unsigned)atoi(most));
}

ssize_t pread(int file, void *bytes, size_t count, off_t at)
{
    ssize_t result = syscall(SYS_pread64, file, bytes, count, at);
    wait_a_while();
    return result;
}

ssize_t read(int file, void *bytes, size_t count)
{
    ssize_t result = syscall(SYS_read, file, bytes, count);
    wait_a_while();
    return result;
}

int statx(int folder, const char *path, int flags, unsigned mask, struct statx *status)
{
    int result = (int)syscall(SYS_statx, folder, path, flags, mask, status);
    wait_a_while();
    return result;
}
