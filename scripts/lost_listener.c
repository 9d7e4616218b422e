/* Loaded before the C library, it makes each accept of a process fail after the first ACCEPTS, as one of a broken listener. */
#define _GNU_SOURCE
#include <errno.h>
#include <stdatomic.h>
#include <stdlib.h>
#include <sys/socket.h>
#include <sys/syscall.h>
#include <unistd.h>

static atomic_int accepted;

int accept4(int listener, struct sockaddr *restrict address, socklen_t *restrict length, int flags)
{
    const char *most = getenv("ACCEPTS");
    if (most && accepted >= atoi(most)) {
        errno = EINVAL;
        return -1;
    }
    int result = (int)syscall(SYS_accept4, listener, address, length, flags);
    if (result >= 0)
        accepted++;
    return result;
}

int accept(int listener, struct sockaddr *restrict address, socklen_t *restrict length)
{
    return accept4(listener, address, length, 0);
}
