/* Makes only the device calls by which worldd makes a group of ticks durable, again and again, on a file that was written before:
 * the group's bytes, a sync, its gate, a sync. No server that makes these calls answers sooner.
 *
 *     cc -O2 -o device_calls bench/device_calls.c
 *     device_calls FILE CLIENTS LINES SECONDS
 *
 * A group has a tick of each client, 32 at most. It prints batches a second, the median of a batch's wait in milliseconds, and
 * the processor time of a batch in microseconds.
 */
#include <fcntl.h>
#include <stdio.h>
#include <stdlib.h>
#include <sys/resource.h>
#include <time.h>
#include <unistd.h>

enum { TICKS_MOST = 32, GROUP_BYTES = 3, TICK_BYTES = 2, SET_BYTES = 13, FILE_BYTES = 16 << 20, GROUPS_MOST = 4 << 20 };

static void must(int holds, const char *what) {
    if (!holds) {
        fprintf(stderr, "device_calls: %s failed\n", what);
        exit(1);
    }
}

static double now(void) {
    struct timespec time;
    clock_gettime(CLOCK_MONOTONIC, &time);
    return time.tv_sec + time.tv_nsec / 1e9;
}

static double processor(void) {
    struct rusage used;
    getrusage(RUSAGE_SELF, &used);
    return used.ru_utime.tv_sec + used.ru_stime.tv_sec + (used.ru_utime.tv_usec + used.ru_stime.tv_usec) / 1e6;
}

static void write_at(int file, const char *bytes, size_t count, off_t place) {
    must(pwrite(file, bytes, count, place) == (ssize_t)count, "a write");
}

/* A file that has its size and its blocks, so that a sync writes nothing else. */
static int used_file(const char *name) {
    static char bytes[1 << 16];
    int file = open(name, O_CREAT | O_RDWR, 0600);
    must(file >= 0, "the file");
    for (off_t place = 0; place < FILE_BYTES; place += sizeof bytes)
        write_at(file, bytes, sizeof bytes, place);
    must(!fsync(file), "a sync");
    return file;
}

static int compare(const void *left, const void *right) {
    double x = *(const double *)left, y = *(const double *)right;
    return (x > y) - (x < y);
}

int main(int count, char **words) {
    must(count == 5, "the command line");
    int clients = atoi(words[2]), lines = atoi(words[3]);
    must(clients > 0 && lines > 0, "a number of the command line");
    int ticks = clients < TICKS_MOST ? clients : TICKS_MOST;
    size_t size = GROUP_BYTES + ticks * (TICK_BYTES + (size_t)lines * SET_BYTES);
    char *group = calloc(size, 1);
    double *waits = malloc(GROUPS_MOST * sizeof *waits);
    must(group && waits && size < FILE_BYTES / 2, "memory");
    int file = used_file(words[1]);
    size_t groups = 0;
    off_t gate = 0;
    double before = processor(), first = now(), end = first + atof(words[4]), begun = first;
    while (begun < end && groups < GROUPS_MOST) {
        write_at(file, group, size, gate + 1);
        must(!fdatasync(file), "a sync");
        write_at(file, "\1", 1, gate);
        must(!fdatasync(file), "a sync");
        gate = gate + 2 * (off_t)size < FILE_BYTES ? gate + (off_t)size : 0;
        double done = now();
        waits[groups++] = done - begun;
        begun = done;
    }
    double seconds = begun - first, used = processor() - before;
    must(groups > 0, "a group");
    qsort(waits, groups, sizeof *waits, compare);
    printf("%.1f %.4f %.3f\n", groups * ticks / seconds, 1e3 * waits[groups / 2], 1e6 * used / groups / ticks);
    return 0;
}
