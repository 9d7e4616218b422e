/* Serves no world: it shows what worldd's threads and device calls cost without one. A thread for each client receives a batch over
 * a port, hands it to the log's thread, sleeps until that wakes it, and answers. The log's thread takes up to 32 batches, makes the
 * device calls of a group, and wakes their sessions. No line is read.
 *
 *     cc -O2 -pthread -o session_threads bench/session_threads.c
 *     session_threads FILE CLIENTS LINES SECONDS
 *
 * The clients are one process. It prints batches a second, the median of a batch's wait in milliseconds, and the processor time
 * of a batch in microseconds, without the clients'.
 */
#define _GNU_SOURCE
#include <arpa/inet.h>
#include <fcntl.h>
#include <linux/futex.h>
#include <netinet/tcp.h>
#include <pthread.h>
#include <sched.h>
#include <stdatomic.h>
#include <stdio.h>
#include <stdlib.h>
#include <sys/epoll.h>
#include <sys/resource.h>
#include <sys/socket.h>
#include <sys/syscall.h>
#include <sys/wait.h>
#include <time.h>
#include <unistd.h>

enum { CLIENTS_MOST = 1024, TICKS_MOST = 32, GROUP_BYTES = 3, TICK_BYTES = 2, SET_BYTES = 13, LINE_BYTES = 16 };
enum { FILE_BYTES = 16 << 20, WAITS_MOST = 4 << 20, LOOKS = 200 };

struct session {
    _Alignas(64) atomic_uint waits;
    int stream;
};

static struct session sessions[CLIENTS_MOST];
static atomic_int queue[CLIENTS_MOST];
static atomic_uint pushed, popped, asleep;
static int file, clients, lines;
static long served;

static void must(int holds, const char *what) {
    if (!holds) {
        fprintf(stderr, "session_threads: %s failed\n", what);
        exit(1);
    }
}

static double now(void) {
    struct timespec time;
    clock_gettime(CLOCK_MONOTONIC, &time);
    return time.tv_sec + time.tv_nsec / 1e9;
}

static void sleep_while(atomic_uint *word, unsigned value) {
    while (*word == value)
        syscall(SYS_futex, word, FUTEX_WAIT_PRIVATE, value, NULL, NULL, 0);
}

static void wake(atomic_uint *word) {
    *word = 0;
    syscall(SYS_futex, word, FUTEX_WAKE_PRIVATE, 1, NULL, NULL, 0);
}

/* The thread of a client. */
static void *serve(void *mine) {
    struct session *session = mine;
    char batch[4096];
    while (recv(session->stream, batch, sizeof batch, 0) > 0) {
        session->waits = 1;
        queue[pushed++ % CLIENTS_MOST] = 1 + (int)(session - sessions);
        if (asleep)
            wake(&asleep);
        sleep_while(&session->waits, 1);
        send(session->stream, "1: +\n", 5, MSG_NOSIGNAL);
    }
    return NULL;
}

/* The next session with a batch, or -1. */
static int pop(void) {
    int next = popped == pushed ? 0 : atomic_exchange(&queue[popped % CLIENTS_MOST], 0);
    popped += next > 0;
    return next - 1;
}

/* The next session with a batch. The log's thread looks for a while, and then sleeps. */
static int pop_or_sleep(void) {
    for (int looks = 0;; looks++) {
        int next = pop();
        if (next >= 0)
            return next;
        if (looks < LOOKS) {
            sched_yield();
            continue;
        }
        asleep = 1;
        if (popped == pushed)
            sleep_while(&asleep, 1);
        asleep = 0;
    }
}

/* The log's thread. */
static void *write_log(void *unused) {
    static char group[1 << 20];
    int held[TICKS_MOST];
    off_t gate = 0;
    for (;;) {
        int ticks = 0;
        for (int next = pop_or_sleep(); next >= 0; next = ticks < TICKS_MOST ? pop() : -1)
            held[ticks++] = next;
        size_t size = GROUP_BYTES + ticks * (TICK_BYTES + (size_t)lines * SET_BYTES);
        must(pwrite(file, group, size, gate + 1) == (ssize_t)size && !fdatasync(file), "the body");
        must(pwrite(file, "\1", 1, gate) == 1 && !fdatasync(file), "the gate");
        gate = gate + 2 * (off_t)size < FILE_BYTES ? gate + (off_t)size : 0;
        for (int tick = 0; tick < ticks; tick++)
            wake(&sessions[held[tick]].waits);
        served += ticks;
    }
    return unused;
}

static int compare(const void *left, const void *right) {
    double x = *(const double *)left, y = *(const double *)right;
    return (x > y) - (x < y);
}

/* The clients: each sends its next batch once the last one is answered. */
static void play(struct sockaddr_in address, double seconds) {
    static double sent[2 * CLIENTS_MOST];
    double *waits = malloc(WAITS_MOST * sizeof *waits), end = now() + seconds;
    char *batch = calloc(lines, LINE_BYTES), answer[64];
    size_t count = 0;
    int all = epoll_create1(0);
    must(waits && batch && all >= 0, "a client");
    for (int client = 0, one = 1; client < clients; client++) {
        int stream = socket(AF_INET, SOCK_STREAM, 0);
        struct epoll_event event = {.events = EPOLLIN, .data.fd = stream};
        must(stream >= 0 && stream < 2 * CLIENTS_MOST && !connect(stream, (void *)&address, sizeof address), "a connection");
        setsockopt(stream, IPPROTO_TCP, TCP_NODELAY, &one, sizeof one);
        must(!epoll_ctl(all, EPOLL_CTL_ADD, stream, &event), "a connection");
        sent[stream] = now();
        send(stream, batch, (size_t)lines * LINE_BYTES, MSG_NOSIGNAL);
    }
    while (now() < end && count < WAITS_MOST - 64) {
        struct epoll_event events[64];
        int ready = epoll_wait(all, events, 64, 100);
        for (int i = 0; i < ready; i++) {
            int stream = events[i].data.fd;
            must(recv(stream, answer, sizeof answer, 0) > 0, "an answer");
            double time = now();
            waits[count++] = time - sent[stream];
            sent[stream] = time;
            send(stream, batch, (size_t)lines * LINE_BYTES, MSG_NOSIGNAL);
        }
    }
    must(count > 0, "a batch");
    qsort(waits, count, sizeof *waits, compare);
    printf("%.1f %.4f ", count / seconds, 1e3 * waits[count / 2]);
}

int main(int count, char **words) {
    must(count == 5, "the command line");
    clients = atoi(words[2]), lines = atoi(words[3]);
    must(clients > 0 && clients <= CLIENTS_MOST && lines > 0 && lines <= 256, "a number of the command line");
    file = open(words[1], O_CREAT | O_RDWR, 0600);
    static char bytes[1 << 16];
    for (off_t place = 0; place < FILE_BYTES; place += sizeof bytes)
        must(pwrite(file, bytes, sizeof bytes, place) == sizeof bytes, "the file");
    must(!fsync(file), "a sync");
    int listener = socket(AF_INET, SOCK_STREAM, 0), one = 1;
    struct sockaddr_in address = {.sin_family = AF_INET, .sin_addr.s_addr = htonl(INADDR_LOOPBACK)};
    socklen_t size = sizeof address;
    must(!bind(listener, (void *)&address, size) && !listen(listener, CLIENTS_MOST), "the port");
    must(!getsockname(listener, (void *)&address, &size), "the port");
    pid_t player = fork();
    if (!player) {
        play(address, atof(words[4]));
        return 0;
    }
    pthread_t thread;
    must(!pthread_create(&thread, NULL, write_log, NULL), "a thread");
    for (int client = 0; client < clients; client++) {
        sessions[client].stream = accept(listener, NULL, NULL);
        setsockopt(sessions[client].stream, IPPROTO_TCP, TCP_NODELAY, &one, sizeof one);
        must(!pthread_create(&thread, NULL, serve, &sessions[client]), "a thread");
    }
    int status = 1;
    waitpid(player, &status, 0);
    must(!status, "the clients");
    struct rusage used;
    getrusage(RUSAGE_SELF, &used);
    double processor = used.ru_utime.tv_sec + used.ru_stime.tv_sec + (used.ru_utime.tv_usec + used.ru_stime.tv_usec) / 1e6;
    printf("%.3f\n", 1e6 * processor / served);
    return 0;
}
