/* A client of worldd, the world server Cektaulis. It is this one file, in C11, C++17 or C++20 over POSIX sockets.
 *
 *   struct cektaulis world;
 *   struct cektaulis_action batch[] = {cektaulis_set(0, 5), cektaulis_move(0, 1, 2), cektaulis_get(1)};
 *   struct cektaulis_answer answers[3];
 *   uint64_t tick;
 *   if (cektaulis_open(&world, "/run/worldd/socket", 5000) == CEKTAULIS_OK
 *       && cektaulis_play(&world, batch, 3, answers, &tick) == CEKTAULIS_OK)
 *       printf("tick %" PRIu64 ": %" PRIu64 "\n", tick, answers[2].value);
 *
 * A batch is the actions of one tick. Its answer comes once the tick is durable. The page docs/CLIENT.md of the server has
 * the protocol and the worth of an answer. One thread uses a connection at a time. `cektaulis_close` ends it and frees its
 * buffers, which hold answers that no call has received yet.
 */
#ifndef CEKTAULIS_H
#define CEKTAULIS_H

#include <arpa/inet.h>
#include <errno.h>
#include <fcntl.h>
#include <inttypes.h>
#include <limits.h>
#include <netinet/in.h>
#include <netinet/tcp.h>
#include <poll.h>
#include <stdbool.h>
#include <stddef.h>
#include <stdint.h>
#include <stdio.h>
#include <stdlib.h>
#include <string.h>
#include <sys/socket.h>
#include <sys/time.h>
#include <sys/un.h>
#include <time.h>
#include <unistd.h>

#ifdef __cplusplus
extern "C" {
#endif

/* The greatest number that a cell holds, the most cells of a world, the most actions of a batch, and its most changes, which
 * are all actions except `get`. */
#define CEKTAULIS_LIMIT UINT64_C(999999999999999999)
#define CEKTAULIS_CELLS UINT32_C(1048576)
#define CEKTAULIS_BATCH_LINES 1024
#define CEKTAULIS_BATCH_CHANGES 256

enum cektaulis_kind {
    CEKTAULIS_SET,
    CEKTAULIS_ADD,
    CEKTAULIS_MOVE,
    CEKTAULIS_SWAP,
    CEKTAULIS_CAP,
    CEKTAULIS_GET,
};

/* An action. `target` is the second cell, `number` a value or an amount. */
struct cektaulis_action {
    enum cektaulis_kind kind;
    uint32_t cell, target;
    uint64_t number;
    int64_t difference;
};

enum cektaulis_outcome {
    CEKTAULIS_DONE,
    CEKTAULIS_VALUE,
    CEKTAULIS_REFUSED,
};

/* What came of one action: it was done, it read `value`, or it was refused by `code` (`cektaulis_refusal_text`). */
struct cektaulis_answer {
    enum cektaulis_outcome outcome;
    uint64_t value;
    int code;
};

enum cektaulis_status {
    CEKTAULIS_OK,
    /* There is no connection: `error` is the errno. Nothing was sent. `cektaulis_reconnect` connects again. */
    CEKTAULIS_NOT_CONNECTED,
    /* The batch has too many actions or changes. Nothing was sent. */
    CEKTAULIS_TOO_LARGE,
    /* The server refused the whole batch, which changed nothing: `fault` is its code (`cektaulis_fault_text`). */
    CEKTAULIS_BATCH_REFUSED,
    /* The connection broke, or was silent for too long, and is closed. Each batch that wasn't answered was played as a whole
     * or not at all. `fault` is 12 if the server's log failed, else 0. `cektaulis_reconnect` connects again. */
    CEKTAULIS_UNANSWERED,
    /* The other side answered with a line that no worldd sends. */
    CEKTAULIS_GARBLED,
    /* The batch was played, and its answer is lost. */
    CEKTAULIS_ANSWER_LOST,
    /* A marker shows nothing: the world has no such cell, or the cell holds a greater number. */
    CEKTAULIS_MARKER_REFUSED,
    /* The address is empty, too long for a socket, or a port outside 1 to 65,535. */
    CEKTAULIS_BAD_ADDRESS,
    /* An action is of no kind, has a difference of INT64_MIN, or changes the cell of the marker, or a number is no marker's.
     * Nothing was sent. */
    CEKTAULIS_BAD_ACTION,
    /* The server refused an action of `cektaulis_read` or `cektaulis_load`: `refusal` is its code. */
    CEKTAULIS_ACTION_REFUSED,
};

/* What a server sent and no call has received. */
struct cektaulis_bytes {
    char *bytes;
    size_t at, filled, room;
};

/* A connection. Its fields are read only. `address` is that of the connection or of the next one, of so many. */
struct cektaulis {
    const char *address;
    const char *const *addresses;
    size_t count, at;
    int milliseconds;
    /* The descriptor of the connection, which `poll` may wait for. Below 0: there is none. */
    int stream;
    /* That of a connection on which the server wasn't heard yet. */
    int coming;
    int error;
    int fault;
    int refusal;
    /* How often it connected. */
    unsigned connections;
    /* How many milliseconds of silence the running call bears; below 0 any. */
    int bears;
    /* When another address is tried than that of `coming`, and whether the running call looks for one that serves. */
    int64_t coming_until;
    bool insists;
    /* What the cell of the last marker is known to hold. */
    bool mark_known;
    uint32_t mark_cell;
    uint64_t mark;
    /* Answers of earlier connections, and what has come by this one. */
    struct cektaulis_bytes kept, come;
};

static inline struct cektaulis_action cektaulis_action_of(
    enum cektaulis_kind kind, uint32_t cell, uint32_t target, uint64_t number, int64_t difference) {
    struct cektaulis_action action = {kind, cell, target, number, difference};
    return action;
}

static inline struct cektaulis_action cektaulis_set(uint32_t cell, uint64_t value) {
    return cektaulis_action_of(CEKTAULIS_SET, cell, 0, value, 0);
}

static inline struct cektaulis_action cektaulis_add(uint32_t cell, int64_t difference) {
    return cektaulis_action_of(CEKTAULIS_ADD, cell, 0, 0, difference);
}

static inline struct cektaulis_action cektaulis_move(uint32_t source, uint32_t target, uint64_t amount) {
    return cektaulis_action_of(CEKTAULIS_MOVE, source, target, amount, 0);
}

static inline struct cektaulis_action cektaulis_swap(uint32_t first, uint32_t second) {
    return cektaulis_action_of(CEKTAULIS_SWAP, first, second, 0, 0);
}

static inline struct cektaulis_action cektaulis_cap(uint32_t cell, uint64_t value) {
    return cektaulis_action_of(CEKTAULIS_CAP, cell, 0, value, 0);
}

static inline struct cektaulis_action cektaulis_get(uint32_t cell) {
    return cektaulis_action_of(CEKTAULIS_GET, cell, 0, 0, 0);
}

/* Why an action was refused, or NULL for a number that is no such code. */
static inline const char *cektaulis_refusal_text(int code) {
    switch (code) {
    case 1: return "there is no such cell";
    case 2: return "a number is out of range";
    case 3: return "a result would be below 0 or above 999,999,999,999,999,999";
    case 4: return "one cell is named twice";
    case 5: return "the batch has 256 accepted actions already";
    case 16: return "the line isn't understood";
    default: return NULL;
    }
}

/* Why a whole batch was refused, or NULL for a number that is no such code. */
static inline const char *cektaulis_fault_text(int code) {
    switch (code) {
    case 6: return "65,536 ticks have ended since the last image was begun: images are too slow, or down";
    case 12: return "the log failed. Nobody knows whether the tick of this batch is there after a restart";
    case 16: return "the batch has more than 1,024 lines; the session is closed";
    case 17: return "there was no memory for the batch";
    case 21: return "the greatest tick number, 10^18, has been reached";
    default: return NULL;
    }
}

/* What a status says, without the details in `error` and `fault`. */
static inline const char *cektaulis_status_text(enum cektaulis_status status) {
    switch (status) {
    case CEKTAULIS_OK: return "the batch was played";
    case CEKTAULIS_NOT_CONNECTED: return "no server answers, and nothing was sent";
    case CEKTAULIS_TOO_LARGE: return "the batch is too large";
    case CEKTAULIS_BATCH_REFUSED: return "the server refused the batch";
    case CEKTAULIS_UNANSWERED: return "nobody knows whether the batch was played";
    case CEKTAULIS_GARBLED: return "the answer is of no worldd";
    case CEKTAULIS_ANSWER_LOST: return "the batch was played, and its answer is lost";
    case CEKTAULIS_MARKER_REFUSED: return "there is no such cell for the marker, or it holds a greater number";
    case CEKTAULIS_BAD_ADDRESS: return "the address is no port from 1 to 65535 and no path";
    case CEKTAULIS_BAD_ACTION: return "there is no such action, or it changes the cell of the marker";
    case CEKTAULIS_ACTION_REFUSED: return "the server refused an action";
    }
    return "there is no such status";
}

/* How many of the first actions make a batch that is as long as it may be. */
static inline size_t cektaulis_batch(const struct cektaulis_action *actions, size_t count) {
    size_t changes = 0, length = 0;
    for (; length < count && length < CEKTAULIS_BATCH_LINES; length++) {
        changes += actions[length].kind != CEKTAULIS_GET;
        if (changes > CEKTAULIS_BATCH_CHANGES) break;
    }
    return length;
}

/* Whether these actions leave the same world if they are played twice, with nothing in between. */
static inline bool cektaulis_does_no_harm_twice(const struct cektaulis_action *actions, size_t count) {
    for (size_t i = 0; i < count; i++)
        if (actions[i].kind != CEKTAULIS_SET && actions[i].kind != CEKTAULIS_CAP && actions[i].kind != CEKTAULIS_GET)
            return false;
    return true;
}

/* Whether an action may change a cell. */
static inline bool cektaulis_changes(const struct cektaulis_action *action, uint32_t cell) {
    if (action->kind == CEKTAULIS_GET) return false;
    if (action->kind != CEKTAULIS_MOVE && action->kind != CEKTAULIS_SWAP) return action->cell == cell;
    return action->cell == cell || action->target == cell;
}

/* Ends the connection for a reason, and returns the reason. Answers that have come can still be received. */
static inline enum cektaulis_status cektaulis_ended(struct cektaulis *world, enum cektaulis_status why, int error) {
    if (world->stream >= 0) close(world->stream);
    if (world->coming >= 0) close(world->coming);
    world->stream = world->coming = -1;
    world->error = error;
    world->fault = 0;
    return why;
}

/* Ends the connection and frees its buffers. It does nothing if there is none. */
static inline void cektaulis_close(struct cektaulis *world) {
    const struct cektaulis_bytes none = {NULL, 0, 0, 0};
    cektaulis_ended(world, CEKTAULIS_OK, 0);
    free(world->kept.bytes);
    free(world->come.bytes);
    world->kept = world->come = none;
}

/* The milliseconds of a clock that only goes forward. */
static inline int64_t cektaulis_now(void) {
    struct timespec now;
    clock_gettime(CLOCK_MONOTONIC, &now);
    return (int64_t)now.tv_sec * 1000 + now.tv_nsec / 1000000;
}

/* The milliseconds until then, from 1 to the most that a call bears. */
static inline int cektaulis_until(int64_t then) {
    int64_t left = then - cektaulis_now();
    return left < 1 ? 1 : left > INT_MAX ? INT_MAX : (int)left;
}

/* Waits, and doubles the next wait up to a second. False: that would be too late. */
static inline bool cektaulis_pauses(int *milliseconds, int64_t deadline) {
    struct timespec pause = {*milliseconds / 1000, *milliseconds % 1000 * 1000000L};
    if (cektaulis_now() + *milliseconds >= deadline) return false;
    nanosleep(&pause, NULL);
    *milliseconds = *milliseconds < 500 ? *milliseconds * 2 : 1000;
    return true;
}

static inline int cektaulis_dial_to(struct cektaulis *world, const struct sockaddr *to, socklen_t length) {
    int one = 1;
    struct timeval limit = {0, 0};
    struct sockaddr_in own;
    socklen_t room = sizeof own;
    if (world->bears > 0) limit.tv_sec = world->bears / 1000, limit.tv_usec = world->bears % 1000 * 1000;
    const int stream = socket(to->sa_family, SOCK_STREAM | SOCK_CLOEXEC, 0);
    if (stream < 0) return cektaulis_ended(world, CEKTAULIS_NOT_CONNECTED, errno), -1;
    world->coming = stream;
    /* It bounds the time in which `connect` waits. */
    setsockopt(stream, SOL_SOCKET, SO_SNDTIMEO, &limit, sizeof limit);
    if (to->sa_family == AF_INET) setsockopt(stream, IPPROTO_TCP, TCP_NODELAY, &one, sizeof one);
    int error = connect(stream, to, length) ? errno : 0;
    /* The system may choose the port of a server that isn't there for the client. */
    if (!error && !getsockname(stream, (struct sockaddr *)&own, &room) && room == length && !memcmp(&own, to, length))
        error = ECONNREFUSED;
    if (error) return cektaulis_ended(world, CEKTAULIS_NOT_CONNECTED, error), -1;
    fcntl(stream, F_SETFL, O_NONBLOCK);
    world->coming = -1;
    return stream;
}

/* Connects to the address, and returns the descriptor. Below 0: nobody is there, as `error` says. */
static inline int cektaulis_dial(struct cektaulis *world) {
    struct sockaddr_in port;
    struct sockaddr_un path;
    memset(&port, 0, sizeof port);
    memset(&path, 0, sizeof path);
    if (!world->address[strspn(world->address, "0123456789")]) {
        port.sin_family = AF_INET;
        port.sin_addr.s_addr = htonl(INADDR_LOOPBACK);
        port.sin_port = htons((uint16_t)strtoul(world->address, NULL, 10));
        return cektaulis_dial_to(world, (struct sockaddr *)&port, sizeof port);
    }
    path.sun_family = AF_UNIX;
    strcpy(path.sun_path, world->address);
    return cektaulis_dial_to(world, (struct sockaddr *)&path, sizeof path);
}

/* Whether an address is a port or a path that a socket may have. */
static inline bool cektaulis_is_address(const char *address) {
    if (!address || !address[0]) return false;
    if (address[strspn(address, "0123456789")]) return strlen(address) < sizeof ((struct sockaddr_un *)NULL)->sun_path;
    const unsigned long number = strtoul(address, NULL, 10);
    return number >= 1 && number <= 65535;
}

/* Begins a public call, which bears the silence of `cektaulis_open`. */
static inline void cektaulis_begin(struct cektaulis *world) {
    world->bears = world->milliseconds > 0 ? world->milliseconds : -1;
}

/* How many milliseconds a silent server is waited for before another address is tried. */
static inline int cektaulis_turn(const struct cektaulis *world) {
    return world->milliseconds > 0 ? world->milliseconds : 5000;
}

/* Takes the next address, if there are several. */
static inline void cektaulis_next(struct cektaulis *world) {
    if (world->count < 2) return;
    world->at = (world->at + 1) % world->count;
    world->address = world->addresses[world->at];
}

/* Connects to a port of this machine, or to the path of a socket. An address of only digits is a port. Each call bears so many
 * milliseconds of silence; 0 waits for ever. The address stays the caller's, and is read again by `cektaulis_reconnect`. */
static inline enum cektaulis_status cektaulis_open(struct cektaulis *world, const char *address, int milliseconds) {
    memset(world, 0, sizeof *world);
    world->address = address;
    world->milliseconds = milliseconds;
    world->stream = world->coming = -1;
    if (!cektaulis_is_address(address)) return cektaulis_ended(world, CEKTAULIS_BAD_ADDRESS, EINVAL);
    cektaulis_begin(world);
    world->stream = cektaulis_dial(world);
    world->connections = world->stream >= 0;
    return world->stream < 0 ? CEKTAULIS_NOT_CONNECTED : CEKTAULIS_OK;
}

/* Connects to the first of several addresses at which somebody is. They are for one world that at most one of them serves at a
 * time. `cektaulis_reconnect` tries them in turn: a server that is silent for so many milliseconds, or for 5,000, is left for the
 * next address. Calls that send a batch again leave one only if another address answers. The addresses stay the caller's. */
static inline enum cektaulis_status cektaulis_open_any(
    struct cektaulis *world, const char *const *addresses, size_t count, int milliseconds) {
    enum cektaulis_status status = cektaulis_open(world, NULL, milliseconds);
    for (size_t i = 0; i < count; i++)
        if (!cektaulis_is_address(addresses[i])) return status;
    for (size_t at = 0; at < count; at++) {
        status = cektaulis_open(world, addresses[at], milliseconds);
        world->addresses = addresses;
        world->count = count;
        world->at = at;
        if (status == CEKTAULIS_OK) break;
    }
    return status;
}

/* Whether another address answers an empty batch. It is the next one then. */
static inline bool cektaulis_serves_elsewhere(struct cektaulis *world) {
    for (size_t i = 1; i < world->count; i++) {
        struct cektaulis other;
        char byte = 0;
        cektaulis_next(world);
        memset(&other, 0, sizeof other);
        other.address = world->address;
        other.stream = other.coming = -1;
        other.bears = 1;
        struct pollfd ready = {cektaulis_dial(&other), POLLIN, 0};
        if (ready.fd < 0) continue;
        const bool serves = send(ready.fd, "end\n", 4, MSG_NOSIGNAL) == 4 && poll(&ready, 1, cektaulis_turn(world)) > 0
                            && recv(ready.fd, &byte, 1, 0) == 1 && byte == 't';
        close(ready.fd);
        if (serves) return true;
    }
    cektaulis_next(world);
    return false;
}

/* Makes room for so many more bytes. False: there is no memory. */
static inline bool cektaulis_grows(struct cektaulis_bytes *it, size_t more) {
    if (it->at == it->filled) it->at = it->filled = 0;
    if (it->at && it->at >= it->room / 2) {
        memmove(it->bytes, it->bytes + it->at, it->filled - it->at);
        it->filled -= it->at;
        it->at = 0;
    }
    if (it->room - it->filled >= more) return true;
    size_t room = it->room ? it->room * 2 : 4096;
    while (room - it->filled < more) room *= 2;
    char *bytes = (char *)realloc(it->bytes, room);
    if (!bytes) return false;
    it->bytes = bytes;
    it->room = room;
    return true;
}

/* Takes what the server sent by a connection, and returns 0 or why that ended. */
static inline int cektaulis_takes(struct cektaulis *world, int stream) {
    struct cektaulis_bytes *come = &world->come;
    if (!cektaulis_grows(come, 1)) return ENOMEM;
    ssize_t got = recv(stream, come->bytes + come->filled, come->room - come->filled, 0);
    if (got < 0) return errno == EINTR || errno == EAGAIN ? 0 : errno;
    come->filled += (size_t)got;
    return got ? 0 : ECONNRESET;
}

/* Takes all that the server has sent, and returns 0 or why the connection ended. */
static inline int cektaulis_drains(struct cektaulis *world) {
    size_t before = world->come.filled + 1;
    int error = 0;
    while (world->stream >= 0 && !error && before != world->come.filled) {
        before = world->come.filled;
        error = cektaulis_takes(world, world->stream);
    }
    return error;
}

/* How many lines there are that can be received. A `fault 12` and what is no line of a worldd end them, if `answers`. */
static inline size_t cektaulis_lines(const struct cektaulis_bytes *it, bool answers, size_t *end) {
    size_t count = 0;
    *end = it->at;
    while (*end < it->filled) {
        const char *line = it->bytes + *end, *stop = (const char *)memchr(line, '\n', it->filled - *end);
        if (!stop) break;
        const size_t length = (size_t)(stop - line) + 1;
        const bool is_answer = length > 6 && (!memcmp(line, "tick ", 5) || !memcmp(line, "fault ", 6));
        if (answers && (!is_answer || (length == 9 && !memcmp(line, "fault 12\n", 9)))) break;
        *end += length;
        count++;
    }
    return count;
}

/* Leaves the connection. Answers that have come stay. False: there is no memory for them. */
static inline bool cektaulis_leave(struct cektaulis *world) {
    struct cektaulis_bytes *kept = &world->kept, *come = &world->come;
    size_t end;
    cektaulis_drains(world);
    cektaulis_ended(world, CEKTAULIS_OK, 0);
    if (cektaulis_lines(come, true, &end)) {
        const size_t count = end - come->at;
        if (!cektaulis_grows(kept, count)) return false;
        memcpy(kept->bytes + kept->filled, come->bytes + come->at, count);
        kept->filled += count;
    }
    come->at = come->filled = 0;
    return true;
}

/* How many answers can be received without waiting. It takes what the server has sent, and doesn't wait. If the connection
 * broke, `stream` is below 0. */
static inline size_t cektaulis_ready(struct cektaulis *world) {
    size_t end;
    const int error = cektaulis_drains(world);
    if (error) cektaulis_ended(world, CEKTAULIS_UNANSWERED, error);
    return cektaulis_lines(&world->kept, false, &end) + cektaulis_lines(&world->come, false, &end);
}

/* Waits until the server has sent something, which is taken, or for an event of sending. Returns 0 or why the connection ended.
 * A call that insists ends the wait if another address serves: this server is off then. */
static inline int cektaulis_waits(struct cektaulis *world, int event) {
    struct pollfd ready = {world->stream, (short)(POLLIN | event), 0};
    const int turn = cektaulis_turn(world);
    const int64_t deadline = cektaulis_now() + world->bears;
    int found = poll(&ready, 1, world->insists && turn < world->bears ? turn : world->bears);
    while (!found && world->insists && cektaulis_now() < deadline && !cektaulis_serves_elsewhere(world)) {
        const int left = cektaulis_until(deadline);
        found = poll(&ready, 1, left < turn ? left : turn);
    }
    if (found < 0) return errno == EINTR ? 0 : errno;
    if (!found) return ETIMEDOUT;
    return ready.revents & ~POLLOUT ? cektaulis_takes(world, world->stream) : 0;
}

/* Sends these bytes, and takes what the server sends meanwhile. Without bytes it waits until it has taken some. So no answer
 * that nobody receives holds up the server, which would read no more. */
static inline enum cektaulis_status cektaulis_exchange(struct cektaulis *world, const char *bytes, size_t count) {
    const bool waits = !count;
    while (count || (waits && world->come.at == world->come.filled)) {
        int error = count ? cektaulis_takes(world, world->stream) : 0;
        const ssize_t sent = count && !error ? send(world->stream, bytes, count, MSG_NOSIGNAL) : 0;
        if (sent < 0 && errno != EINTR && errno != EAGAIN) error = errno;
        if (sent > 0) bytes += sent, count -= (size_t)sent;
        else if (!error) error = cektaulis_waits(world, count ? POLLOUT : 0);
        if (!error) continue;
        cektaulis_drains(world);
        return cektaulis_ended(world, CEKTAULIS_UNANSWERED, error);
    }
    return CEKTAULIS_OK;
}

/* Puts an action's line into 80 bytes, and returns its length. */
static inline size_t cektaulis_line(const struct cektaulis_action *it, char *line) {
    const size_t room = 80;
    switch (it->kind) {
    case CEKTAULIS_SET: return (size_t)snprintf(line, room, "set %" PRIu32 " %" PRIu64 "\n", it->cell, it->number);
    case CEKTAULIS_ADD: return (size_t)snprintf(line, room, "add %" PRIu32 " %" PRId64 "\n", it->cell, it->difference);
    case CEKTAULIS_MOVE:
        return (size_t)snprintf(line, room, "move %" PRIu32 " %" PRIu32 " %" PRIu64 "\n", it->cell, it->target, it->number);
    case CEKTAULIS_SWAP: return (size_t)snprintf(line, room, "swap %" PRIu32 " %" PRIu32 "\n", it->cell, it->target);
    case CEKTAULIS_CAP: return (size_t)snprintf(line, room, "cap %" PRIu32 " %" PRIu64 "\n", it->cell, it->number);
    case CEKTAULIS_GET: return (size_t)snprintf(line, room, "get %" PRIu32 "\n", it->cell);
    }
    return 0;
}

/* Why these actions make no batch, or CEKTAULIS_OK. */
static inline enum cektaulis_status cektaulis_check(const struct cektaulis_action *actions, size_t count) {
    for (size_t i = 0; i < count; i++)
        if ((unsigned)actions[i].kind > CEKTAULIS_GET
            || (actions[i].kind == CEKTAULIS_ADD && actions[i].difference == INT64_MIN))
            return CEKTAULIS_BAD_ACTION;
    return cektaulis_batch(actions, count) < count ? CEKTAULIS_TOO_LARGE : CEKTAULIS_OK;
}

/* Sends a batch that was checked, and a marker before it unless that is NULL. */
static inline enum cektaulis_status cektaulis_send_marked(struct cektaulis *world, const struct cektaulis_action *marker,
    const struct cektaulis_action *actions, size_t count) {
    char lines[4096];
    size_t filled = marker ? cektaulis_line(marker, lines) : 0;
    if (world->stream < 0) return CEKTAULIS_NOT_CONNECTED;
    for (size_t i = 0; i < count; i++) {
        filled += cektaulis_line(&actions[i], lines + filled);
        if (filled + 80 < sizeof lines - 4) continue;
        enum cektaulis_status status = cektaulis_exchange(world, lines, filled);
        if (status != CEKTAULIS_OK) return status;
        filled = 0;
    }
    memcpy(lines + filled, "end\n", 4);
    return cektaulis_exchange(world, lines, filled + 4);
}

/* Sends a batch, whose answer `cektaulis_receive` returns later. The server answers the batches of a connection in order. */
static inline enum cektaulis_status cektaulis_send(
    struct cektaulis *world, const struct cektaulis_action *actions, size_t count) {
    enum cektaulis_status status = cektaulis_check(actions, count);
    if (status != CEKTAULIS_OK) return status;
    cektaulis_begin(world);
    return cektaulis_send_marked(world, NULL, actions, count);
}

/* The next byte of the server. Below 0: the connection broke. */
static inline int cektaulis_byte(struct cektaulis *world) {
    struct cektaulis_bytes *come = &world->come;
    if (come->at == come->filled && world->stream >= 0) cektaulis_exchange(world, NULL, 0);
    return come->at == come->filled ? -1 : (unsigned char)come->bytes[come->at++];
}

/* Reads a number of at most 19 digits, and returns the byte after it. Below 0: there is none. */
static inline int cektaulis_number(struct cektaulis *world, uint64_t *number) {
    int digits = 0, byte;
    *number = 0;
    while ((byte = cektaulis_byte(world)) >= '0' && byte <= '9' && digits++ < 19) *number = *number * 10 + (uint64_t)(byte - '0');
    return digits ? byte : -1;
}

/* Reads these bytes. */
static inline bool cektaulis_reads(struct cektaulis *world, const char *text) {
    for (; *text; text++)
        if (cektaulis_byte(world) != *text) return false;
    return true;
}

/* Reads a word of an answer, and returns the byte after it. Below 0: there is none. */
static inline int cektaulis_word(struct cektaulis *world, struct cektaulis_answer *answer) {
    uint64_t code;
    int byte = cektaulis_byte(world);
    answer->outcome = CEKTAULIS_DONE;
    answer->value = 0;
    answer->code = 0;
    if (byte == '+') return cektaulis_byte(world);
    if (byte == '=') {
        answer->outcome = CEKTAULIS_VALUE;
        return cektaulis_number(world, &answer->value);
    }
    if (byte != '-') return -1;
    byte = cektaulis_number(world, &code);
    if (code > 99 || !cektaulis_refusal_text((int)code)) return -1;
    answer->outcome = CEKTAULIS_REFUSED;
    answer->code = (int)code;
    return byte;
}

/* Reads what follows the `f` of a fault. */
static inline bool cektaulis_reads_fault(struct cektaulis *world) {
    uint64_t code;
    if (!cektaulis_reads(world, "ault ") || cektaulis_number(world, &code) != '\n') return false;
    if (code > 99 || !cektaulis_fault_text((int)code)) return false;
    world->fault = (int)code;
    return true;
}

/* Reads what follows the `t` of a tick. The answer to a marker comes first, unless `marked` is NULL. */
static inline bool cektaulis_reads_tick(struct cektaulis *world, struct cektaulis_answer *marked,
    struct cektaulis_answer *answers, size_t count, uint64_t *tick) {
    if (!cektaulis_reads(world, "ick ") || cektaulis_number(world, tick) != ':') return false;
    int byte = cektaulis_byte(world);
    if (marked && byte != ' ') return false;
    if (marked) byte = cektaulis_word(world, marked);
    for (size_t i = 0; i < count; i++) {
        if (byte != ' ') return false;
        byte = cektaulis_word(world, &answers[i]);
    }
    return byte == '\n';
}

/* The answer to a batch, and to the marker before it unless `marked` is NULL. */
static inline enum cektaulis_status cektaulis_receive_marked(struct cektaulis *world, struct cektaulis_answer *marked,
    struct cektaulis_answer *answers, size_t count, uint64_t *tick) {
    if (world->stream < 0 && world->come.at == world->come.filled) return CEKTAULIS_NOT_CONNECTED;
    int byte = cektaulis_byte(world);
    if (byte == 't' && cektaulis_reads_tick(world, marked, answers, count, tick)) return CEKTAULIS_OK;
    if (byte == 'f' && cektaulis_reads_fault(world)) {
        if (world->fault != 12) return CEKTAULIS_BATCH_REFUSED;
        cektaulis_ended(world, CEKTAULIS_UNANSWERED, EIO);
        world->come.at = world->come.filled = 0;
        world->fault = 12;
        return CEKTAULIS_UNANSWERED;
    }
    if (world->stream < 0 && world->come.at == world->come.filled) return CEKTAULIS_UNANSWERED;
    world->come.at = world->come.filled = 0;
    return cektaulis_ended(world, CEKTAULIS_GARBLED, EPROTO);
}

/* The answer to the oldest batch that waits for one, which has `count` actions. */
static inline enum cektaulis_status cektaulis_receive(
    struct cektaulis *world, struct cektaulis_answer *answers, size_t count, uint64_t *tick) {
    cektaulis_begin(world);
    if (world->kept.at == world->kept.filled) return cektaulis_receive_marked(world, NULL, answers, count, tick);
    /* An answer of an earlier connection is whole, so reading it asks nothing of this one. */
    const struct cektaulis_bytes come = world->come;
    world->come = world->kept;
    const enum cektaulis_status status = cektaulis_receive_marked(world, NULL, answers, count, tick);
    world->kept = world->come;
    world->come = come;
    return status;
}

/* Forgets the answers of earlier connections. */
static inline void cektaulis_forget(struct cektaulis *world) {
    world->kept.at = world->kept.filled = 0;
}

/* Plays a batch: sends it, and waits for its answer. Answers to earlier batches of this connection are to be received first. */
static inline enum cektaulis_status cektaulis_play(struct cektaulis *world, const struct cektaulis_action *actions,
    size_t count, struct cektaulis_answer *answers, uint64_t *tick) {
    enum cektaulis_status status = cektaulis_send(world, actions, count);
    return status == CEKTAULIS_OK ? cektaulis_receive_marked(world, NULL, answers, count, tick) : status;
}

/* Leaves an address at which no server was heard, for the next one. */
static inline enum cektaulis_status cektaulis_not_here(struct cektaulis *world, int error) {
    cektaulis_next(world);
    return cektaulis_ended(world, CEKTAULIS_NOT_CONNECTED, error);
}

/* One step of `cektaulis_reconnect`, which doesn't wait. CEKTAULIS_NOT_CONNECTED: the server hasn't answered yet. Another step
 * a little later goes on. A `poll` for reading of `coming` waits for the answer, if it isn't below 0. */
static inline enum cektaulis_status cektaulis_reconnect_step(struct cektaulis *world) {
    if (world->coming < 0) {
        if (!cektaulis_leave(world)) return cektaulis_ended(world, CEKTAULIS_NOT_CONNECTED, ENOMEM);
        world->bears = 1;
        world->coming_until = cektaulis_now() + cektaulis_turn(world);
        world->coming = cektaulis_dial(world);
        if (world->coming < 0) return cektaulis_not_here(world, world->error);
        if (send(world->coming, "end\n", 4, MSG_NOSIGNAL) != 4) return cektaulis_not_here(world, errno);
    }
    size_t end;
    const int error = cektaulis_takes(world, world->coming);
    if (!cektaulis_lines(&world->come, false, &end)) {
        if (error) return cektaulis_not_here(world, error);
        if (world->count > 1 && cektaulis_now() >= world->coming_until) return cektaulis_not_here(world, ETIMEDOUT);
        /* The answer to an empty batch is shorter. */
        if (world->come.filled > 64) return cektaulis_ended(world, CEKTAULIS_GARBLED, EPROTO);
        world->error = EAGAIN;
        return CEKTAULIS_NOT_CONNECTED;
    }
    uint64_t tick;
    world->stream = world->coming;
    world->coming = -1;
    world->bears = 1;
    const enum cektaulis_status status = cektaulis_receive_marked(world, NULL, NULL, 0, &tick);
    if (status == CEKTAULIS_UNANSWERED) {
        cektaulis_next(world);
        return CEKTAULIS_NOT_CONNECTED;
    }
    if (status == CEKTAULIS_GARBLED) return status;
    world->connections++;
    return CEKTAULIS_OK;
}

/* Connects again, and waits until the server answers an empty batch. It tries for so many milliseconds. Batches that weren't
 * answered stay the caller's, and answers that had come stay for `cektaulis_receive`: `cektaulis_ready` counts them. */
static inline enum cektaulis_status cektaulis_reconnect(struct cektaulis *world, long patience) {
    const int64_t deadline = cektaulis_now() + patience;
    int pause = 10;
    for (;;) {
        const enum cektaulis_status status = cektaulis_reconnect_step(world);
        if (status != CEKTAULIS_NOT_CONNECTED) return status;
        if (world->coming >= 0 && cektaulis_now() < deadline) {
            struct pollfd ready = {world->coming, POLLIN, 0};
            const bool has_turn = world->count > 1 && world->coming_until < deadline;
            poll(&ready, 1, cektaulis_until(has_turn ? world->coming_until : deadline));
        } else if (!cektaulis_pauses(&pause, deadline)) {
            return cektaulis_ended(world, CEKTAULIS_NOT_CONNECTED, world->error);
        }
    }
}

/* Whether a marker may have this number: one that a cell holds once it was written. */
static inline bool cektaulis_is_marker(uint64_t number) {
    return number > 0 && number <= CEKTAULIS_LIMIT;
}

/* Looks what the cell of a marker holds. */
static inline enum cektaulis_status cektaulis_look(struct cektaulis *world, uint32_t cell, uint64_t *held) {
    struct cektaulis_action look = cektaulis_get(cell);
    struct cektaulis_answer answer;
    uint64_t tick;
    enum cektaulis_status status = cektaulis_send_marked(world, NULL, &look, 1);
    if (status == CEKTAULIS_OK) status = cektaulis_receive_marked(world, NULL, &answer, 1, &tick);
    if (status == CEKTAULIS_OK && answer.outcome != CEKTAULIS_VALUE) return CEKTAULIS_MARKER_REFUSED;
    if (status == CEKTAULIS_OK) *held = answer.value;
    return status;
}

/* Whether a batch with `cektaulis_set(cell, number)` in it was played, if only this client writes the cell, with ever greater
 * numbers. True is certain. False is certain once the server was started again. If only the connection broke, a batch that
 * had arrived may still be played later. CEKTAULIS_MARKER_REFUSED if the world has no such cell. */
static inline enum cektaulis_status cektaulis_was_played(
    struct cektaulis *world, uint32_t cell, uint64_t number, bool *played) {
    uint64_t held = 0;
    *played = false;
    if (!cektaulis_is_marker(number)) return CEKTAULIS_BAD_ACTION;
    cektaulis_begin(world);
    enum cektaulis_status status = cektaulis_look(world, cell, &held);
    if (status == CEKTAULIS_OK) *played = held >= number;
    return status;
}

/* Plays a batch, unless its marker shows that it was played. The marker is NULL for one that does no harm twice. `doubtful`: it
 * may have been played. */
static inline enum cektaulis_status cektaulis_try(struct cektaulis *world, const struct cektaulis_action *marker,
    const struct cektaulis_action *actions, size_t count, struct cektaulis_answer *answers, uint64_t *tick, bool *doubtful) {
    struct cektaulis_answer marked = {CEKTAULIS_DONE, 0, 0};
    enum cektaulis_status status = CEKTAULIS_OK;
    if (marker && (!world->mark_known || world->mark_cell != marker->cell))
        status = cektaulis_look(world, marker->cell, &world->mark);
    if (status != CEKTAULIS_OK) return status;
    if (marker) {
        world->mark_known = true;
        world->mark_cell = marker->cell;
        if (world->mark > marker->number) return CEKTAULIS_MARKER_REFUSED;
        if (world->mark == marker->number) return CEKTAULIS_ANSWER_LOST;
        world->mark_known = false;
    }
    *doubtful = false;
    status = cektaulis_send_marked(world, marker, actions, count);
    if (status == CEKTAULIS_OK) status = cektaulis_receive_marked(world, marker ? &marked : NULL, answers, count, tick);
    *doubtful = status == CEKTAULIS_UNANSWERED || status == CEKTAULIS_GARBLED;
    if (!marker) return status;
    world->mark_known = status == CEKTAULIS_BATCH_REFUSED;
    if (status != CEKTAULIS_OK) return status;
    if (marked.outcome != CEKTAULIS_DONE) return CEKTAULIS_MARKER_REFUSED;
    world->mark_known = true;
    world->mark = marker->number;
    return CEKTAULIS_OK;
}

/* Tries a batch again and again, if the connection breaks or after a refusal that passes, for so many milliseconds. */
static inline enum cektaulis_status cektaulis_insist(struct cektaulis *world, const struct cektaulis_action *marker,
    const struct cektaulis_action *actions, size_t count, struct cektaulis_answer *answers, uint64_t *tick, long patience) {
    const int64_t deadline = cektaulis_now() + patience;
    enum cektaulis_status status;
    int pause = 10;
    bool doubtful = false;
    do {
        if (world->stream < 0) status = cektaulis_reconnect(world, cektaulis_until(deadline));
        else status = CEKTAULIS_OK;
        /* A server that is silent has the batch, so nothing is sent again before the connection ends, or another one serves. */
        world->bears = cektaulis_until(deadline);
        world->insists = world->count > 1;
        if (status == CEKTAULIS_OK) status = cektaulis_try(world, marker, actions, count, answers, tick, &doubtful);
        world->insists = false;
        const bool is_for_now = status == CEKTAULIS_BATCH_REFUSED && (world->fault == 6 || world->fault == 17);
        if (!is_for_now && status != CEKTAULIS_NOT_CONNECTED && status != CEKTAULIS_UNANSWERED) break;
    } while (cektaulis_pauses(&pause, deadline));
    if (doubtful && status == CEKTAULIS_BATCH_REFUSED) return cektaulis_ended(world, CEKTAULIS_UNANSWERED, EIO);
    if (doubtful && status == CEKTAULIS_NOT_CONNECTED) return CEKTAULIS_UNANSWERED;
    return !doubtful && status == CEKTAULIS_UNANSWERED ? CEKTAULIS_NOT_CONNECTED : status;
}

/* Why these actions make no batch with a marker, or CEKTAULIS_OK. */
static inline enum cektaulis_status cektaulis_check_once(
    const struct cektaulis_action *marker, const struct cektaulis_action *actions, size_t count) {
    size_t changes = 0;
    enum cektaulis_status status = cektaulis_check(actions, count);
    if (status != CEKTAULIS_OK) return status;
    for (size_t i = 0; i < count; i++) {
        changes += actions[i].kind != CEKTAULIS_GET;
        if (cektaulis_changes(&actions[i], marker->cell)) return CEKTAULIS_BAD_ACTION;
    }
    if (!cektaulis_is_marker(marker->number)) return CEKTAULIS_BAD_ACTION;
    return count == CEKTAULIS_BATCH_LINES || changes == CEKTAULIS_BATCH_CHANGES ? CEKTAULIS_TOO_LARGE : CEKTAULIS_OK;
}

/* Plays a batch exactly once, though its connection breaks. CEKTAULIS_ANSWER_LOST: it was played, and its answer is lost.
 *
 * The batch gets the marker `cektaulis_set(cell, number)`. Only this client writes the cell, with ever greater numbers. If the
 * connection breaks, it connects again and looks at the cell. The batch is sent again if it wasn't played, or was refused for
 * now (faults 6 and 17). Nothing is sent if the cell holds the number at the beginning. Earlier answers are to be received
 * first.
 *
 * It gives up after so many milliseconds: with CEKTAULIS_UNANSWERED if the batch may have been played. The same call goes
 * on once the server was started again. CEKTAULIS_MARKER_REFUSED if the world has no such cell, or if it holds a greater
 * number. */
static inline enum cektaulis_status cektaulis_play_once(struct cektaulis *world, uint32_t cell, uint64_t number,
    const struct cektaulis_action *actions, size_t count, struct cektaulis_answer *answers, uint64_t *tick, long patience) {
    const struct cektaulis_action marker = cektaulis_set(cell, number);
    const enum cektaulis_status status = cektaulis_check_once(&marker, actions, count);
    return status == CEKTAULIS_OK ? cektaulis_insist(world, &marker, actions, count, answers, tick, patience) : status;
}

/* Plays a batch of `set`, `cap` and `get`, and sends it again if the connection breaks. It gives up after so many
 * milliseconds. No other client should write these cells meanwhile. Earlier answers are to be received first. */
static inline enum cektaulis_status cektaulis_play_again(struct cektaulis *world, const struct cektaulis_action *actions,
    size_t count, struct cektaulis_answer *answers, uint64_t *tick, long patience) {
    enum cektaulis_status status = cektaulis_check(actions, count);
    if (status == CEKTAULIS_OK && !cektaulis_does_no_harm_twice(actions, count)) status = CEKTAULIS_BAD_ACTION;
    return status == CEKTAULIS_OK ? cektaulis_insist(world, NULL, actions, count, answers, tick, patience) : status;
}

/* Plays a batch of a bulk call. CEKTAULIS_ACTION_REFUSED if an action of it is refused. */
static inline enum cektaulis_status cektaulis_play_bulk(struct cektaulis *world, const struct cektaulis_action *actions,
    size_t count, struct cektaulis_answer *answers, long patience) {
    uint64_t tick;
    const enum cektaulis_status status = cektaulis_insist(world, NULL, actions, count, answers, &tick, patience);
    if (status != CEKTAULIS_OK) return status;
    for (size_t i = 0; i < count; i++) {
        world->refusal = answers[i].code;
        if (answers[i].outcome == CEKTAULIS_REFUSED) return CEKTAULIS_ACTION_REFUSED;
    }
    return CEKTAULIS_OK;
}

/* Reads any number of cells, 1,024 in a tick. Other clients may play between two ticks. If the connection breaks, it connects
 * again and reads on; it gives up if that takes so many milliseconds. The first `*done` words are read whatever it returns. */
static inline enum cektaulis_status cektaulis_read(
    struct cektaulis *world, const uint32_t *cells, size_t count, uint64_t *words, size_t *done, long patience) {
    struct cektaulis_action gets[CEKTAULIS_BATCH_LINES];
    struct cektaulis_answer answers[CEKTAULIS_BATCH_LINES];
    for (*done = 0; *done < count;) {
        const size_t left = count - *done, some = left < CEKTAULIS_BATCH_LINES ? left : CEKTAULIS_BATCH_LINES;
        for (size_t i = 0; i < some; i++) gets[i] = cektaulis_get(cells[*done + i]);
        const enum cektaulis_status status = cektaulis_play_bulk(world, gets, some, answers, patience);
        if (status != CEKTAULIS_OK) return status;
        for (size_t i = 0; i < some; i++) words[*done + i] = answers[i].value;
        *done += some;
    }
    return CEKTAULIS_OK;
}

/* Sets the cells from `first` on to any number of words, 256 in a tick. No other client should write these cells meanwhile. The
 * rest is as for `cektaulis_read`. */
static inline enum cektaulis_status cektaulis_load(
    struct cektaulis *world, uint32_t first, const uint64_t *words, size_t count, size_t *done, long patience) {
    struct cektaulis_action sets[CEKTAULIS_BATCH_CHANGES];
    struct cektaulis_answer answers[CEKTAULIS_BATCH_CHANGES];
    for (*done = 0; *done < count;) {
        const size_t left = count - *done, some = left < CEKTAULIS_BATCH_CHANGES ? left : CEKTAULIS_BATCH_CHANGES;
        for (size_t i = 0; i < some; i++) sets[i] = cektaulis_set(first + (uint32_t)(*done + i), words[*done + i]);
        const enum cektaulis_status status = cektaulis_play_bulk(world, sets, some, answers, patience);
        if (status != CEKTAULIS_OK) return status;
        *done += some;
    }
    return CEKTAULIS_OK;
}

#ifdef __cplusplus
}
#endif

#endif
