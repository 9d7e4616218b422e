/* Plays as so many clients on a new SQLite database: each batch of sets is one transaction, synced before it counts.
 *
 *     cc -O2 -pthread -o sqlite_sets bench/sqlite_sets.c -lsqlite3
 *     sqlite_sets FILE CLIENTS LINES CELLS SECONDS
 *
 * SQLite has one writer at a time, so the clients take turns at one connection, in the order in which they came. It prints
 * batches a second, the median of a batch's wait in milliseconds, and the processor time of a batch in microseconds.
 */
#include <pthread.h>
#include <sqlite3.h>
#include <stdint.h>
#include <stdio.h>
#include <stdlib.h>
#include <sys/resource.h>
#include <time.h>

enum { STACK_BYTES = 256 * 1024, VALUES = 1000000 };

static sqlite3 *database;
static sqlite3_stmt *begin, *set, *commit;
static int clients, lines, cells;
static double end;

static pthread_mutex_t door = PTHREAD_MUTEX_INITIALIZER;
static pthread_cond_t *turns;
static uint64_t next_ticket, serving;

struct waits {
    double *seconds;
    size_t count, room;
    unsigned seed;
    pthread_t thread;
};

static void must(int holds, const char *what) {
    if (!holds) {
        fprintf(stderr, "sqlite_sets: %s: %s\n", what, database ? sqlite3_errmsg(database) : "failed");
        exit(1);
    }
}

static double now(void) {
    struct timespec time;
    clock_gettime(CLOCK_MONOTONIC, &time);
    return time.tv_sec + time.tv_nsec / 1e9;
}

static double processor(void) {
    struct rusage used;
    getrusage(RUSAGE_SELF, &used);
    return used.ru_utime.tv_sec + used.ru_stime.tv_sec + (used.ru_utime.tv_usec + used.ru_stime.tv_usec) / 1e6;
}

static void run(sqlite3_stmt *statement) {
    must(sqlite3_step(statement) == SQLITE_DONE, "a statement");
    sqlite3_reset(statement);
}

static sqlite3_stmt *prepared(const char *text) {
    sqlite3_stmt *statement;
    must(sqlite3_prepare_v2(database, text, -1, &statement, NULL) == SQLITE_OK, text);
    return statement;
}

static void make(const char *file) {
    must(sqlite3_open(file, &database) == SQLITE_OK, "the database");
    const char *steps = "PRAGMA journal_mode = WAL; PRAGMA synchronous = FULL;"
                        "CREATE TABLE cells (cell INTEGER PRIMARY KEY, word INTEGER NOT NULL); BEGIN;";
    must(sqlite3_exec(database, steps, NULL, NULL, NULL) == SQLITE_OK, "the table");
    sqlite3_stmt *insert = prepared("INSERT INTO cells VALUES (?, 0)");
    for (int cell = 0; cell < cells; cell++) {
        sqlite3_bind_int(insert, 1, cell);
        run(insert);
    }
    sqlite3_finalize(insert);
    must(sqlite3_exec(database, "COMMIT", NULL, NULL, NULL) == SQLITE_OK, "the cells");
    begin = prepared("BEGIN IMMEDIATE");
    set = prepared("UPDATE cells SET word = ?2 WHERE cell = ?1");
    commit = prepared("COMMIT");
}

static void take_turn(void) {
    pthread_mutex_lock(&door);
    uint64_t mine = next_ticket++;
    while (mine != serving)
        pthread_cond_wait(&turns[mine % clients], &door);
    pthread_mutex_unlock(&door);
}

static void give_turn(void) {
    pthread_mutex_lock(&door);
    serving++;
    pthread_cond_signal(&turns[serving % clients]);
    pthread_mutex_unlock(&door);
}

static void play_batch(unsigned *seed) {
    run(begin);
    for (int line = 0; line < lines; line++) {
        sqlite3_bind_int(set, 1, rand_r(seed) % cells);
        sqlite3_bind_int(set, 2, rand_r(seed) % VALUES);
        run(set);
    }
    run(commit);
}

static void keep(struct waits *waits, double seconds) {
    if (waits->count == waits->room) {
        waits->room = 2 * waits->room + 64;
        waits->seconds = realloc(waits->seconds, waits->room * sizeof *waits->seconds);
        must(waits->seconds != NULL, "memory");
    }
    waits->seconds[waits->count++] = seconds;
}

static void *play(void *given) {
    struct waits *waits = given;
    for (double first = now(); first < end; first = now()) {
        take_turn();
        play_batch(&waits->seed);
        give_turn();
        keep(waits, now() - first);
    }
    return NULL;
}

static int compare(const void *left, const void *right) {
    double x = *(const double *)left, y = *(const double *)right;
    return (x > y) - (x < y);
}

int main(int count, char **words) {
    must(count == 6, "usage: sqlite_sets FILE CLIENTS LINES CELLS SECONDS");
    clients = atoi(words[2]), lines = atoi(words[3]), cells = atoi(words[4]);
    must(clients > 0 && cells > 0, "CLIENTS and CELLS are above 0");
    make(words[1]);
    struct waits *players = calloc(clients, sizeof *players), all = {0};
    turns = calloc(clients, sizeof *turns);
    must(players && turns, "memory");
    for (int client = 0; client < clients; client++)
        pthread_cond_init(&turns[client], NULL);
    pthread_attr_t stack;
    pthread_attr_init(&stack);
    pthread_attr_setstacksize(&stack, STACK_BYTES);
    double first = now(), before = processor();
    end = first + atof(words[5]);
    for (int client = 0; client < clients; client++) {
        players[client].seed = client + 1;
        must(!pthread_create(&players[client].thread, &stack, play, &players[client]), "a thread");
    }
    for (int client = 0; client < clients; client++)
        pthread_join(players[client].thread, NULL);
    double seconds = now() - first, used = processor() - before;
    for (int client = 0; client < clients; client++)
        for (size_t at = 0; at < players[client].count; at++)
            keep(&all, players[client].seconds[at]);
    must(all.count > 0, "no batch ended");
    qsort(all.seconds, all.count, sizeof *all.seconds, compare);
    printf("%.1f %.4f %.3f\n", all.count / seconds, 1e3 * all.seconds[all.count / 2], 1e6 * used / all.count);
    return 0;
}
