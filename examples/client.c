/* A client of a serving worldd: plays lines as one batch exactly once, and prints the answer.
 *
 *   cc -Wall -Wextra -Werror -Iclients/c -o client examples/client.c
 *   ./client 7070 1 1 'add 0 5' 'get 0'
 *   ./client /run/worldd/socket 1 1 'add 0 5' 'get 0'
 *
 * The address is a port of this machine, or the path of a socket. The cell after it is the client's own, and holds the number
 * after that once the batch was played. Each batch has a greater number than the one before. If the connection breaks, the
 * client connects again for half a minute. It gives up with status 3 if nobody knows whether the batch was played. Once the
 * server was started again, the same command plays the batch, or prints that it was played.
 */
#include "cektaulis.h"

enum { SILENCE = 5000, PATIENCE = 30000 };

/* Reads a number up to a limit. False: the word is none. */
static bool read_number(const char *word, uint64_t limit, uint64_t *number) {
    int end = 0;
    return sscanf(word, "%" SCNu64 "%n", number, &end) == 1 && !word[end] && *number <= limit;
}

/* Reads a line of the protocol. False: it isn't understood. */
static bool read_action(const char *line, struct cektaulis_action *action) {
    uint32_t cell, target;
    uint64_t number;
    int64_t difference;
    int end = 0;
    if (sscanf(line, "set %" SCNu32 " %" SCNu64 "%n", &cell, &number, &end) == 2) *action = cektaulis_set(cell, number);
    else if (sscanf(line, "add %" SCNu32 " %" SCNd64 "%n", &cell, &difference, &end) == 2)
        *action = cektaulis_add(cell, difference);
    else if (sscanf(line, "move %" SCNu32 " %" SCNu32 " %" SCNu64 "%n", &cell, &target, &number, &end) == 3)
        *action = cektaulis_move(cell, target, number);
    else if (sscanf(line, "swap %" SCNu32 " %" SCNu32 "%n", &cell, &target, &end) == 2) *action = cektaulis_swap(cell, target);
    else if (sscanf(line, "cap %" SCNu32 " %" SCNu64 "%n", &cell, &number, &end) == 2) *action = cektaulis_cap(cell, number);
    else if (sscanf(line, "get %" SCNu32 "%n", &cell, &end) == 1) *action = cektaulis_get(cell);
    return end && !line[end];
}

/* Prints the answer to a batch. */
static void print_answer(uint64_t tick, const struct cektaulis_answer *answers, size_t count) {
    printf("tick %" PRIu64 ":", tick);
    for (size_t i = 0; i < count; i++) {
        if (answers[i].outcome == CEKTAULIS_DONE) printf(" +");
        else if (answers[i].outcome == CEKTAULIS_VALUE) printf(" =%" PRIu64, answers[i].value);
        else printf(" -%d", answers[i].code);
    }
    printf("\n");
}

int main(int count, char **words) {
    static struct cektaulis_action actions[CEKTAULIS_BATCH_LINES];
    static struct cektaulis_answer answers[CEKTAULIS_BATCH_LINES];
    struct cektaulis world;
    uint64_t tick, cell, number;
    if (count < 4 || count - 4 > CEKTAULIS_BATCH_LINES || !read_number(words[2], UINT32_MAX, &cell)
        || !read_number(words[3], CEKTAULIS_LIMIT, &number))
        return fputs("usage: client ADDRESS CELL NUMBER LINE..\n", stderr), 2;
    const size_t lines = (size_t)count - 4;
    for (size_t i = 0; i < lines; i++)
        if (!read_action(words[4 + i], &actions[i])) return fprintf(stderr, "client: `%s` isn't understood\n", words[4 + i]), 2;
    enum cektaulis_status status = cektaulis_open(&world, words[1], SILENCE);
    /* A server that isn't there yet may come: the call connects again. */
    if (status == CEKTAULIS_NOT_CONNECTED) fprintf(stderr, "client: no server answers: trying for %d seconds\n", PATIENCE / 1000);
    if (status != CEKTAULIS_BAD_ADDRESS)
        status = cektaulis_play_once(&world, (uint32_t)cell, number, actions, lines, answers, &tick, PATIENCE);
    cektaulis_close(&world);
    if (status == CEKTAULIS_OK) print_answer(tick, answers, lines);
    else fprintf(status == CEKTAULIS_ANSWER_LOST ? stdout : stderr, "%s\n", cektaulis_status_text(status));
    switch (status) {
    case CEKTAULIS_OK: case CEKTAULIS_ANSWER_LOST: return 0;
    case CEKTAULIS_BAD_ADDRESS: case CEKTAULIS_BAD_ACTION: case CEKTAULIS_TOO_LARGE: return 2;
    case CEKTAULIS_UNANSWERED: return 3;
    default: return 1;
    }
}
