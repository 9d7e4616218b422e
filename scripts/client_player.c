/* Plays by clients/c/cektaulis.h what its input says, one command a line, and prints what came of each. For client_trial.py.
 *
 *   open ADDRESS MS | open any ADDRESS ADDRESS MS | reconnect MS | step | connections | play ACTION, .. | send ACTION, ..
 *   receive COUNT | poll COUNT | played CELL NUMBER | once CELL NUMBER MS ACTION, ACTION .. | again MS ACTION, ACTION ..
 *   read CELL .. | load FIRST WORD .. | batch ACTION, ACTION .. | least buffers | no action
 */
#include "cektaulis.h"

enum { MOST = 4096, LINE_BYTES = 65536 };

/* Reads actions that commas part, and returns how many there are. */
static size_t read_actions(char *text, struct cektaulis_action *actions) {
    size_t count = 0;
    char *rest = NULL;
    for (char *line = strtok_r(text, ",\n", &rest); line && count < MOST; line = strtok_r(NULL, ",\n", &rest)) {
        char kind[8] = "";
        uint64_t first = 0, second = 0;
        int64_t difference = 0;
        if (sscanf(line, " add %" SCNu64 " %" SCNd64, &first, &difference) == 2) {
            actions[count++] = cektaulis_add((uint32_t)first, difference);
            continue;
        }
        uint64_t third = 0;
        if (sscanf(line, " %7s %" SCNu64 " %" SCNu64 " %" SCNu64, kind, &first, &second, &third) < 2) continue;
        uint32_t cell = (uint32_t)first, target = (uint32_t)second;
        actions[count++] = !strcmp(kind, "set") ? cektaulis_set(cell, second)
                           : !strcmp(kind, "move") ? cektaulis_move(cell, target, third)
                           : !strcmp(kind, "swap") ? cektaulis_swap(cell, target)
                           : !strcmp(kind, "cap") ? cektaulis_cap(cell, second)
                                                  : cektaulis_get(cell);
    }
    return count;
}

/* Prints what came of a call, unless it went well. */
static bool went_well(const struct cektaulis *world, enum cektaulis_status status) {
    static const char *const names[] = {"ok", "not connected", "too large", "fault", "unanswered", "garbled", "answer lost",
        "marker refused", "bad address", "bad action", "action refused"};
    const bool has_fault = status == CEKTAULIS_BATCH_REFUSED || (status == CEKTAULIS_UNANSWERED && world->fault);
    if (status == CEKTAULIS_OK) return true;
    if (status == CEKTAULIS_ACTION_REFUSED) printf("%s: %s\n", names[status], cektaulis_refusal_text(world->refusal));
    else if (has_fault) printf("fault %d: %s\n", world->fault, cektaulis_fault_text(world->fault));
    else printf("%s\n", names[status]);
    return false;
}

static void print_tick(uint64_t tick, const struct cektaulis_answer *answers, size_t count) {
    printf("tick %" PRIu64 ":", tick);
    for (size_t i = 0; i < count; i++) {
        if (answers[i].outcome == CEKTAULIS_DONE) printf(" +");
        else if (answers[i].outcome == CEKTAULIS_VALUE) printf(" =%" PRIu64, answers[i].value);
        else printf(" -%d(%s)", answers[i].code, cektaulis_refusal_text(answers[i].code));
    }
    printf("\n");
}

/* Makes the buffers of the connection as small as the system allows. */
static void lessen_buffers(const struct cektaulis *world) {
    const int least = 1;
    setsockopt(world->stream, SOL_SOCKET, SO_SNDBUF, &least, sizeof least);
    setsockopt(world->stream, SOL_SOCKET, SO_RCVBUF, &least, sizeof least);
    printf("ok\n");
}

/* Reads numbers up to the end of a line, and returns how many there are. */
static size_t read_numbers(char *text, uint64_t *numbers) {
    size_t count = 0;
    char *rest = NULL;
    for (char *word = strtok_r(text, " \n", &rest); word && count < MOST; word = strtok_r(NULL, " \n", &rest))
        numbers[count++] = strtoull(word, NULL, 10);
    return count;
}

/* Reads or loads what a line says. False: it says neither. */
static bool play_bulk(struct cektaulis *world, char *line) {
    static uint64_t numbers[MOST], words[MOST];
    static uint32_t cells[MOST];
    size_t done, count;
    if (!strncmp(line, "read ", 5)) {
        count = read_numbers(line + 5, numbers);
        for (size_t i = 0; i < count; i++) cells[i] = (uint32_t)numbers[i];
        if (!went_well(world, cektaulis_read(world, cells, count, words, &done, 30000))) return true;
        for (size_t i = 0; i < done; i++) printf("%s%" PRIu64, i ? " " : "", words[i]);
        printf("\n");
    } else if (!strncmp(line, "load ", 5)) {
        count = read_numbers(line + 5, numbers);
        if (went_well(world, cektaulis_load(world, (uint32_t)numbers[0], numbers + 1, count - 1, &done, 30000))) printf("ok\n");
    } else {
        return false;
    }
    return true;
}

/* Does what a line says that has actions. False: it has none. */
static bool play_line(struct cektaulis *world, char *line) {
    static struct cektaulis_action actions[MOST];
    static struct cektaulis_answer answers[MOST];
    uint64_t number, tick;
    uint32_t cell;
    int milliseconds, length = 0;
    if (!strncmp(line, "send ", 5)) {
        if (went_well(world, cektaulis_send(world, actions, read_actions(line + 5, actions)))) printf("ok\n");
    } else if (!strncmp(line, "play ", 5)) {
        size_t count = read_actions(line + 5, actions);
        if (went_well(world, cektaulis_play(world, actions, count, answers, &tick))) print_tick(tick, answers, count);
    } else if (sscanf(line, "receive %" SCNu64, &number) == 1) {
        if (went_well(world, cektaulis_receive(world, answers, (size_t)number, &tick))) print_tick(tick, answers, (size_t)number);
    } else if (sscanf(line, "poll %" SCNu64, &number) == 1) {
        if (!cektaulis_ready(world)) printf("%s\n", world->stream < 0 ? "unanswered" : "none");
        else if (went_well(world, cektaulis_receive(world, answers, (size_t)number, &tick))) print_tick(tick, answers, (size_t)number);
    } else if (sscanf(line, "again %d%n", &milliseconds, &length) == 1) {
        size_t count = read_actions(line + length, actions);
        if (went_well(world, cektaulis_play_again(world, actions, count, answers, &tick, milliseconds)))
            print_tick(tick, answers, count);
    } else if (sscanf(line, "once %" SCNu32 " %" SCNu64 " %d%n", &cell, &number, &milliseconds, &length) == 3) {
        size_t count = read_actions(line + length, actions);
        if (went_well(world, cektaulis_play_once(world, cell, number, actions, count, answers, &tick, milliseconds)))
            print_tick(tick, answers, count);
    } else if (!strncmp(line, "batch ", 6)) {
        printf("%zu\n", cektaulis_batch(actions, read_actions(line + 6, actions)));
    } else {
        return false;
    }
    return true;
}

int main(void) {
    static char line[LINE_BYTES], address[200], other[200];
    static const char *const both[] = {address, other};
    struct cektaulis world = {.stream = -1, .coming = -1};
    while (fgets(line, sizeof line, stdin)) {
        int milliseconds;
        uint32_t cell;
        uint64_t number;
        bool played;
        if (play_line(&world, line) || play_bulk(&world, line)) {
        } else if (sscanf(line, "open any %199s %199s %d", address, other, &milliseconds) == 3) {
            cektaulis_close(&world);
            if (went_well(&world, cektaulis_open_any(&world, both, 2, milliseconds))) printf("ok\n");
        } else if (sscanf(line, "open %199s %d", address, &milliseconds) == 2) {
            cektaulis_close(&world);
            if (went_well(&world, cektaulis_open(&world, address, milliseconds))) printf("ok\n");
        } else if (sscanf(line, "reconnect %d", &milliseconds) == 1) {
            if (went_well(&world, cektaulis_reconnect(&world, milliseconds))) printf("ok\n");
        } else if (!strcmp(line, "step\n")) {
            enum cektaulis_status status = cektaulis_reconnect_step(&world);
            if (status == CEKTAULIS_NOT_CONNECTED) printf("none\n");
            else if (went_well(&world, status)) printf("ok\n");
        } else if (sscanf(line, "played %" SCNu32 " %" SCNu64, &cell, &number) == 2) {
            if (went_well(&world, cektaulis_was_played(&world, cell, number, &played))) printf("%s\n", played ? "yes" : "no");
        } else if (!strcmp(line, "connections\n")) {
            printf("%u\n", world.connections);
        } else if (!strcmp(line, "least buffers\n")) {
            lessen_buffers(&world);
        } else if (!strcmp(line, "no action\n")) {
            struct cektaulis_action action = {.kind = (enum cektaulis_kind)9};
            went_well(&world, cektaulis_send(&world, &action, 1));
        }
        fflush(stdout);
    }
    cektaulis_close(&world);
    return 0;
}
