/* A game of 300 players on a serving worldd, at 60 turns a second: it plays a turn while those before it are on their way.
 *
 *   cc -Wall -Wextra -Werror -Iclients/c -o game examples/game.c
 *   ./game ADDRESS SECONDS FIRST
 *
 * It is the game of game.py: each turn is one batch of the positions that have changed, gold that moves, and the number of the
 * turn, which is the marker. The loop never waits for the server. If the connection breaks, the players walk on, and the turns
 * that weren't played are sent again, in order. It prints how many turns were answered late. The game has the cells from FIRST
 * on: a marker, a count of turns, and for each player a place and a purse.
 */
#include "cektaulis.h"

/* So many turns may be on their way. Positions that change meanwhile go with a later turn. */
enum { TURNS_A_SECOND = 60, PLAYERS = 300, WIDTH = 10000, GOLD = 1000, AHEAD = 16, PLACES = 240, PATIENCE = 30000 };

/* How the game stands with the server: without a connection, waiting for a look at the marker, or in play. */
enum state { AWAY, LOOKING, PLAYING };

struct turn {
    uint64_t number;
    int64_t begin;
    size_t count;
    struct cektaulis_action actions[3 + PLACES];
};

struct game {
    struct cektaulis world;
    enum state state;
    uint32_t marker, count, place, purse;
    uint64_t at[PLAYERS];
    bool moved[PLAYERS];
    /* The turns without an answer are a ring. The first so many were sent. */
    struct turn turns[AHEAD];
    size_t oldest, waiting, sent;
    uint64_t turn;
    unsigned late, losses, again;
};

static struct turn *turn_at(struct game *game, size_t place) {
    return &game->turns[(game->oldest + place) % AHEAD];
}

static void forget_oldest(struct game *game) {
    game->oldest = (game->oldest + 1) % AHEAD;
    game->waiting--;
    game->sent--;
}

static void lose(struct game *game) {
    game->losses += game->state == PLAYING;
    game->state = AWAY;
}

/* Moves two of three players by a step. A cell holds both numbers of a place. */
static void walk(struct game *game) {
    for (size_t i = 0; i < PLAYERS; i++) {
        if (rand() % 3 == 0) continue;
        const uint64_t x = game->at[i] / 1000000 + WIDTH + (uint64_t)(rand() % 3) - 1, y = game->at[i] % 1000000 + 1;
        game->at[i] = x % WIDTH * 1000000 + y % WIDTH;
        game->moved[i] = true;
    }
}

/* Plays the next turn. */
static void play(struct game *game) {
    struct turn *turn = turn_at(game, game->waiting++);
    const uint32_t giver = (uint32_t)rand() % PLAYERS, taker = (giver + 1 + (uint32_t)rand() % (PLAYERS - 1)) % PLAYERS;
    turn->number = ++game->turn;
    turn->begin = cektaulis_now();
    turn->actions[0] = cektaulis_set(game->marker, turn->number);
    turn->actions[1] = cektaulis_add(game->count, 1);
    turn->actions[2] = cektaulis_move(game->purse + giver, game->purse + taker, 1);
    turn->count = 3;
    for (uint32_t i = 0; i < PLAYERS && turn->count < 3 + PLACES; i++) {
        if (!game->moved[i]) continue;
        game->moved[i] = false;
        turn->actions[turn->count++] = cektaulis_set(game->place + i, game->at[i]);
    }
}

/* Sends the turns that weren't sent, while the connection has room for one. */
static void send_turns(struct game *game) {
    struct pollfd room = {game->world.stream, POLLOUT, 0};
    while (game->state == PLAYING && game->sent < game->waiting && poll(&room, 1, 0) == 1) {
        const struct turn *turn = turn_at(game, game->sent++);
        if (cektaulis_send(&game->world, turn->actions, turn->count) != CEKTAULIS_OK) lose(game);
    }
}

/* Forgets the turns that the marker shows. All others are to be sent again, in their order. */
static void go_on(struct game *game, uint64_t held) {
    while (game->waiting && turn_at(game, 0)->number <= held) {
        forget_oldest(game);
        game->late++;
    }
    game->again += (unsigned)game->sent;
    game->sent = 0;
    game->state = PLAYING;
}

/* Takes the answers that have come. */
static void take_answers(struct game *game) {
    static struct cektaulis_answer answers[3 + PLACES];
    uint64_t tick;
    while (game->state != AWAY && cektaulis_ready(&game->world)) {
        const struct turn *turn = turn_at(game, 0);
        const bool looks = game->state == LOOKING;
        if (cektaulis_receive(&game->world, answers, looks ? 1 : turn->count, &tick) != CEKTAULIS_OK) {
            lose(game);
        } else if (looks) {
            go_on(game, answers[0].value);
        } else {
            game->late += cektaulis_now() - turn->begin > 1000 / TURNS_A_SECOND;
            forget_oldest(game);
        }
    }
    if (game->world.stream < 0) lose(game);
}

/* Makes a step towards a new connection. Once there is one, it asks for the marker. */
static void come_back(struct game *game) {
    const struct cektaulis_action look = cektaulis_get(game->marker);
    if (cektaulis_reconnect_step(&game->world) != CEKTAULIS_OK) return;
    /* The marker shows which turns were played, so no answer from before the loss is needed. */
    cektaulis_forget(&game->world);
    if (cektaulis_send(&game->world, &look, 1) == CEKTAULIS_OK) game->state = LOOKING;
}

/* What the loop does 60 times a second. The last steps only wait for answers. */
static void step(struct game *game, bool is_last) {
    if (game->state == AWAY) come_back(game);
    if (game->state != AWAY) take_answers(game);
    if (!is_last) walk(game);
    if (!is_last && game->state == PLAYING && game->waiting < AHEAD) play(game);
    send_turns(game);
}

static bool begin_game(struct game *game, const char *address, uint32_t first) {
    uint64_t gold[PLAYERS];
    const uint64_t none[2] = {0, 0};
    size_t done;
    game->marker = first, game->count = first + 1, game->place = first + 2, game->purse = first + 2 + PLAYERS;
    game->state = PLAYING;
    for (size_t i = 0; i < PLAYERS; i++) {
        gold[i] = GOLD;
        game->at[i] = (uint64_t)(rand() % WIDTH) * 1000000 + (uint64_t)(rand() % WIDTH);
        game->moved[i] = true;
    }
    return cektaulis_open(&game->world, address, 5000) == CEKTAULIS_OK
        && cektaulis_load(&game->world, game->purse, gold, PLAYERS, &done, PATIENCE) == CEKTAULIS_OK
        && cektaulis_load(&game->world, first, none, 2, &done, PATIENCE) == CEKTAULIS_OK;
}

static void wait_until(int64_t then) {
    const int64_t left = then - cektaulis_now();
    const struct timespec pause = {left / 1000, left % 1000 * 1000000};
    if (left > 0) nanosleep(&pause, NULL);
}

int main(int count, char **words) {
    static struct game game;
    if (count != 4) return fputs("usage: game ADDRESS SECONDS FIRST\n", stderr), 2;
    if (!begin_game(&game, words[1], (uint32_t)strtoul(words[3], NULL, 10)))
        return fputs("game: no server answers, or it has too few cells\n", stderr), 1;
    const int64_t begin = cektaulis_now(), end = begin + atol(words[2]) * 1000;
    int64_t longest = 0;
    unsigned steps = 0;
    for (int64_t start; (start = cektaulis_now()) < end; wait_until(begin + ++steps * 1000 / TURNS_A_SECOND)) {
        step(&game, false);
        if (cektaulis_now() - start > longest) longest = cektaulis_now() - start;
    }
    for (; game.waiting && cektaulis_now() < end + PATIENCE; wait_until(cektaulis_now() + 1)) step(&game, true);
    printf("steps %u, turns %" PRIu64 ", late %u, losses %u, sent again %u, longest step %" PRId64 " ms\n", steps, game.turn,
        game.late, game.losses, game.again, longest);
    cektaulis_close(&game.world);
    return game.waiting ? 1 : 0;
}
