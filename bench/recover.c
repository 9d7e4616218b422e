/* What recovery does, in C, to measure `worldd`'s beside: judges an image of 65,536 cells and a full segment of 65,536 ticks
 * of 4 actions in memory, reads the actions into one list, and replays them on the image's words.
 *
 *   cc -O3 -march=x86-64-v2 -o /tmp/recover bench/recover.c && /tmp/recover
 */
#include <stdbool.h>
#include <stdint.h>
#include <stdio.h>
#include <stdlib.h>
#include <string.h>
#include <time.h>

enum { CELLS = 65536, TICKS = 65536, GROUP = 32, RUNS = 45 };
#define LIMIT 999999999999999999u

typedef struct { uint8_t kind; uint32_t cell, other; uint64_t value; } Action;
typedef struct { const uint8_t *at, *end; } Bytes;
typedef struct { size_t ticks, actions; } Counts;

static uint64_t number(const uint8_t *at, int width) {
    uint64_t value = 0;
    memcpy(&value, at, width);
    return value;
}

static bool take(Bytes *bytes, int width, uint64_t *value) {
    if (bytes->end - bytes->at < width) return false;
    *value = number(bytes->at, width);
    bytes->at += width;
    return true;
}

/* An action of the second format. */
static bool read_action(Bytes *bytes, Action *action) {
    uint64_t kind, cell, other = 0, value = 0;
    if (!take(bytes, 1, &kind) || kind < 1 || kind > 5 || !take(bytes, 4, &cell)) return false;
    if ((kind == 3 || kind == 4) && !take(bytes, 4, &other)) return false;
    if (kind != 4 && !take(bytes, 8, &value)) return false;
    *action = (Action){kind, cell, other, value};
    return true;
}

/* Goes over all groups, and keeps the actions and the ticks' ends where there are lists for them. */
static bool walk(Bytes bytes, Counts *counts, Action *actions, size_t *ends) {
    uint64_t gate, ticks, size;
    *counts = (Counts){0, 0};
    while (bytes.at < bytes.end && *bytes.at == 1) {
        if (!take(&bytes, 1, &gate) || !take(&bytes, 2, &ticks) || ticks < 1 || ticks > GROUP) return false;
        for (uint64_t i = 0; i < ticks; i++) {
            if (!take(&bytes, 2, &size) || size > 256) return false;
            for (uint64_t k = 0; k < size; k++) {
                Action action;
                if (!read_action(&bytes, &action)) return false;
                if (actions) actions[counts->actions] = action;
                counts->actions++;
            }
            if (ends) ends[counts->ticks] = counts->actions;
            if (++counts->ticks > TICKS) return false;
        }
    }
    return true;
}

static bool redo(uint64_t *words, uint32_t cells, const Action *action) {
    uint32_t cell = action->cell, other = action->other;
    uint64_t value = action->value;
    if (cell >= cells) return false;
    switch (action->kind) {
    case 1:
        if (value > LIMIT) return false;
        words[cell] = value;
        return true;
    case 2: {
        int64_t by = (int64_t)value, sum;
        if (by < -(int64_t)LIMIT || by > (int64_t)LIMIT) return false;
        sum = (int64_t)words[cell] + by;
        if (sum < 0 || sum > (int64_t)LIMIT) return false;
        words[cell] = sum;
        return true;
    }
    case 3:
        if (other >= cells || value > LIMIT || cell == other || words[cell] < value || words[other] + value > LIMIT) return false;
        words[cell] -= value;
        words[other] += value;
        return true;
    case 4: {
        uint64_t word = words[cell];
        if (other >= cells || cell == other) return false;
        words[cell] = words[other];
        words[other] = word;
        return true;
    }
    default:
        if (value > LIMIT) return false;
        if (words[cell] > value) words[cell] = value;
        return true;
    }
}

static uint64_t *read_image(const uint8_t *image, size_t length, uint32_t *cells) {
    uint64_t *words;
    if (length < 17 || image[0] != 1) return NULL;
    *cells = number(image + 1, 4);
    if (length < 17 + 8 * (size_t)*cells || !(words = malloc(8 * (size_t)*cells))) return NULL;
    for (uint32_t i = 0; i < *cells; i++) {
        uint64_t word = number(image + 17 + 8 * (size_t)i, 8);
        if (word > LIMIT) {
            free(words);
            return NULL;
        }
        words[i] = word;
    }
    return words;
}

static uint64_t *recover(const uint8_t *image, size_t length, Bytes log) {
    Counts counts;
    uint32_t cells;
    uint64_t *words = read_image(image, length, &cells);
    Bytes groups = {log.at + 9, log.end};
    if (!words || !walk(groups, &counts, NULL, NULL)) exit(1);
    Action *actions = malloc(counts.actions * sizeof *actions);
    size_t *ends = malloc(counts.ticks * sizeof *ends);
    if (!actions || !ends || !walk(groups, &counts, actions, ends)) exit(1);
    for (size_t i = 0; i < counts.actions; i++)
        if (!redo(words, cells, actions + i)) exit(1);
    free(actions);
    free(ends);
    return words;
}

static uint64_t seed = 88172645463325252u;

static uint32_t random_cell(void) {
    seed ^= seed << 13;
    seed ^= seed >> 7;
    seed ^= seed << 17;
    return seed % CELLS;
}

static uint8_t *put(uint8_t *at, uint64_t value, int width) {
    memcpy(at, &value, width);
    return at + width;
}

static Bytes full_segment(void) {
    uint8_t *bytes = malloc(TICKS * 64 + 4096), *at = put(put(bytes, 1, 1), (uint64_t)2 << 60, 8);
    for (int group = 0; group < TICKS / GROUP; group++) {
        at = put(put(at, 1, 1), GROUP, 2);
        for (int tick = 0; tick < GROUP; tick++) {
            at = put(at, 4, 2);
            at = put(put(put(at, 1, 1), random_cell(), 4), 1000000, 8);
            at = put(put(put(at, 2, 1), random_cell(), 4), 5, 8);
            uint32_t from = random_cell(), to = random_cell();
            at = put(put(put(put(at, 3, 1), from, 4), to == from ? (to + 1) % CELLS : to, 4), 0, 8);
            at = put(put(put(at, 2, 1), random_cell(), 4), 7, 8);
        }
    }
    return (Bytes){bytes, put(at, 0, 1)};
}

static double microseconds(void) {
    struct timespec now;
    clock_gettime(CLOCK_MONOTONIC, &now);
    return now.tv_sec * 1e6 + now.tv_nsec / 1e3;
}

static int by_size(const void *one, const void *other) {
    double a = *(const double *)one, b = *(const double *)other;
    return (a > b) - (a < b);
}

static void report(const char *name, const uint8_t *image, size_t length, Bytes log) {
    double times[RUNS];
    uint64_t sum = 0;
    for (int run = 0; run < RUNS; run++) {
        double begin = microseconds();
        uint64_t *words = recover(image, length, log);
        times[run] = microseconds() - begin;
        sum += words[run];
        free(words);
    }
    qsort(times, RUNS, sizeof *times, by_size);
    double bytes = log.end - log.at > 10 ? (double)(log.end - log.at) : (double)length;
    printf("%s: median %.0f us, best %.0f us, %.0f MB/s (sum %llu)\n", name, times[RUNS / 2], times[0], bytes / times[RUNS / 2], (unsigned long long)sum);
}

int main(void) {
    size_t length = 17 + 8 * CELLS;
    uint8_t *image = calloc(length, 1), none[] = {1, 0, 0, 0, 0, 0, 0, 0, 0x20, 0};
    put(put(image, 1, 1), CELLS | (uint64_t)2 << 60, 8);
    report("an image of 65,536 cells", image, length, (Bytes){none, none + sizeof none});
    report("a full segment on it", image, length, full_segment());
    return 0;
}
