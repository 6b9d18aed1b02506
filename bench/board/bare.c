/* The atomic steps of a board alone, for comparison: wakes, cycles, draws and moves of bodies on bare words, as
   crates/board_bench makes them.
   The one argument is how often each is made; each line tells the nanoseconds of one. */
#include <pthread.h>
#include <stdatomic.h>
#include <stdint.h>
#include <stdio.h>
#include <stdlib.h>
#include <time.h>

struct side {
    _Atomic uint64_t *word;
    uint32_t times;
    uint32_t seen;
};

/* The word is not at rest where it runs, is queued or is gone. */
static int rests(uint64_t word) { return (word & 11) == 0; }

static void *wakes(void *argument) {
    struct side *side = argument;
    uint32_t queued = 0;
    for (uint32_t i = 0; i < side->times; i++)
        if (!rests(atomic_fetch_or(side->word, 1026)))
            queued++;
    side->seen = queued;
    return NULL;
}

static void *cycles(void *argument) {
    struct side *side = argument;
    uint64_t takes = 0;
    for (uint32_t i = 0; i < side->times; i++) {
        if (!rests(atomic_fetch_or(side->word, 1026)))
            break;
        atomic_exchange(side->word, (++takes << 16) | 1);
        if (atomic_fetch_and(side->word, ~(uint64_t)1) & 32516)
            break;
    }
    side->seen = (uint32_t)takes;
    return NULL;
}

struct body {
    uint32_t row;
    uint64_t takes;
};

/* Word 0 is that of moves, word 1 the task's, and word 2 the shared box's; the slot lies behind the words. */
static struct body *slot(_Atomic uint64_t *words) { return (struct body *)(words + 4); }

static void *draws(void *argument) {
    struct side *side = argument;
    uint32_t drawn = 0;
    for (uint32_t i = 0; i < side->times; i++)
        drawn += (uint32_t)(atomic_fetch_and(side->word + 1, ~(uint64_t)1) & 1);
    side->seen = drawn;
    return NULL;
}

static void *bodies(void *argument) {
    struct side *side = argument;
    _Atomic uint64_t *words = side->word - 1;
    uint64_t takes = 0;
    for (uint32_t i = 0; i < side->times; i++) {
        atomic_load(words);
        struct body body = *slot(words);
        takes += body.takes;
        atomic_load(words);
        *slot(words) = body;
        atomic_load(words);
    }
    side->seen = (uint32_t)takes;
    return NULL;
}

static const uint32_t nexts[3] = {2, 0, 1};

static void *shared_runs(void *argument) {
    struct side *side = argument;
    _Atomic uint64_t *words = side->word - 1;
    uint32_t taken = 0;
    atomic_store(words + 2, 1);
    for (uint32_t i = 0; i < side->times; i++) {
        if (!(atomic_fetch_and(words + 2, ~(uint64_t)1) & 1))
            continue;
        atomic_load(words);
        struct body body = *slot(words);
        atomic_exchange(words + 1, ((body.takes + 1) << 16) | 1);
        body.row = nexts[body.row % 3];
        body.takes++;
        atomic_load(words);
        *slot(words) = body;
        atomic_load(words);
        int busy = (atomic_fetch_and(words + 1, ~(uint64_t)1) & 32516) != 0;
        if (busy | rests(atomic_fetch_or(words + 1, 4098)))
            atomic_fetch_or(words + 2, 1);
        taken++;
    }
    side->seen = taken;
    return NULL;
}

static double now(void) {
    struct timespec at;
    clock_gettime(CLOCK_MONOTONIC, &at);
    return (double)at.tv_sec * 1e9 + (double)at.tv_nsec;
}

static void alone(const char *name, void *(*work)(void *), uint32_t times) {
    _Atomic uint64_t *words = calloc(8, sizeof *words);
    struct side side = {words + 1, times, 0};
    double start = now();
    work(&side);
    printf("%s %.1f\n", name, (now() - start) / (times ? times : 1));
    free((void *)words);
}

static void both(const char *name, void *(*work)(void *), int second, uint32_t times) {
    _Atomic uint64_t *words = calloc(6, sizeof *words);
    struct side sides[2] = {{words + 1, times, 0}, {words + second, times, 0}};
    pthread_t thread;
    double start = now();
    int made = pthread_create(&thread, NULL, work, &sides[0]) == 0;
    work(&sides[1]);
    if (made)
        pthread_join(thread, NULL);
    else
        work(&sides[0]);
    printf("%s %.1f\n", name, (now() - start) / (times ? times : 1));
    free((void *)words);
}

int main(int count, char **words) {
    uint32_t times = count > 1 ? (uint32_t)strtoul(words[1], NULL, 10) : 0;
    alone("wake_alone", wakes, times);
    alone("cycle_alone", cycles, times);
    both("cycle_apart", cycles, 2, times);
    both("wake_together", wakes, 1, times);
    alone("draw_alone", draws, times);
    alone("body_alone", bodies, times);
    alone("shared_alone", shared_runs, times);
    return 0;
}
