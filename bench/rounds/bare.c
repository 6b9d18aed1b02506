/* Starts and joins threads that do nothing: bare THREADS ROUNDS. Prints the seconds by the clock. */
#include <pthread.h>
#include <stdio.h>
#include <stdlib.h>
#include <time.h>

static void *nothing(void *unused) { return unused; }

static double now(void) {
    struct timespec t;
    clock_gettime(CLOCK_MONOTONIC, &t);
    return t.tv_sec + t.tv_nsec / 1e9;
}

int main(int count, char **words) {
    int threads = count > 1 ? atoi(words[1]) : 1;
    int rounds = count > 2 ? atoi(words[2]) : 1;
    pthread_t started[64];
    if (threads > 64) return 2;
    double begin = now();
    for (int round = 0; round < rounds; round++) {
        for (int i = 0; i < threads; i++)
            if (pthread_create(&started[i], NULL, nothing, NULL)) return 1;
        for (int i = 0; i < threads; i++) pthread_join(started[i], NULL);
    }
    printf("%.6f\n", now() - begin);
    return 0;
}
