// The same pairs and round trips by sem_t of the C library: a permit that one thread gives back and takes, and one that
// two threads hand to and fro. It writes `sem NAME COUNT NANOSECONDS`.
#include <pthread.h>
#include <semaphore.h>
#include <stdio.h>
#include <time.h>

enum { REPEATS = 10, PAIRS = 100000, TRIPS = 2000 };

static sem_t there, back;

static long now(void) {
    struct timespec at;
    clock_gettime(CLOCK_MONOTONIC, &at);
    return at.tv_sec * 1000000000L + at.tv_nsec;
}

static void time_pairs(void) {
    sem_t permits;
    sem_init(&permits, 0, 0);
    long start = now();
    for (long i = 0; i < PAIRS; i++) {
        sem_post(&permits);
        sem_wait(&permits);
    }
    printf("sem sem_pair %d %ld\n", PAIRS, now() - start);
    sem_destroy(&permits);
}

static void *answer(void *none) {
    for (long i = 0; i < TRIPS; i++) {
        sem_wait(&there);
        sem_post(&back);
    }
    return none;
}

static int time_trips(void) {
    pthread_t other;
    sem_init(&there, 0, 0);
    sem_init(&back, 0, 0);
    long start = now();
    if (pthread_create(&other, NULL, answer, NULL) != 0)
        return 1;
    for (long i = 0; i < TRIPS; i++) {
        sem_post(&there);
        sem_wait(&back);
    }
    pthread_join(other, NULL);
    printf("sem sem_parked %d %ld\n", TRIPS, now() - start);
    sem_destroy(&there);
    sem_destroy(&back);
    return 0;
}

int main(void) {
    for (int round = 0; round < REPEATS; round++) {
        time_pairs();
        if (time_trips() != 0)
            return 1;
    }
    return 0;
}
