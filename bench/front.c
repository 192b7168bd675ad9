/* Round trips of two threads that park, and calls that find nobody waiting: by the library for C, by condition
 * variables of the C library, and by raw futexes. It writes `WHO NAME COUNT NANOSECONDS` for each round of each kind.
 * */
#ifndef _GNU_SOURCE
#define _GNU_SOURCE
#endif
#include "../front/c/sugwelan.h"
#include <linux/futex.h>
#include <pthread.h>
#include <stdatomic.h>
#include <stdio.h>
#include <stdlib.h>
#include <sys/syscall.h>
#include <time.h>
#include <unistd.h>

enum { ROUNDS = 10, TRIPS = 2000, CALLS = 50000, WORD = 1, BIT = 2, PAGE = 3, OTHER = 4 };
enum { FREE, SET, PARKED };

static struct sugwelan_task *tasks[2];

/* One event for each direction of a trip, by condition variables. */
static struct {
    pthread_mutex_t mutex;
    pthread_cond_t changed;
    int set;
} events[2] = {{PTHREAD_MUTEX_INITIALIZER, PTHREAD_COND_INITIALIZER, 0},
               {PTHREAD_MUTEX_INITIALIZER, PTHREAD_COND_INITIALIZER, 0}};

/* ... and by futexes: a word says whether a thread may be parked. */
static _Atomic uint32_t words[2];

static void sugwelan_sets(int way)
{
    if (sugwelan_set_and_wake(tasks[way], (uint32_t)way, 1, 0, NULL))
        abort();
}

static void sugwelan_takes(int way)
{
    uint64_t value;
    struct sugwelan_task *task = tasks[!way];
    if (sugwelan_wait_event(task, (uint32_t)way, SUGWELAN_UNINTERRUPTIBLE) ||
        sugwelan_take_condition(task, (uint32_t)way, &value))
        abort();
}

static void condvar_sets(int way)
{
    pthread_mutex_lock(&events[way].mutex);
    events[way].set = 1;
    pthread_mutex_unlock(&events[way].mutex);
    pthread_cond_broadcast(&events[way].changed);
}

static void condvar_takes(int way)
{
    pthread_mutex_lock(&events[way].mutex);
    while (!events[way].set)
        pthread_cond_wait(&events[way].changed, &events[way].mutex);
    events[way].set = 0;
    pthread_mutex_unlock(&events[way].mutex);
}

static void futex(_Atomic uint32_t *word, int what, uint32_t number)
{
    syscall(SYS_futex, word, what, number, NULL, NULL, 0);
}

static void futex_sets(int way)
{
    if (atomic_exchange(&words[way], SET) == PARKED)
        futex(&words[way], FUTEX_WAKE_PRIVATE, INT32_MAX);
}

static void futex_takes(int way)
{
    uint32_t found = FREE;
    while (atomic_load(&words[way]) != SET) {
        found = FREE;
        if (atomic_compare_exchange_strong(&words[way], &found, PARKED) || found == PARKED)
            futex(&words[way], FUTEX_WAIT_PRIVATE, PARKED);
    }
    atomic_store(&words[way], FREE);
}

static void sugwelan_locks_bit(void)
{
    if (sugwelan_wait_on_bit_lock(tasks[0], WORD, BIT, SUGWELAN_UNINTERRUPTIBLE) ||
        sugwelan_clear_and_wake_up_bit(tasks[0], WORD, BIT, NULL))
        abort();
}

static void sugwelan_locks_page(void)
{
    if (sugwelan_lock_page(tasks[0], PAGE, SUGWELAN_UNINTERRUPTIBLE) || sugwelan_unlock_page(tasks[0], PAGE, NULL))
        abort();
}

static void condvar_locks(void)
{
    pthread_mutex_lock(&events[0].mutex);
    pthread_mutex_unlock(&events[0].mutex);
}

static void futex_locks(void)
{
    if (atomic_exchange(&words[0], SET) == PARKED || atomic_exchange(&words[0], FREE) == PARKED)
        abort();
}

static void sugwelan_waits_in_vain(void)
{
    if (sugwelan_wait_event(tasks[0], OTHER, SUGWELAN_UNINTERRUPTIBLE))
        abort();
}

static void condvar_looks(void)
{
    pthread_mutex_lock(&events[0].mutex);
    if (!events[0].set)
        abort();
    pthread_mutex_unlock(&events[0].mutex);
}

static void futex_looks(void)
{
    if (atomic_load(&words[0]) != SET)
        abort();
}

static void sugwelan_sets_in_vain(void) { sugwelan_sets(0); }
static void condvar_sets_in_vain(void) { condvar_sets(0); }
static void futex_sets_in_vain(void) { futex_sets(0); }

static long nanoseconds(void)
{
    struct timespec now;
    clock_gettime(CLOCK_MONOTONIC, &now);
    return now.tv_sec * 1000000000 + now.tv_nsec;
}

/* What a trip is made of. */
struct trip {
    void (*sets)(int way);
    void (*takes)(int way);
};

static void *answers(void *trip)
{
    const struct trip *made = trip;
    for (int i = 0; i < TRIPS; i++) {
        made->takes(0);
        made->sets(1);
    }
    return NULL;
}

static void trips(const char *who, struct trip trip)
{
    pthread_t other;
    long begun;
    if (pthread_create(&other, NULL, answers, &trip))
        abort();
    begun = nanoseconds();
    for (int i = 0; i < TRIPS; i++) {
        trip.sets(0);
        trip.takes(1);
    }
    printf("%s trip %d %ld\n", who, TRIPS, nanoseconds() - begun);
    pthread_join(other, NULL);
}

static void calls(const char *who, const char *what, void (*call)(void))
{
    long begun = nanoseconds();
    for (int i = 0; i < CALLS; i++)
        call();
    printf("%s %s %d %ld\n", who, what, CALLS, nanoseconds() - begun);
}

static void single_calls(void)
{
    calls("sugwelan", "bit", sugwelan_locks_bit);
    calls("sugwelan", "page", sugwelan_locks_page);
    calls("condvar", "bit", condvar_locks);
    calls("condvar", "page", condvar_locks);
    calls("futex", "bit", futex_locks);
    calls("futex", "page", futex_locks);
    calls("sugwelan", "set", sugwelan_sets_in_vain);
    calls("condvar", "set", condvar_sets_in_vain);
    calls("futex", "set", futex_sets_in_vain);
    calls("sugwelan", "wait", sugwelan_waits_in_vain);
    calls("condvar", "wait", condvar_looks);
    calls("futex", "wait", futex_looks);
    sugwelan_takes(0);
    condvar_takes(0);
    futex_takes(0);
}

int main(int count, char **argv)
{
    (void)argv;
    if (sugwelan_task_new(&tasks[0]) || sugwelan_task_fork(tasks[0], &tasks[1]) ||
        sugwelan_set_and_wake(tasks[0], OTHER, 1, 0, NULL))
        return 1;
    for (int round = 0; round < ROUNDS; round++) {
        trips("sugwelan", (struct trip){sugwelan_sets, sugwelan_takes});
        trips("condvar", (struct trip){condvar_sets, condvar_takes});
        trips("futex", (struct trip){futex_sets, futex_takes});
        if (count == 1)
            single_calls();
    }
    return 0;
}
