/* Calls about one thing by many threads at once: by the library for C, and by what the C library has. It writes `WHO
 * NAME COUNT NANOSECONDS` for each round of each kind: nanoseconds of the clock for so many pairs of calls of all
 * threads together. The number of threads is given, and for one kind alone its WHO and NAME. */
#ifndef _GNU_SOURCE
#define _GNU_SOURCE
#endif
#include "../front/c/sugwelan.h"
#include <pthread.h>
#include <semaphore.h>
#include <stdio.h>
#include <stdlib.h>
#include <string.h>
#include <time.h>

enum { ROUNDS = 10, PAIRS = 5000, MOST = 64, CELL = 1, CONDITION = 2, WORD = 3, BIT = 4, PAGE = 5, HELD = 6, WORK = 500 };

static int threads;
static pthread_barrier_t starts, ends;
static sem_t permits;
static pthread_mutex_t mutex = PTHREAD_MUTEX_INITIALIZER;
static pthread_cond_t changed = PTHREAD_COND_INITIALIZER;
static long counted, given;
static int set;

static void must(int answer)
{
    if (answer)
        abort();
}

static void sugwelan_completion(struct sugwelan_task *task)
{
    must(sugwelan_complete(task, CELL));
    must(sugwelan_wait_for_completion(task, CELL, SUGWELAN_UNINTERRUPTIBLE));
}

static void semaphore_completion(struct sugwelan_task *task)
{
    (void)task;
    must(sem_post(&permits));
    must(sem_wait(&permits));
}

static void pthread_completion(struct sugwelan_task *task)
{
    (void)task;
    pthread_mutex_lock(&mutex);
    given++;
    pthread_cond_signal(&changed);
    pthread_mutex_unlock(&mutex);
    pthread_mutex_lock(&mutex);
    while (!given)
        pthread_cond_wait(&changed, &mutex);
    given--;
    pthread_mutex_unlock(&mutex);
}

static void sugwelan_condition(struct sugwelan_task *task)
{
    must(sugwelan_set_and_wake(task, CONDITION, 1, 0, NULL));
    must(sugwelan_wait_event(task, CONDITION, SUGWELAN_UNINTERRUPTIBLE));
}

static void pthread_condition(struct sugwelan_task *task)
{
    (void)task;
    pthread_mutex_lock(&mutex);
    set = 1;
    pthread_cond_broadcast(&changed);
    pthread_mutex_unlock(&mutex);
    pthread_mutex_lock(&mutex);
    while (!set)
        pthread_cond_wait(&changed, &mutex);
    pthread_mutex_unlock(&mutex);
}

static void sugwelan_bit(struct sugwelan_task *task)
{
    must(sugwelan_wait_on_bit_lock(task, WORD, BIT, SUGWELAN_UNINTERRUPTIBLE));
    counted++;
    must(sugwelan_clear_and_wake_up_bit(task, WORD, BIT, NULL));
}

static void sugwelan_page(struct sugwelan_task *task)
{
    must(sugwelan_lock_page(task, PAGE, SUGWELAN_UNINTERRUPTIBLE));
    counted++;
    must(sugwelan_unlock_page(task, PAGE, NULL));
}

static void pthread_locks(struct sugwelan_task *task)
{
    (void)task;
    pthread_mutex_lock(&mutex);
    counted++;
    pthread_mutex_unlock(&mutex);
}

/* What a thread does while it keeps a lock that others want. */
static void work(void)
{
    for (volatile int step = 0; step < WORK; step++)
        ;
}

static void sugwelan_held(struct sugwelan_task *task)
{
    must(sugwelan_wait_on_bit_lock(task, HELD, BIT, SUGWELAN_UNINTERRUPTIBLE));
    work();
    must(sugwelan_clear_and_wake_up_bit(task, HELD, BIT, NULL));
}

static void pthread_held(struct sugwelan_task *task)
{
    (void)task;
    pthread_mutex_lock(&mutex);
    work();
    pthread_mutex_unlock(&mutex);
}

/* The kinds, each by all who can it. */
static const struct kind {
    const char *who, *name;
    void (*pair)(struct sugwelan_task *task);
} kinds[] = {
    {"sugwelan", "completion", sugwelan_completion}, {"semaphore", "completion", semaphore_completion},
    {"pthread", "completion", pthread_completion},   {"sugwelan", "condition", sugwelan_condition},
    {"pthread", "condition", pthread_condition},     {"sugwelan", "bit", sugwelan_bit},
    {"pthread", "bit", pthread_locks},               {"sugwelan", "page", sugwelan_page},
    {"pthread", "page", pthread_locks},              {"sugwelan", "held", sugwelan_held},
    {"pthread", "held", pthread_held},
};

enum { KINDS = sizeof kinds / sizeof *kinds };

/* Of which kind alone rounds are made. */
static const char *only_who, *only_name;

static int is_wanted(const struct kind *kind)
{
    return !only_name || (!strcmp(only_who, kind->who) && !strcmp(only_name, kind->name));
}

static long nanoseconds(void)
{
    struct timespec now;
    clock_gettime(CLOCK_MONOTONIC, &now);
    return now.tv_sec * 1000000000 + now.tv_nsec;
}

/* A thread with its task, and the time of its own work. */
struct worker {
    pthread_t thread;
    struct sugwelan_task *task;
    long begun, ended;
};

static struct worker workers[MOST];

static void *works(void *self)
{
    struct worker *me = self;
    for (int round = 0; round < ROUNDS; round++)
        for (int kind = 0; kind < KINDS; kind++) {
            if (!is_wanted(&kinds[kind]))
                continue;
            pthread_barrier_wait(&starts);
            me->begun = nanoseconds();
            for (int i = 0; i < PAIRS; i++)
                kinds[kind].pair(me->task);
            me->ended = nanoseconds();
            pthread_barrier_wait(&ends);
        }
    return NULL;
}

/* From the first one's beginning to the last one's end. */
static long passed(void)
{
    long begun = workers[0].begun, ended = workers[0].ended;
    for (int i = 1; i < threads; i++) {
        begun = workers[i].begun < begun ? workers[i].begun : begun;
        ended = workers[i].ended > ended ? workers[i].ended : ended;
    }
    return ended - begun;
}

int main(int count, char **words)
{
    threads = count > 1 ? atoi(words[1]) : 4;
    if (threads < 1 || threads > MOST || count == 3)
        return 2;
    if (count > 3) {
        only_who = words[2];
        only_name = words[3];
    }
    must(sugwelan_task_new(&workers[0].task));
    for (int i = 1; i < threads; i++)
        must(sugwelan_task_fork(workers[0].task, &workers[i].task));
    must(sem_init(&permits, 0, 0));
    must(pthread_barrier_init(&starts, NULL, (unsigned)threads + 1));
    must(pthread_barrier_init(&ends, NULL, (unsigned)threads + 1));
    for (int i = 0; i < threads; i++)
        must(pthread_create(&workers[i].thread, NULL, works, &workers[i]));
    for (int round = 0; round < ROUNDS; round++)
        for (int kind = 0; kind < KINDS; kind++) {
            if (!is_wanted(&kinds[kind]))
                continue;
            pthread_barrier_wait(&starts);
            pthread_barrier_wait(&ends);
            printf("%s %s %d %ld\n", kinds[kind].who, kinds[kind].name, PAIRS * threads, passed());
        }
    for (int i = 0; i < threads; i++)
        must(pthread_join(workers[i].thread, NULL));
    return 0;
}
