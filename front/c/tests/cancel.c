/* Threads are cancelled in calls that many make at once: the others go on, and so does the task of each that was
 * cancelled. A thread that is parked is cancelled once it was woken or its limit has come. The number of cancels may be
 * given (300). */
#include "../sugwelan.h"
#include "expect.h"
#include <pthread.h>
#include <stdbool.h>
#include <time.h>

enum { WORKERS = 8, CANCELS = 300, CELL = 3, GATE = 4, OTHER_GATE = 6, BIT_WORD = 5, NAP = 200000 };
enum { TICK = 1000000 };

/* A thread with its task, and how often it went round. */
struct worker {
    pthread_t thread;
    struct sugwelan_task *task;
    atomic_long rounds;
    atomic_bool stops;
};

static long cancels = CANCELS;
static struct worker workers[WORKERS];
static struct sugwelan_domain *domain;

/* Gives and takes permits until it is to stop, or is cancelled between two rounds. */
static void *goes_round(void *self)
{
    struct worker *me = self;
    while (!atomic_load(&me->stops)) {
        EXPECT(sugwelan_complete(me->task, CELL), 0);
        EXPECT(sugwelan_wait_for_completion(me->task, CELL, SUGWELAN_UNINTERRUPTIBLE), 0);
        EXPECT(sugwelan_wait_on_bit_lock(me->task, BIT_WORD, 0, SUGWELAN_UNINTERRUPTIBLE), 0);
        EXPECT(sugwelan_clear_and_wake_up_bit(me->task, BIT_WORD, 0, NULL), 0);
        atomic_fetch_add(&me->rounds, 1);
        pthread_testcancel();
    }
    return NULL;
}

static void nap(void)
{
    struct timespec nap = {.tv_nsec = NAP};
    nanosleep(&nap, NULL);
}

static void start(struct worker *worker)
{
    EXPECT(pthread_create(&worker->thread, NULL, goes_round, worker), 0);
}

/* Cancels one worker after another; the task of each is the next thread's. */
static void cancel_many(void)
{
    for (long i = 0; i < cancels; i++) {
        struct worker *worker = &workers[i % WORKERS];
        long before = atomic_load(&worker->rounds);
        EXPECT(pthread_cancel(worker->thread), 0);
        EXPECT(pthread_join(worker->thread, NULL), 0);
        start(worker);
        if (i % WORKERS == 0)
            nap();
        EXPECT(atomic_load(&worker->rounds) >= before, 1);
    }
}

/* All go on at the end: each makes a round yet. */
static void all_go_on(void)
{
    for (int i = 0; i < WORKERS; i++)
        for (long before = atomic_load(&workers[i].rounds); atomic_load(&workers[i].rounds) == before;)
            nap();
}

/* Parks, once the main thread is in no call on the task. */
static void *parks(void *task)
{
    int answer;
    while ((answer = sugwelan_wait_event(task, GATE, SUGWELAN_UNINTERRUPTIBLE)) == -EALREADY)
        ;
    EXPECT(answer, 0);
    pthread_testcancel();
    EXPECT(0, 1);
    return NULL;
}

/* A thread that is parked goes on to the end of its call, and is cancelled then. */
static void cancel_parked(void)
{
    pthread_t thread;
    struct sugwelan_task *task;
    void *end = NULL;
    EXPECT(sugwelan_domain_task(domain, &task), 0);
    EXPECT(pthread_create(&thread, NULL, parks, task), 0);
    while (sugwelan_take_signal(task) != -EALREADY)
        nap();
    EXPECT(pthread_cancel(thread), 0);
    nap();
    EXPECT(sugwelan_take_signal(task), -EALREADY);
    EXPECT(sugwelan_domain_set_and_wake(domain, GATE, 1, 0, NULL), 0);
    EXPECT(pthread_join(thread, &end), 0);
    EXPECT(end == PTHREAD_CANCELED, 1);
    EXPECT(sugwelan_task_free(task), 0);
}

/* Waits with a limit, again and again, and is cancelled in between. */
static void *ticks(void *task)
{
    while (sugwelan_wait_event_timeout(task, OTHER_GATE, SUGWELAN_UNINTERRUPTIBLE, TICK) == -ETIMEDOUT)
        pthread_testcancel();
    EXPECT(0, 1);
    return NULL;
}

/* Nobody wakes it, and nothing of its wait is left. */
static void cancel_between_limits(void)
{
    pthread_t thread;
    struct sugwelan_walked walked;
    struct sugwelan_task *task;
    void *end = NULL;
    EXPECT(sugwelan_domain_task(domain, &task), 0);
    EXPECT(pthread_create(&thread, NULL, ticks, task), 0);
    nap();
    EXPECT(pthread_cancel(thread), 0);
    EXPECT(pthread_join(thread, &end), 0);
    EXPECT(end == PTHREAD_CANCELED, 1);
    EXPECT(sugwelan_domain_set_and_wake(domain, OTHER_GATE, 1, 0, &walked), 0);
    EXPECT(walked.woken, 0);
    EXPECT(sugwelan_task_free(task), 0);
}

int main(int count, char **words)
{
    alarm(PATIENCE);
    if (count > 1 && atol(words[1]) < cancels)
        cancels = atol(words[1]);
    EXPECT(sugwelan_domain_new(&domain), 0);
    for (int i = 0; i < WORKERS; i++) {
        EXPECT(sugwelan_domain_task(domain, &workers[i].task), 0);
        start(&workers[i]);
    }
    cancel_many();
    all_go_on();
    for (int i = 0; i < WORKERS; i++)
        atomic_store(&workers[i].stops, true);
    for (int i = 0; i < WORKERS; i++) {
        EXPECT(pthread_join(workers[i].thread, NULL), 0);
        EXPECT(sugwelan_task_free(workers[i].task), 0);
    }
    cancel_parked();
    cancel_between_limits();
    EXPECT(sugwelan_domain_free(domain), 0);
    return finish("cancel");
}
