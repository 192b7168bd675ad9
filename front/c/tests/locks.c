/* Many threads at the lock of one queue: all ask for it at once, some are held up wherever they are, also where they
 * have it, and nobody waits for ever. The number of rounds of a thread may be given (1,000). */
#include "../sugwelan.h"
#include "expect.h"
#include <pthread.h>
#include <signal.h>
#include <stdbool.h>
#include <time.h>

enum { WORKERS = 8, ROUNDS = 1000, TURNS = 10, CELL = 1, CONDITION = 2, VARIABLE = 20, WORD = 3, BIT = 4 };
enum { HOLD_UP = 300000, PAUSE = 1000000 }; /* nanoseconds */

static long rounds = ROUNDS;
static struct sugwelan_domain *domain;
static pthread_barrier_t starts;
static atomic_int working;
static atomic_int inside;

struct worker {
    pthread_t thread;
    struct sugwelan_task *task;
    int place;
};

static struct worker workers[WORKERS];

static void nap(long nanoseconds)
{
    struct timespec nap = {.tv_nsec = nanoseconds};
    nanosleep(&nap, NULL);
}

/* Holds its thread up wherever it is. */
static void holds_up(int signal)
{
    int before = errno;
    (void)signal;
    nap(HOLD_UP);
    errno = before;
}

/* A permit is given, by the task or by the Domain, and one is taken. */
static void give_and_take(struct worker *me, long round)
{
    if ((me->place + round) % 3)
        EXPECT(sugwelan_complete(me->task, CELL), 0);
    else
        EXPECT(sugwelan_domain_complete(domain, CELL), 0);
    EXPECT(sugwelan_wait_for_completion(me->task, CELL, SUGWELAN_KILLABLE), 0);
}

static void set_and_wait(struct worker *me, long round)
{
    EXPECT(sugwelan_set_and_wake(me->task, CONDITION, (uint64_t)round + 1, 0, NULL), 0);
    EXPECT(sugwelan_wait_event(me->task, CONDITION, SUGWELAN_INTERRUPTIBLE), 0);
}

/* A bit is taken and given back as fast as can be, so that who waits for the lock of its queue is put asleep and woken
 * by others at once. */
static void take_bit(struct worker *me)
{
    for (int turn = 0; turn < TURNS; turn++) {
        EXPECT(sugwelan_wait_on_bit_lock(me->task, WORD, BIT, SUGWELAN_UNINTERRUPTIBLE), 0);
        EXPECT(atomic_fetch_add(&inside, 1), 0);
        atomic_fetch_sub(&inside, 1);
        EXPECT(sugwelan_clear_and_wake_up_bit(me->task, WORD, BIT, NULL), 0);
    }
}

/* The last of a round tells the others, who wait for its number. */
static void meet(struct worker *me, long round)
{
    static atomic_long arrived;
    if (atomic_fetch_add(&arrived, 1) + 1 == WORKERS * (round + 1))
        EXPECT(sugwelan_publish_var_and_wake(me->task, VARIABLE, (uint64_t)round + 1, NULL), 0);
    EXPECT(sugwelan_wait_var_event(me->task, VARIABLE, (uint64_t)round, SUGWELAN_KILLABLE, NULL), 0);
}

static void *works(void *self)
{
    struct worker *me = self;
    pthread_barrier_wait(&starts);
    for (long round = 0; round < rounds; round++) {
        meet(me, round);
        give_and_take(me, round);
        set_and_wait(me, round);
        take_bit(me);
    }
    atomic_fetch_sub(&working, 1);
    pthread_barrier_wait(&starts);
    return NULL;
}

/* Holds one thread after the other up. */
static void hold_up(void)
{
    for (int turn = 0; atomic_load(&working); turn++) {
        EXPECT(pthread_kill(workers[turn * 5 % WORKERS].thread, SIGUSR1), 0);
        nap(PAUSE);
    }
}

int main(int count, char **words)
{
    struct sigaction action = {.sa_handler = holds_up, .sa_flags = SA_RESTART};
    struct sugwelan_task *task;
    alarm(PATIENCE);
    if (count > 1)
        rounds = atol(words[1]);
    EXPECT(sigaction(SIGUSR1, &action, NULL), 0);
    EXPECT(sugwelan_domain_new(&domain), 0);
    EXPECT(pthread_barrier_init(&starts, NULL, WORKERS + 1), 0);
    atomic_store(&working, WORKERS);
    for (int i = 0; i < WORKERS; i++) {
        workers[i].place = i;
        EXPECT(sugwelan_domain_task(domain, &workers[i].task), 0);
        EXPECT(pthread_create(&workers[i].thread, NULL, works, &workers[i]), 0);
    }
    pthread_barrier_wait(&starts);
    hold_up();
    pthread_barrier_wait(&starts);
    for (int i = 0; i < WORKERS; i++) {
        EXPECT(pthread_join(workers[i].thread, NULL), 0);
        EXPECT(sugwelan_task_free(workers[i].task), 0);
    }
    EXPECT(sugwelan_domain_task(domain, &task), 0);
    EXPECT(sugwelan_completion_done(task, CELL), 0);
    EXPECT(sugwelan_task_free(task), 0);
    EXPECT(sugwelan_domain_free(domain), 0);
    pthread_barrier_destroy(&starts);
    return finish("locks");
}
