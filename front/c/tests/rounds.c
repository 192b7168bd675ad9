/* Rounds of threads that wait and wake: none hangs, and none gets what it should not. The number of rounds may be
 * given (1,000). */
#include "../sugwelan.h"
#include "expect.h"
#include <pthread.h>

enum { WAITERS = 4, ROUNDS = 1000, SPIN = 2000, PACES = 8, CROWD = 120, CROWD_EACH = 50 };
enum { GATE = 0, PING = 1, PONG = 2, WORK = 3, TAKEN = 4, SIMPLE = 50 };
enum { WORD = 7, BIT = 13, PAGE = 9, VARIABLE = 20, CELL = 6 };

static long rounds = ROUNDS;
static struct sugwelan_task *tasks[WAITERS + 1];

/* A Domain with a task for each thread; the last one is for the main thread. */
static void open_domain(void)
{
    EXPECT(sugwelan_task_new(&tasks[WAITERS]), 0);
    for (int i = 0; i < WAITERS; i++)
        EXPECT(sugwelan_task_fork(tasks[WAITERS], &tasks[i]), 0);
}

static void close_domain(void)
{
    for (int i = 0; i <= WAITERS; i++)
        EXPECT(sugwelan_task_free(tasks[i]), 0);
}

/* Lets others come first by more or less. */
static void pause_for(long round)
{
    for (volatile long i = 0; i < round % PACES * SPIN; i++)
        ;
}

/* Starts a thread for each waiter's task, does something else meanwhile, and waits for them. */
static void among(void *(*waiter)(void *), void (*meanwhile)(long), long round)
{
    pthread_t threads[WAITERS];
    for (int i = 0; i < WAITERS; i++)
        EXPECT(pthread_create(&threads[i], NULL, waiter, tasks[i]), 0);
    meanwhile(round);
    for (int i = 0; i < WAITERS; i++)
        EXPECT(pthread_join(threads[i], NULL), 0);
}

static void nothing(long round)
{
    (void)round;
}

static void *waits_at_gate(void *task)
{
    EXPECT(sugwelan_wait_event(task, GATE, SUGWELAN_UNINTERRUPTIBLE), 0);
    return NULL;
}

static void opens_gate(long round)
{
    struct sugwelan_walked walked;
    pause_for(round);
    EXPECT(sugwelan_set_and_wake(tasks[WAITERS], GATE, 1, 0, &walked), 0);
    EXPECT(walked.woken <= WAITERS, 1);
    EXPECT(walked.end, SUGWELAN_END);
}

/* A new Domain in each round. */
static void gates(void)
{
    for (long round = 0; round < rounds; round++) {
        open_domain();
        among(waits_at_gate, opens_gate, round);
        close_domain();
    }
}

/* So many waiters that a wake of all gives the queue back in between; in one round of fifty. */
static void crowds(void)
{
    static struct sugwelan_task *crowd[CROWD];
    static pthread_t threads[CROWD];
    struct sugwelan_task *setter;
    EXPECT(sugwelan_task_new(&setter), 0);
    for (int i = 0; i < CROWD; i++)
        EXPECT(sugwelan_task_fork(setter, &crowd[i]), 0);
    for (long round = 0; round <= rounds / CROWD_EACH; round++) {
        for (int i = 0; i < CROWD; i++)
            EXPECT(pthread_create(&threads[i], NULL, waits_at_gate, crowd[i]), 0);
        pause_for(round * PACES / 2);
        EXPECT(sugwelan_set_and_wake(setter, GATE, 1, 0, NULL), 0);
        for (int i = 0; i < CROWD; i++)
            EXPECT(pthread_join(threads[i], NULL), 0);
        EXPECT(sugwelan_take_condition(setter, GATE, NULL), 0);
    }
    for (int i = 0; i < CROWD; i++)
        EXPECT(sugwelan_task_free(crowd[i]), 0);
    EXPECT(sugwelan_task_free(setter), 0);
}

/* Waits for a condition, and takes it. */
static uint64_t claim(struct sugwelan_task *task, uint32_t condition, int exclusive)
{
    uint64_t value = 0;
    while (!value) {
        EXPECT(exclusive ? sugwelan_wait_event_exclusive(task, condition, SUGWELAN_KILLABLE)
                         : sugwelan_wait_event(task, condition, SUGWELAN_INTERRUPTIBLE), 0);
        EXPECT(sugwelan_take_condition(task, condition, &value), 0);
    }
    return value;
}

static void *answers(void *task)
{
    for (long round = 1; round <= rounds; round++) {
        EXPECT(claim(task, PING, 0), round);
        EXPECT(sugwelan_set_and_wake(task, PONG, (uint64_t)round, 0, NULL), 0);
    }
    return NULL;
}

static void trips(void)
{
    pthread_t other;
    EXPECT(pthread_create(&other, NULL, answers, tasks[0]), 0);
    for (long round = 1; round <= rounds; round++) {
        EXPECT(sugwelan_set_and_wake(tasks[WAITERS], PING, (uint64_t)round, 0, NULL), 0);
        EXPECT(claim(tasks[WAITERS], PONG, 0), round);
    }
    EXPECT(pthread_join(other, NULL), 0);
}

static atomic_long jobs;

/* Takes jobs until one is behind the last. */
static void *works(void *task)
{
    long job = 0;
    while (job <= rounds) {
        job = (long)claim(task, WORK, 1);
        if (job <= rounds)
            atomic_fetch_add(&jobs, job);
        EXPECT(sugwelan_set_and_wake(task, TAKEN, 1, 0, NULL), 0);
    }
    return NULL;
}

/* Gives each job to one worker, and at last one behind the last to each. */
static void gives_jobs(long round)
{
    (void)round;
    for (long job = 1; job <= rounds + WAITERS; job++) {
        EXPECT(sugwelan_set_and_wake(tasks[WAITERS], WORK, (uint64_t)job, 1, NULL), 0);
        EXPECT(claim(tasks[WAITERS], TAKEN, 0), 1);
    }
}

static long guarded;

static void *adds_by_bit(void *task)
{
    for (long i = 0; i < rounds; i++) {
        EXPECT(sugwelan_wait_on_bit_lock(task, WORD, BIT, SUGWELAN_UNINTERRUPTIBLE), 0);
        guarded++;
        EXPECT(sugwelan_clear_and_wake_up_bit(task, WORD, BIT, NULL), 0);
    }
    return NULL;
}

static void *adds_by_page(void *task)
{
    for (long i = 0; i < rounds; i++) {
        EXPECT(sugwelan_lock_page(task, PAGE, SUGWELAN_KILLABLE), 0);
        EXPECT(sugwelan_add_tally(task, PAGE, 1, NULL), 0);
        guarded++;
        EXPECT(sugwelan_unlock_page(task, PAGE, NULL), 0);
    }
    return NULL;
}

static void locks(void)
{
    uint64_t tally = 0;
    guarded = 0;
    among(adds_by_bit, nothing, 0);
    EXPECT(guarded, WAITERS * rounds);
    guarded = 0;
    among(adds_by_page, nothing, 0);
    EXPECT(guarded, WAITERS * rounds);
    EXPECT(sugwelan_trylock_page(tasks[WAITERS], PAGE), 1);
    EXPECT(sugwelan_add_tally(tasks[WAITERS], PAGE, 0, &tally), 0);
    EXPECT(tally, WAITERS * rounds);
    EXPECT(sugwelan_unlock_page(tasks[WAITERS], PAGE, NULL), 0);
}

/* Sees a variable go up to the last round. */
static void *watches(void *task)
{
    uint64_t value = 0;
    while (value < (uint64_t)rounds) {
        uint64_t found = value;
        EXPECT(sugwelan_wait_var_event(task, VARIABLE, value, SUGWELAN_UNINTERRUPTIBLE, &found), 0);
        EXPECT(found > value, 1);
        value = found;
    }
    return NULL;
}

static void counts_up(long round)
{
    (void)round;
    for (long i = 1; i <= rounds; i++)
        EXPECT(sugwelan_publish_var_and_wake(tasks[WAITERS], VARIABLE, (uint64_t)i, NULL), 0);
}

static void *waits_on_bit(void *task)
{
    EXPECT(sugwelan_wait_on_bit(task, WORD, BIT, SUGWELAN_KILLABLE), 0);
    return NULL;
}

static void clears_bit(long round)
{
    pause_for(round);
    EXPECT(sugwelan_clear_and_wake_up_bit(tasks[WAITERS], WORD, BIT, NULL), 0);
}

static void bits(void)
{
    for (long round = 0; round < rounds; round++) {
        EXPECT(sugwelan_trylock_bit(tasks[WAITERS], WORD, BIT), 1);
        among(waits_on_bit, clears_bit, round);
    }
}

static void *waits_for_permit(void *task)
{
    EXPECT(sugwelan_wait_for_completion(task, CELL, SUGWELAN_UNINTERRUPTIBLE), 0);
    return NULL;
}

static void completes(long round)
{
    pause_for(round);
    for (int i = 0; i < WAITERS; i++)
        EXPECT(sugwelan_complete(tasks[WAITERS], CELL), 0);
}

static void completions(void)
{
    for (long round = 0; round < rounds; round++) {
        among(waits_for_permit, completes, round);
        EXPECT(sugwelan_completion_done(tasks[WAITERS], CELL), 0);
    }
}

static void *waits_simply(void *task)
{
    EXPECT(sugwelan_swait_event(task, SIMPLE, SUGWELAN_INTERRUPTIBLE), 0);
    return NULL;
}

static void sets_simply(long round)
{
    uint32_t selected = 0;
    pause_for(round);
    EXPECT(sugwelan_set_and_swake_all(tasks[WAITERS], SIMPLE, 1, &selected), 0);
    EXPECT(selected <= WAITERS, 1);
}

static void simple_queues(void)
{
    for (long round = 0; round < rounds; round++) {
        EXPECT(sugwelan_take_condition(tasks[WAITERS], SIMPLE, NULL), 0);
        among(waits_simply, sets_simply, round);
    }
}

/* Each takes a turn at a simple condition, and hands it on to the next. */
static void *hands_on(void *task)
{
    for (long i = 0; i < rounds; i++) {
        uint64_t value = 0;
        while (!value) {
            EXPECT(sugwelan_swait_event(task, SIMPLE, SUGWELAN_UNINTERRUPTIBLE), 0);
            EXPECT(sugwelan_take_condition(task, SIMPLE, &value), 0);
        }
        guarded++;
        EXPECT(sugwelan_set_and_swake_one(task, SIMPLE, value, NULL), 0);
    }
    return NULL;
}

static void simple_turns(void)
{
    guarded = 0;
    EXPECT(sugwelan_set_and_swake_one(tasks[WAITERS], SIMPLE, 1, NULL), 0);
    among(hands_on, nothing, 0);
    EXPECT(guarded, WAITERS * rounds);
}

static void *waits_for_signal(void *task)
{
    EXPECT(sugwelan_wait_event(task, GATE, SUGWELAN_INTERRUPTIBLE), -EINTR);
    EXPECT(sugwelan_take_signal(task), 1);
    return NULL;
}

static void raises(long round)
{
    pause_for(round);
    for (int i = 0; i < WAITERS; i++)
        EXPECT(sugwelan_raise_signal(tasks[WAITERS], (uint32_t)sugwelan_task_number(tasks[i]), 0), 0);
}

static void signals(void)
{
    for (long round = 0; round < rounds; round++)
        among(waits_for_signal, raises, round);
}

int main(int count, char **words)
{
    alarm(PATIENCE);
    if (count > 1)
        rounds = atol(words[1]);
    gates();
    crowds();
    open_domain();
    trips();
    among(works, gives_jobs, 0);
    EXPECT(atomic_load(&jobs), rounds * (rounds + 1) / 2);
    locks();
    among(watches, counts_up, 0);
    bits();
    completions();
    simple_turns();
    simple_queues();
    signals();
    close_domain();
    return finish("rounds");
}
