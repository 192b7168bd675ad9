/* Two threads on one task: the second one is told so, whatever call it makes, and the first one goes on. */
#include "../sugwelan.h"
#include "expect.h"
#include <pthread.h>
#include <time.h>

enum { GATE = 5, WORD = 3, BIT = 4, PAGE = 11, VARIABLE = 30, CELL = 2, SIMPLE = 60, TRIES = 20000 };
enum { NAP = 1000000 };

static struct sugwelan_task *shared;

/* Waits, once the other thread is in no call on the task. */
static void *waits(void *task)
{
    int answer;
    while ((answer = sugwelan_wait_event(task, GATE, SUGWELAN_UNINTERRUPTIBLE)) == -EALREADY)
        ;
    EXPECT(answer, 0);
    return NULL;
}

/* Each call while another thread is in one. */
static void all_calls(struct sugwelan_task *task)
{
    struct sugwelan_task *more;
    uint64_t value;
    EXPECT(sugwelan_task_fork(task, &more), 0);
    EXPECT(sugwelan_task_free(more), 0);
    EXPECT(sugwelan_task_free(task), -EALREADY);
    EXPECT(sugwelan_wait_event(task, GATE, SUGWELAN_UNINTERRUPTIBLE), -EALREADY);
    EXPECT(sugwelan_wait_event_exclusive(task, GATE, SUGWELAN_UNINTERRUPTIBLE), -EALREADY);
    EXPECT(sugwelan_swait_event(task, SIMPLE, SUGWELAN_UNINTERRUPTIBLE), -EALREADY);
    EXPECT(sugwelan_wake_up(task, GATE, SUGWELAN_WAKE_NORMAL, 0, NULL), -EALREADY);
    EXPECT(sugwelan_set_and_wake(task, GATE, 1, 0, NULL), -EALREADY);
    EXPECT(sugwelan_take_condition(task, GATE, &value), -EALREADY);
    EXPECT(sugwelan_set_and_swake_one(task, SIMPLE, 1, NULL), -EALREADY);
    EXPECT(sugwelan_set_and_swake_all(task, SIMPLE, 1, NULL), -EALREADY);
    EXPECT(sugwelan_swake_up_one(task, SIMPLE, NULL), -EALREADY);
    EXPECT(sugwelan_swake_up_all(task, SIMPLE, NULL), -EALREADY);
    EXPECT(sugwelan_wait_var_event(task, VARIABLE, 1, SUGWELAN_UNINTERRUPTIBLE, NULL), -EALREADY);
    EXPECT(sugwelan_publish_var_and_wake(task, VARIABLE, 1, NULL), -EALREADY);
    EXPECT(sugwelan_wait_on_bit(task, WORD, BIT, SUGWELAN_UNINTERRUPTIBLE), -EALREADY);
    EXPECT(sugwelan_wait_on_bit_lock(task, WORD, BIT, SUGWELAN_UNINTERRUPTIBLE), -EALREADY);
    EXPECT(sugwelan_trylock_bit(task, WORD, BIT), -EALREADY);
    EXPECT(sugwelan_clear_and_wake_up_bit(task, WORD, BIT, NULL), -EALREADY);
    EXPECT(sugwelan_lock_page(task, PAGE, SUGWELAN_UNINTERRUPTIBLE), -EALREADY);
    EXPECT(sugwelan_trylock_page(task, PAGE), -EALREADY);
    EXPECT(sugwelan_unlock_page(task, PAGE, NULL), -EALREADY);
    EXPECT(sugwelan_add_tally(task, PAGE, 1, NULL), -EALREADY);
    EXPECT(sugwelan_wait_for_completion(task, CELL, SUGWELAN_UNINTERRUPTIBLE), -EALREADY);
    EXPECT(sugwelan_complete(task, CELL), -EALREADY);
    EXPECT(sugwelan_complete_all(task, CELL), -EALREADY);
    EXPECT(sugwelan_reinit_completion(task, CELL), -EALREADY);
    EXPECT(sugwelan_try_wait_for_completion(task, CELL), -EALREADY);
    EXPECT(sugwelan_completion_done(task, CELL), -EALREADY);
    EXPECT(sugwelan_raise_signal(task, 0, 0), -EALREADY);
    EXPECT(sugwelan_take_signal(task), -EALREADY);
    EXPECT(sugwelan_signal_pending(task), -EALREADY);
}

/* Waits until another thread is in a call on the task. */
static void see_busy(struct sugwelan_task *task)
{
    struct timespec nap = {.tv_nsec = NAP};
    while (sugwelan_wake_up(task, GATE, SUGWELAN_WAKE_NORMAL, 0, NULL) != -EALREADY)
        nanosleep(&nap, NULL);
}

/* Takes a page and gives it back, again and again, while another thread does so by the same task. */
static void *hurries(void *counted)
{
    long *taken = counted;
    for (int i = 0; i < TRIES; i++) {
        int answer = sugwelan_trylock_page(shared, PAGE);
        if (answer == -EALREADY || answer == 0)
            continue;
        EXPECT(answer, 1);
        ++*taken;
        while ((answer = sugwelan_unlock_page(shared, PAGE, NULL)) == -EALREADY)
            ;
        EXPECT(answer, 0);
    }
    return NULL;
}

int main(void)
{
    pthread_t other;
    struct sugwelan_task *waker;
    long taken[2] = {0, 0};
    alarm(PATIENCE);
    EXPECT(sugwelan_task_new(&shared), 0);
    EXPECT(sugwelan_task_fork(shared, &waker), 0);
    EXPECT(pthread_create(&other, NULL, waits, shared), 0);
    see_busy(shared);
    all_calls(shared);
    EXPECT(sugwelan_set_and_wake(waker, GATE, 1, 0, NULL), 0);
    EXPECT(pthread_join(other, NULL), 0);
    EXPECT(pthread_create(&other, NULL, hurries, &taken[0]), 0);
    hurries(&taken[1]);
    EXPECT(pthread_join(other, NULL), 0);
    EXPECT(taken[0] + taken[1] > 0, 1);
    EXPECT(sugwelan_trylock_page(shared, PAGE), 1);
    EXPECT(sugwelan_unlock_page(shared, PAGE, NULL), 0);
    EXPECT(sugwelan_task_free(shared), 0);
    EXPECT(sugwelan_task_free(waker), 0);
    return finish("twice");
}
