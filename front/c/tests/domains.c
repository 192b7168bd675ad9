/* Domains: their calls for who has no task at hand, what is of one and not of another, and tasks whose numbers are used
 * again. The number of rounds may be given (1,000); there are 100 tasks in each. */
#include "../sugwelan.h"
#include "expect.h"
#include <pthread.h>
#include <sched.h>

enum { ROUNDS = 1000, EACH = 25, THREADS = 4 };
enum { PLAIN = 1, SIMPLE = 50, VARIABLE = 20, CELL = 2, WORD = 3, BIT = 4, PAGE = 5, VALUE = 7 };

static long rounds = ROUNDS;
static struct sugwelan_domain *domain;
static struct sugwelan_task *task;
static long guarded;

/* Each call of a Domain, while nobody waits. */
static void calls(void)
{
    struct sugwelan_walked walked = {9, 9, 9, SUGWELAN_STOPPED};
    uint32_t selected = 9;
    uint64_t value = 0;
    EXPECT(sugwelan_domain_set_and_wake(domain, PLAIN, VALUE, 0, &walked), 0);
    EXPECT(walked.woken + walked.selected, 0);
    EXPECT(walked.end, SUGWELAN_END);
    EXPECT(sugwelan_take_condition(task, PLAIN, &value), 0);
    EXPECT(value, VALUE);
    EXPECT(sugwelan_domain_wake_up(domain, PLAIN, SUGWELAN_WAKE_INTERRUPTIBLE, 1, NULL), 0);
    EXPECT(sugwelan_domain_set_and_swake_one(domain, SIMPLE, VALUE, &selected), 0);
    EXPECT(selected, 0);
    EXPECT(sugwelan_take_condition(task, SIMPLE, &value), 0);
    EXPECT(value, VALUE);
    EXPECT(sugwelan_domain_set_and_swake_all(domain, SIMPLE, VALUE, NULL), 0);
    EXPECT(sugwelan_domain_swake_up_one(domain, SIMPLE, NULL), 0);
    EXPECT(sugwelan_domain_swake_up_all(domain, SIMPLE, NULL), 0);
    EXPECT(sugwelan_swait_event(task, SIMPLE, SUGWELAN_UNINTERRUPTIBLE), 0);
    EXPECT(sugwelan_domain_publish_var_and_wake(domain, VARIABLE, VALUE, NULL), 0);
    EXPECT(sugwelan_wait_var_event(task, VARIABLE, 0, SUGWELAN_KILLABLE, &value), 0);
    EXPECT(value, VALUE);
    EXPECT(sugwelan_domain_complete(domain, CELL), 0);
    EXPECT(sugwelan_wait_for_completion(task, CELL, SUGWELAN_KILLABLE), 0);
    EXPECT(sugwelan_completion_done(task, CELL), 0);
    EXPECT(sugwelan_domain_complete_all(domain, CELL), 0);
    EXPECT(sugwelan_completion_done(task, CELL), 1);
    EXPECT(sugwelan_reinit_completion(task, CELL), 0);
}

static void *waits_for_signal(void *self)
{
    EXPECT(sugwelan_wait_event(self, PLAIN, SUGWELAN_INTERRUPTIBLE), -EINTR);
    EXPECT(sugwelan_take_signal(self), 1);
    return NULL;
}

static void *waits_for_permit(void *self)
{
    EXPECT(sugwelan_wait_for_completion(self, CELL, SUGWELAN_UNINTERRUPTIBLE), 0);
    return NULL;
}

/* A thread waits by a task, and another one, without a task, makes an end of it. */
static void wakes(void)
{
    pthread_t thread;
    for (long round = 0; round < rounds; round++) {
        EXPECT(pthread_create(&thread, NULL, waits_for_permit, task), 0);
        EXPECT(sugwelan_domain_complete(domain, CELL), 0);
        EXPECT(pthread_join(thread, NULL), 0);
        EXPECT(pthread_create(&thread, NULL, waits_for_signal, task), 0);
        EXPECT(sugwelan_domain_raise_signal(domain, (uint32_t)sugwelan_task_number(task), 0), 0);
        EXPECT(pthread_join(thread, NULL), 0);
    }
}

static void *waits_for_condition(void *self)
{
    EXPECT(sugwelan_wait_event(self, PLAIN, SUGWELAN_UNINTERRUPTIBLE), 0);
    return NULL;
}

/* Who is woken and finds the condition clear sleeps again. */
static void woken_for_nothing(void)
{
    pthread_t thread;
    uint64_t value = 0;
    uint32_t number = (uint32_t)sugwelan_task_number(task);
    EXPECT(sugwelan_domain_wake_up_process(domain, number), 0);
    for (long round = 0; round < rounds; round++) {
        EXPECT(pthread_create(&thread, NULL, waits_for_condition, task), 0);
        for (int i = 0; i < 3; i++)
            while (sugwelan_domain_wake_up_process(domain, number) == 0)
                sched_yield();
        EXPECT(sugwelan_domain_set_and_wake(domain, PLAIN, VALUE, 0, NULL), 0);
        EXPECT(pthread_join(thread, NULL), 0);
        EXPECT(sugwelan_take_condition(task, PLAIN, &value), 0);
        EXPECT(value, VALUE);
    }
}

/* Tasks one after the other, each of which takes a lock and gives it back. */
static void *takes_tasks(void *unused)
{
    struct sugwelan_task *own;
    (void)unused;
    for (long i = 0; i < rounds * EACH; i++) {
        EXPECT(sugwelan_domain_task(domain, &own), 0);
        EXPECT(sugwelan_signal_pending(own), 0);
        EXPECT(sugwelan_wait_on_bit_lock(own, WORD, BIT, SUGWELAN_UNINTERRUPTIBLE), 0);
        guarded++;
        EXPECT(sugwelan_clear_and_wake_up_bit(own, WORD, BIT, NULL), 0);
        EXPECT(sugwelan_domain_raise_signal(domain, (uint32_t)sugwelan_task_number(own), 1), 0);
        EXPECT(sugwelan_task_free(own), 0);
    }
    return NULL;
}

static void numbers_used_again(void)
{
    pthread_t threads[THREADS];
    for (int i = 0; i < THREADS; i++)
        EXPECT(pthread_create(&threads[i], NULL, takes_tasks, NULL), 0);
    for (int i = 0; i < THREADS; i++)
        EXPECT(pthread_join(threads[i], NULL), 0);
    EXPECT(guarded, THREADS * EACH * rounds);
}

/* What is set in one Domain is not in another. */
static void two_domains(void)
{
    struct sugwelan_task *stranger, *last;
    uint64_t value = VALUE;
    EXPECT(sugwelan_task_new(&stranger), 0);
    EXPECT(sugwelan_task_domain(stranger) != domain, 1);
    EXPECT(sugwelan_task_domain(task) == domain, 1);
    EXPECT(sugwelan_trylock_page(task, PAGE), 1);
    EXPECT(sugwelan_trylock_page(stranger, PAGE), 1);
    EXPECT(sugwelan_set_and_wake(task, PLAIN, VALUE, 0, NULL), 0);
    EXPECT(sugwelan_take_condition(stranger, PLAIN, &value), 0);
    EXPECT(value, 0);
    EXPECT(sugwelan_take_condition(task, PLAIN, &value), 0);
    EXPECT(value, VALUE);
    EXPECT(sugwelan_unlock_page(task, PAGE, NULL), 0);
    EXPECT(sugwelan_unlock_page(task, PAGE, NULL), -EPERM);
    EXPECT(sugwelan_unlock_page(stranger, PAGE, NULL), 0);
    EXPECT(sugwelan_task_fork(stranger, &last), 0);
    EXPECT(sugwelan_domain_free(sugwelan_task_domain(stranger)), -EALREADY);
    EXPECT(sugwelan_task_free(stranger), 0);
    EXPECT(sugwelan_domain_complete(sugwelan_task_domain(last), CELL), 0);
    EXPECT(sugwelan_wait_for_completion(last, CELL, SUGWELAN_KILLABLE), 0);
    EXPECT(sugwelan_task_free(last), 0);
}

int main(int count, char **words)
{
    alarm(PATIENCE);
    if (count > 1)
        rounds = atol(words[1]);
    EXPECT(sugwelan_domain_new(&domain), 0);
    EXPECT(sugwelan_domain_task(domain, &task), 0);
    calls();
    wakes();
    woken_for_nothing();
    numbers_used_again();
    two_domains();
    EXPECT(sugwelan_domain_free(domain), 0);
    EXPECT(sugwelan_take_condition(task, PLAIN, NULL), 0);
    EXPECT(sugwelan_task_free(task), 0);
    return finish("domains");
}
