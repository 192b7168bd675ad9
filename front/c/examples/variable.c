/* Threads that meet after each of their turns: a variable has the number of the turn, and the last one who comes
 * publishes the next. */
#include "../sugwelan.h"
#include <pthread.h>
#include <stdatomic.h>
#include <stdio.h>

enum { TURN = SUGWELAN_FIRST_VARIABLE, THREADS = 4, TURNS = 100 };

static atomic_long arrived, sum;
static struct sugwelan_domain *domain;

/* Waits until all threads are at the end of a turn. */
static int meet(struct sugwelan_task *task, long turn)
{
    if (atomic_fetch_add(&arrived, 1) + 1 == THREADS * (turn + 1))
        sugwelan_publish_var_and_wake(task, TURN, (uint64_t)turn + 1, NULL);
    return sugwelan_wait_var_event(task, TURN, (uint64_t)turn, SUGWELAN_KILLABLE, NULL);
}

/* Adds 1 in each turn, and looks whether all others have done so too: how often they had not. */
static void *take_turns(void *unused)
{
    struct sugwelan_task *task;
    long missing = 0;
    (void)unused;
    if (sugwelan_domain_task(domain, &task))
        return (void *)1;
    for (long turn = 0; turn < TURNS; turn++) {
        atomic_fetch_add(&sum, 1);
        meet(task, turn);
        missing += atomic_load(&sum) < THREADS * (turn + 1);
    }
    sugwelan_task_free(task);
    return (void *)missing;
}

int main(void)
{
    pthread_t threads[THREADS];
    void *missing = NULL;
    int status = 0;
    if (sugwelan_domain_new(&domain))
        return 1;
    for (int i = 0; i < THREADS; i++)
        if (pthread_create(&threads[i], NULL, take_turns, NULL))
            return 1;
    for (int i = 0; i < THREADS; i++) {
        pthread_join(threads[i], &missing);
        status |= missing != NULL;
    }
    printf("%d threads, %d turns, sum %ld\n", THREADS, TURNS, atomic_load(&sum));
    return status | sugwelan_domain_free(domain);
}
