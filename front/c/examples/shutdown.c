/* A pool of workers that is shut down: each waits for a job for so long at most, and looks then whether the pool is
 * closed. Nobody wakes them for that, and no job is lost. */
#include "../sugwelan.h"
#include <errno.h>
#include <pthread.h>
#include <stdatomic.h>
#include <stdbool.h>
#include <stdio.h>

enum { JOBS_LEFT = 0, WORKERS = 4, JOBS = 1000, TICK = 2000000 };

static struct sugwelan_task *tasks[WORKERS];
static atomic_bool closed;
static atomic_long next_job = 1;
static long sums[WORKERS];

/* The next job, once there is one: 0 where the pool is closed and none is left. */
static long get(struct sugwelan_task *task)
{
    for (;;) {
        int answer = sugwelan_wait_for_completion_timeout(task, JOBS_LEFT, SUGWELAN_UNINTERRUPTIBLE, TICK);
        if (answer == 0)
            return atomic_fetch_add(&next_job, 1);
        if (answer != -ETIMEDOUT || atomic_load(&closed))
            return 0;
    }
}

static void *work(void *number)
{
    long worker = (long)number;
    for (long job; (job = get(tasks[worker])) > 0;)
        sums[worker] += job;
    sugwelan_task_free(tasks[worker]);
    return NULL;
}

int main(void)
{
    pthread_t threads[WORKERS];
    struct sugwelan_task *giver;
    long sum = 0;
    if (sugwelan_task_new(&giver))
        return 1;
    for (long i = 0; i < WORKERS; i++)
        if (sugwelan_task_fork(giver, &tasks[i]) || pthread_create(&threads[i], NULL, work, (void *)i))
            return 1;
    for (int job = 1; job <= JOBS; job++)
        sugwelan_complete(giver, JOBS_LEFT);
    atomic_store(&closed, true);
    for (int i = 0; i < WORKERS; i++) {
        pthread_join(threads[i], NULL);
        sum += sums[i];
    }
    printf("%d workers have stopped, %d jobs, sum %ld\n", WORKERS, JOBS, sum);
    return sugwelan_task_free(giver) != 0;
}
