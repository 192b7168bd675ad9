/* A pool of workers that wait exclusively: each new job wakes one of them. The queue of jobs is locked by a bit. */
#include "../sugwelan.h"
#include <pthread.h>
#include <stdio.h>

enum { WORK = 0, WORD = 0, LOCK = 0, WORKERS = 4, JOBS = 1000, ROOM = JOBS + WORKERS };

/* The queue. The condition WORK is the number of jobs in it, and changes only while the lock is kept. */
static int queue[ROOM];
static int first, behind;
static long sums[WORKERS];
static struct sugwelan_task *tasks[WORKERS];

static void lock(struct sugwelan_task *task)
{
    sugwelan_wait_on_bit_lock(task, WORD, LOCK, SUGWELAN_UNINTERRUPTIBLE);
}

static void unlock(struct sugwelan_task *task)
{
    sugwelan_clear_and_wake_up_bit(task, WORD, LOCK, NULL);
}

/* Puts a job into the queue, and wakes one worker. */
static void put(struct sugwelan_task *task, int job)
{
    lock(task);
    queue[behind++] = job;
    sugwelan_set_and_wake(task, WORK, (uint64_t)(behind - first), 1, NULL);
    unlock(task);
}

/* Takes the next job, once there is one; where more are left, it wakes the next worker. */
static int get(struct sugwelan_task *task)
{
    int job = 0;
    while (!job) {
        sugwelan_wait_event_exclusive(task, WORK, SUGWELAN_UNINTERRUPTIBLE);
        lock(task);
        if (first < behind)
            job = queue[first++];
        sugwelan_set_and_wake(task, WORK, (uint64_t)(behind - first), 1, NULL);
        unlock(task);
    }
    return job;
}

/* Works until a job below 0 comes. */
static void *work(void *number)
{
    long worker = (long)number;
    for (int job; (job = get(tasks[worker])) > 0;)
        sums[worker] += job;
    sugwelan_task_free(tasks[worker]);
    return NULL;
}

int main(void)
{
    pthread_t threads[WORKERS];
    struct sugwelan_task *giver;
    long sum = 0;
    if (sugwelan_task_new(&giver))
        return 1;
    for (long i = 0; i < WORKERS; i++)
        if (sugwelan_task_fork(giver, &tasks[i]) || pthread_create(&threads[i], NULL, work, (void *)i))
            return 1;
    for (int job = 1; job <= JOBS; job++)
        put(giver, job);
    for (int i = 0; i < WORKERS; i++)
        put(giver, -1);
    for (int i = 0; i < WORKERS; i++) {
        pthread_join(threads[i], NULL);
        sum += sums[i];
    }
    printf("%d workers, %d jobs, sum %ld\n", WORKERS, JOBS, sum);
    return sugwelan_task_free(giver) != 0;
}
