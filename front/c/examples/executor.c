/* An executor of two threads, which sleep by a completion until there is work: jobs of some steps, of which a thread
 * makes one and puts the rest back. The main thread has no task: it gives work by the Domain, and ends the threads at
 * last by signals. */
#include "../sugwelan.h"
#include <pthread.h>
#include <sched.h>
#include <stdatomic.h>
#include <stdbool.h>
#include <stdio.h>

enum { READY = 0, LOCK = 1, THREADS = 2, JOBS = 20, STEPS = 5 };

/* A piece of work: how many steps it has yet to make. */
struct job {
    int left;
    struct job *next;
};

static struct sugwelan_domain *domain;
static struct sugwelan_task *tasks[THREADS];
static struct job jobs[JOBS], *first;
static pthread_mutex_t lock = PTHREAD_MUTEX_INITIALIZER;
static atomic_int over;

/* Puts a job into the queue, for any thread. Nobody needs a task for it. */
static void put(struct job *job)
{
    pthread_mutex_lock(&lock);
    job->next = first;
    first = job;
    pthread_mutex_unlock(&lock);
    sugwelan_domain_complete(domain, READY);
}

static struct job *get(void)
{
    pthread_mutex_lock(&lock);
    struct job *job = first;
    first = job->next;
    pthread_mutex_unlock(&lock);
    return job;
}

/* Makes steps of jobs until a signal is raised. A thread that has work all the time does not sleep, and so looks for
 * the signal itself. */
static void *works(void *task)
{
    while (!sugwelan_signal_pending(task) && sugwelan_wait_for_completion(task, READY, SUGWELAN_INTERRUPTIBLE) == 0) {
        struct job *job = get();
        if (--job->left > 0)
            put(job);
        else
            atomic_fetch_add(&over, 1);
    }
    sugwelan_take_signal(task);
    return NULL;
}

int main(void)
{
    pthread_t threads[THREADS];
    if (sugwelan_domain_new(&domain))
        return 1;
    for (int i = 0; i < THREADS; i++)
        if (sugwelan_domain_task(domain, &tasks[i]) || pthread_create(&threads[i], NULL, works, tasks[i]))
            return 1;
    for (int i = 0; i < JOBS; i++) {
        jobs[i].left = STEPS;
        put(&jobs[i]);
    }
    while (atomic_load(&over) < JOBS)
        sched_yield();
    for (int i = 0; i < THREADS; i++) {
        sugwelan_domain_raise_signal(domain, (uint32_t)sugwelan_task_number(tasks[i]), false);
        pthread_join(threads[i], NULL);
        sugwelan_task_free(tasks[i]);
    }
    printf("%d jobs are over\n", atomic_load(&over));
    return sugwelan_domain_free(domain) != 0;
}
