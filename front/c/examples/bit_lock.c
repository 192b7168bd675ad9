/* Threads count under a lock that is one bit. */
#include "../sugwelan.h"
#include <pthread.h>
#include <stdio.h>

enum { WORD = 2, LOCK = 17, THREADS = 4, TIMES = 10000 };

static long count;

/* Adds 1 under the lock. A wait that a signal ended has not got the lock. */
static int add(struct sugwelan_task *task)
{
    int answer = sugwelan_wait_on_bit_lock(task, WORD, LOCK, SUGWELAN_INTERRUPTIBLE);
    if (answer)
        return answer;
    count++;
    return sugwelan_clear_and_wake_up_bit(task, WORD, LOCK, NULL);
}

static void *add_often(void *task)
{
    for (int i = 0; i < TIMES; i++)
        add(task);
    return NULL;
}

int main(void)
{
    struct sugwelan_task *first, *tasks[THREADS];
    pthread_t threads[THREADS];
    if (sugwelan_task_new(&first))
        return 1;
    for (int i = 0; i < THREADS; i++)
        if (sugwelan_task_fork(first, &tasks[i]) || pthread_create(&threads[i], NULL, add_often, tasks[i]))
            return 1;
    for (int i = 0; i < THREADS; i++) {
        pthread_join(threads[i], NULL);
        sugwelan_task_free(tasks[i]);
    }
    printf("%d threads counted to %ld\n", THREADS, count);
    return sugwelan_task_free(first) != 0;
}
