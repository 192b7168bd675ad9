/* A queue with eight slots between two threads: one completion counts the free slots, the other one the items. Who
 * takes a permit of the one gives a permit of the other. The queue itself is locked by a page. */
#include "../sugwelan.h"
#include <pthread.h>
#include <stdio.h>

enum { FREE = 0, ITEMS = 1, LOCK = 0, SLOTS = 8, COUNT = 1000 };

static struct sugwelan_task *giver, *taker;
static long slots[SLOTS];
static int first, behind;

/* Puts an item into the queue, once a slot is free. */
static int put(struct sugwelan_task *task, long item)
{
    int answer = sugwelan_wait_for_completion(task, FREE, SUGWELAN_KILLABLE);
    if (answer)
        return answer;
    sugwelan_lock_page(task, LOCK, SUGWELAN_UNINTERRUPTIBLE);
    slots[behind++ % SLOTS] = item;
    sugwelan_unlock_page(task, LOCK, NULL);
    return sugwelan_complete(task, ITEMS);
}

/* Takes the next item, once there is one. */
static int get(struct sugwelan_task *task, long *item)
{
    int answer = sugwelan_wait_for_completion(task, ITEMS, SUGWELAN_KILLABLE);
    if (answer)
        return answer;
    sugwelan_lock_page(task, LOCK, SUGWELAN_UNINTERRUPTIBLE);
    *item = slots[first++ % SLOTS];
    sugwelan_unlock_page(task, LOCK, NULL);
    return sugwelan_complete(task, FREE);
}

static void *gives(void *unused)
{
    (void)unused;
    for (long item = 1; item <= COUNT; item++)
        put(giver, item);
    return NULL;
}

int main(void)
{
    pthread_t thread;
    long sum = 0, item = 0;
    if (sugwelan_task_new(&giver) || sugwelan_task_fork(giver, &taker))
        return 1;
    for (int i = 0; i < SLOTS; i++)
        sugwelan_complete(taker, FREE);
    if (pthread_create(&thread, NULL, gives, NULL))
        return 1;
    for (int i = 0; i < COUNT; i++)
        if (!get(taker, &item))
            sum += item;
    pthread_join(thread, NULL);
    printf("%d items, sum %ld\n", COUNT, sum);
    return sugwelan_task_free(giver) || sugwelan_task_free(taker);
}
