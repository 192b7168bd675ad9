/* What a checker of races is told: what one thing orders, and no more. With a word: two threads make calls about two
 * things, and race for a number; a checker is to see it. Without: each kind of calls orders what it should. */
#include "../sugwelan.h"
#include "expect.h"
#include <pthread.h>
#include <time.h>

enum { PLAIN = 1, SIMPLE = 50, VARIABLE = 20, WORD = 3, BIT = 4, PAGE = 5, CELL = 6, OTHER_CELL = 7, KINDS = 7 };
enum { NAP = 100000000 };

static struct sugwelan_task *one, *other;
static long shared;
static int kind;

/* Lets others see what this thread has written: by a call of the kind. */
static int publish(void)
{
    switch (kind) {
    case 0:
        return sugwelan_set_and_wake(one, PLAIN, 1, 0, NULL);
    case 1:
        return sugwelan_set_and_swake_one(one, SIMPLE, 1, NULL);
    case 2:
        return sugwelan_publish_var_and_wake(one, VARIABLE, 1, NULL);
    case 3:
        return sugwelan_clear_and_wake_up_bit(one, WORD, BIT, NULL);
    case 4:
        return sugwelan_unlock_page(one, PAGE, NULL);
    case 5:
        return sugwelan_complete(one, CELL);
    default:
        return sugwelan_raise_signal(one, (uint32_t)sugwelan_task_number(other), 0);
    }
}

/* Waits for that. */
static int see(void)
{
    switch (kind) {
    case 0:
        return sugwelan_wait_event(other, PLAIN, SUGWELAN_KILLABLE);
    case 1:
        return sugwelan_swait_event(other, SIMPLE, SUGWELAN_UNINTERRUPTIBLE);
    case 2:
        return sugwelan_wait_var_event(other, VARIABLE, 0, SUGWELAN_KILLABLE, NULL);
    case 3:
        return sugwelan_wait_on_bit(other, WORD, BIT, SUGWELAN_KILLABLE);
    case 4:
        return sugwelan_lock_page(other, PAGE, SUGWELAN_KILLABLE);
    case 5:
        return sugwelan_wait_for_completion(other, CELL, SUGWELAN_KILLABLE);
    default:
        return sugwelan_wait_event(other, PLAIN + 1, SUGWELAN_INTERRUPTIBLE) == -EINTR ? 0 : -1;
    }
}

static void *sees(void *unused)
{
    (void)unused;
    EXPECT(see(), 0);
    EXPECT(shared, kind + 1);
    return NULL;
}

static void ordered(void)
{
    pthread_t thread;
    EXPECT(sugwelan_trylock_bit(one, WORD, BIT), 1);
    EXPECT(sugwelan_trylock_page(one, PAGE), 1);
    for (kind = 0; kind < KINDS; kind++) {
        EXPECT(pthread_create(&thread, NULL, sees, NULL), 0);
        shared = kind + 1;
        EXPECT(publish(), 0);
        EXPECT(pthread_join(thread, NULL), 0);
    }
    EXPECT(sugwelan_unlock_page(other, PAGE, NULL), 0);
}

/* A call about one thing, and a wait for the same: what EXPECT counts would order the threads. */
static int own_calls(struct sugwelan_task *task, uint32_t cell)
{
    int answer = sugwelan_complete(task, cell);
    return answer ? answer : sugwelan_wait_for_completion(task, cell, SUGWELAN_UNINTERRUPTIBLE);
}

static void *races(void *answer)
{
    struct timespec nap = {.tv_nsec = NAP};
    nanosleep(&nap, NULL);
    *(int *)answer = own_calls(other, OTHER_CELL);
    shared++;
    return NULL;
}

static void unordered(void)
{
    pthread_t thread;
    int answer = -1, answers;
    EXPECT(pthread_create(&thread, NULL, races, &answer), 0);
    shared++;
    answers = own_calls(one, CELL);
    EXPECT(pthread_join(thread, NULL), 0);
    EXPECT(answers, 0);
    EXPECT(answer, 0);
}

int main(int count, char **words)
{
    (void)words;
    alarm(PATIENCE);
    EXPECT(sugwelan_task_new(&one), 0);
    EXPECT(sugwelan_task_fork(one, &other), 0);
    if (count > 2)
        unordered();
    else
        ordered();
    EXPECT(sugwelan_task_free(one), 0);
    EXPECT(sugwelan_task_free(other), 0);
    return finish("races");
}
