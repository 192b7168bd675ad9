/* Calls of all kinds by many threads, in an order that nobody plans: no lock has two holders, no tally is lost, nobody
 * hangs, and each task has given all back at the end. The number of calls of a thread may be given (1,000). */
#include "../sugwelan.h"
#include "expect.h"
#include <pthread.h>
#include <stdbool.h>
#include <time.h>

enum { WORKERS = 12, CALLS = 1000, KINDS = 12, PLACES = 4, FIRST_PAGE = 8, FIRST_VARIABLE = 20, NAP = 100000 };
enum { LONGEST = 50000 };

/* A thread with its task and its own row of random numbers. */
struct worker {
    struct sugwelan_task *task;
    uint64_t random;
    uint64_t seen[PLACES]; /* the values that it saw of the variables */
};

static long calls = CALLS;
static struct worker workers[WORKERS];
static struct sugwelan_task *ticker;
static atomic_int inside_bit[PLACES][PLACES];
static atomic_int inside_page[PLACES];
static atomic_long tallied[PLACES];
static atomic_int working;

/* The next number below a bound. */
static uint32_t any(struct worker *me, uint32_t below)
{
    me->random ^= me->random << 13;
    me->random ^= me->random >> 7;
    me->random ^= me->random << 17;
    return (uint32_t)(me->random % below);
}

/* Gives a bit back, of which nobody else is a holder. */
static void give_bit(struct worker *me, uint32_t word, uint32_t bit)
{
    EXPECT(atomic_fetch_add(&inside_bit[word][bit], 1), 0);
    atomic_fetch_sub(&inside_bit[word][bit], 1);
    EXPECT(sugwelan_clear_and_wake_up_bit(me->task, word, bit, NULL), 0);
}

/* Counts a page, of which nobody else is a holder, and gives it back. */
static void give_page(struct worker *me, uint32_t place)
{
    EXPECT(atomic_fetch_add(&inside_page[place], 1), 0);
    EXPECT(sugwelan_add_tally(me->task, FIRST_PAGE + place, 1, NULL), 0);
    atomic_fetch_add(&tallied[place], 1);
    atomic_fetch_sub(&inside_page[place], 1);
    EXPECT(sugwelan_unlock_page(me->task, FIRST_PAGE + place, NULL), 0);
}

static void watch(struct worker *me, uint32_t place)
{
    uint64_t before = me->seen[place];
    EXPECT(sugwelan_wait_var_event(me->task, FIRST_VARIABLE + place, before, SUGWELAN_KILLABLE, &me->seen[place]), 0);
    EXPECT(me->seen[place] > before, true);
}

static void wait_and_take(struct worker *me, uint32_t place)
{
    EXPECT(any(me, 2) ? sugwelan_wait_event(me->task, place, SUGWELAN_UNINTERRUPTIBLE)
                      : sugwelan_wait_event_exclusive(me->task, place, SUGWELAN_KILLABLE), 0);
    EXPECT(sugwelan_take_condition(me->task, place, NULL), 0);
}

/* Whether a wait that a signal may end came to an end. The signals are taken where one did. */
static void may_be_signalled(struct worker *me, int answer)
{
    if (answer == -EINTR)
        EXPECT(sugwelan_take_signal(me->task), 1);
    else
        EXPECT(answer, 0);
}

/* Raises a signal of any worker. */
static void signal_one(struct worker *me)
{
    struct sugwelan_task *other = workers[any(me, WORKERS)].task;
    EXPECT(sugwelan_raise_signal(me->task, (uint32_t)sugwelan_task_number(other), false), 0);
}

static void complete_and_wait(struct worker *me, uint32_t place)
{
    EXPECT(sugwelan_complete(me->task, place), 0);
    EXPECT(sugwelan_wait_for_completion(me->task, place, SUGWELAN_KILLABLE), 0);
}

static void wait_simply(struct worker *me, uint32_t condition)
{
    may_be_signalled(me, sugwelan_swait_event(me->task, condition, SUGWELAN_INTERRUPTIBLE));
    EXPECT(sugwelan_take_condition(me->task, condition, NULL), 0);
}

/* Whether a wait with a limit got what it waited for. */
static bool got(struct worker *me, int answer)
{
    if (answer != -ETIMEDOUT)
        may_be_signalled(me, answer);
    return !answer;
}

/* Waits for so long at most, and gives back what it has got. */
static void wait_briefly(struct worker *me, uint32_t word, uint32_t bit)
{
    uint64_t limit = any(me, LONGEST);
    switch (any(me, 4)) {
    case 0:
        if (got(me, sugwelan_wait_on_bit_lock_timeout(me->task, word, bit, SUGWELAN_INTERRUPTIBLE, limit)))
            give_bit(me, word, bit);
        break;
    case 1:
        if (got(me, sugwelan_lock_page_timeout(me->task, FIRST_PAGE + word, SUGWELAN_INTERRUPTIBLE, limit)))
            give_page(me, word);
        break;
    case 2:
        if (got(me, sugwelan_wait_for_completion_timeout(me->task, word, SUGWELAN_INTERRUPTIBLE, limit)))
            EXPECT(sugwelan_complete(me->task, word), 0);
        break;
    default:
        if (got(me, sugwelan_wait_event_exclusive_timeout(me->task, word, SUGWELAN_INTERRUPTIBLE, limit)))
            EXPECT(sugwelan_wake_up(me->task, word, SUGWELAN_WAKE_NORMAL, 1, NULL), 0);
    }
}

/* One call, or two, of any kind. */
static void call(struct worker *me)
{
    uint32_t kind = any(me, KINDS), word = any(me, PLACES), bit = any(me, PLACES);
    switch (kind) {
    case 0:
        EXPECT(sugwelan_wait_on_bit_lock(me->task, word, bit, SUGWELAN_UNINTERRUPTIBLE), 0);
        give_bit(me, word, bit);
        break;
    case 1:
        if (sugwelan_trylock_bit(me->task, word, bit) == 1)
            give_bit(me, word, bit);
        break;
    case 2:
        EXPECT(sugwelan_lock_page(me->task, FIRST_PAGE + word, SUGWELAN_UNINTERRUPTIBLE), 0);
        give_page(me, word);
        break;
    case 3:
        if (sugwelan_trylock_page(me->task, FIRST_PAGE + word) == 1)
            give_page(me, word);
        break;
    case 4:
        may_be_signalled(me, sugwelan_wait_on_bit(me->task, word, bit, SUGWELAN_INTERRUPTIBLE));
        break;
    case 5:
        EXPECT(sugwelan_set_and_wake(me->task, word, 1, bit, NULL), 0);
        break;
    case 6:
        watch(me, word);
        break;
    case 7:
        signal_one(me);
        break;
    case 8:
        complete_and_wait(me, word);
        break;
    case 9:
        wait_simply(me, SUGWELAN_FIRST_SIMPLE + word);
        break;
    case 10:
        wait_briefly(me, word, bit);
        break;
    default:
        wait_and_take(me, word);
    }
}

static void *work(void *worker)
{
    for (long i = 0; i < calls; i++)
        call(worker);
    atomic_fetch_sub(&working, 1);
    return NULL;
}

/* Sets and changes all that somebody may wait for, until nobody works any more. */
static void tick(void)
{
    struct timespec nap = {.tv_nsec = NAP};
    for (uint64_t value = 1; atomic_load(&working) > 0; value++) {
        for (uint32_t place = 0; place < PLACES; place++) {
            EXPECT(sugwelan_set_and_wake(ticker, place, value, 0, NULL), 0);
            EXPECT(sugwelan_publish_var_and_wake(ticker, FIRST_VARIABLE + place, value, NULL), 0);
            EXPECT(sugwelan_set_and_swake_all(ticker, SUGWELAN_FIRST_SIMPLE + place, value, NULL), 0);
        }
        nanosleep(&nap, NULL);
    }
}

static void check_tally(uint32_t place)
{
    uint64_t tally = 0;
    EXPECT(sugwelan_trylock_page(ticker, FIRST_PAGE + place), 1);
    EXPECT(sugwelan_add_tally(ticker, FIRST_PAGE + place, 0, &tally), 0);
    EXPECT(tally, atomic_load(&tallied[place]));
    EXPECT(sugwelan_unlock_page(ticker, FIRST_PAGE + place, NULL), 0);
}

int main(int count, char **words)
{
    pthread_t threads[WORKERS];
    alarm(PATIENCE);
    if (count > 1)
        calls = atol(words[1]);
    EXPECT(sugwelan_task_new(&ticker), 0);
    atomic_store(&working, WORKERS);
    for (int i = 0; i < WORKERS; i++) {
        workers[i].random = (uint64_t)i + 1;
        EXPECT(sugwelan_task_fork(ticker, &workers[i].task), 0);
    }
    for (int i = 0; i < WORKERS; i++)
        EXPECT(pthread_create(&threads[i], NULL, work, &workers[i]), 0);
    tick();
    for (int i = 0; i < WORKERS; i++)
        EXPECT(pthread_join(threads[i], NULL), 0);
    for (int i = 0; i < WORKERS; i++)
        EXPECT(sugwelan_task_free(workers[i].task), 0);
    for (uint32_t place = 0; place < PLACES; place++)
        check_tally(place);
    EXPECT(sugwelan_task_free(ticker), 0);
    return finish("storm");
}
