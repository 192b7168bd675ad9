/* Waits with limits: each kind in each state ends at its limit and not before it, and is off its queue then; where the
 * limit and the wake race, nothing is lost. The number of rounds may be given (1,000). */
#include "../sugwelan.h"
#include "expect.h"
#include <pthread.h>
#include <stdbool.h>
#include <time.h>

enum { PLAIN = 1, ALONE = 2, SIMPLE = 50, VARIABLE = 20, WORD = 3, BIT = 4, OTHER_BIT = 5, PAGE = 7, CELL = 6 };
enum { STATES = 3, ROUNDS = 1000, CROWD = 8, LIMITED = 3, PATIENT = 2, LONGEST = 30000, KEEPS = 16384 };

static const uint64_t NEVER = UINT64_MAX, MILLISECOND = 1000000, SECOND = 1000000000;

enum { LIMITS = 4 };

static const uint64_t limits[LIMITS] = {0, 1000000, 1000000000, UINT64_MAX};

/* What is waited for. Of those from FIRST_TOKEN on one waiter at a time has it. */
enum kind { EVENT, CHANGE, CLEAR, EXCLUSIVE, SELECTED, LOCK, LOCKED_PAGE, PERMIT, KINDS, FIRST_TOKEN = EXCLUSIVE };

static long rounds = ROUNDS;
static struct sugwelan_task *keeper;
static uint64_t changes; /* of the variable */

/* Waits so long at most. */
static int wait_within(enum kind kind, struct sugwelan_task *task, enum sugwelan_state state, uint64_t limit)
{
    switch (kind) {
    case EVENT:
        return sugwelan_wait_event_timeout(task, PLAIN, state, limit);
    case CHANGE:
        return sugwelan_wait_var_event_timeout(task, VARIABLE, changes, state, limit, NULL);
    case CLEAR:
        return sugwelan_wait_on_bit_timeout(task, WORD, OTHER_BIT, state, limit);
    case EXCLUSIVE:
        return sugwelan_wait_event_exclusive_timeout(task, ALONE, state, limit);
    case SELECTED:
        state = state == SUGWELAN_KILLABLE ? SUGWELAN_UNINTERRUPTIBLE : state;
        return sugwelan_swait_event_timeout(task, SIMPLE, state, limit);
    case LOCK:
        return sugwelan_wait_on_bit_lock_timeout(task, WORD, BIT, state, limit);
    case LOCKED_PAGE:
        return sugwelan_lock_page_timeout(task, PAGE, state, limit);
    default:
        return sugwelan_wait_for_completion_timeout(task, CELL, state, limit);
    }
}

/* Puts there what is waited for: how many it woke, but for permits, which don't tell. */
static uint32_t put(enum kind kind, struct sugwelan_task *task)
{
    struct sugwelan_walked walked = {.woken = 0};
    switch (kind) {
    case EVENT:
        EXPECT(sugwelan_set_and_wake(task, PLAIN, 1, 0, &walked), 0);
        break;
    case CHANGE:
        EXPECT(sugwelan_publish_var_and_wake(task, VARIABLE, changes + 1, &walked), 0);
        break;
    case CLEAR:
        EXPECT(sugwelan_clear_and_wake_up_bit(task, WORD, OTHER_BIT, &walked), 0);
        break;
    case EXCLUSIVE:
        EXPECT(sugwelan_set_and_wake(task, ALONE, 1, 1, &walked), 0);
        break;
    case SELECTED:
        EXPECT(sugwelan_set_and_swake_one(task, SIMPLE, 1, &walked.woken), 0);
        break;
    case LOCK:
        EXPECT(sugwelan_clear_and_wake_up_bit(task, WORD, BIT, &walked), 0);
        break;
    case LOCKED_PAGE:
        EXPECT(sugwelan_unlock_page(task, PAGE, &walked), 0);
        break;
    default:
        EXPECT(sugwelan_complete(task, CELL), 0);
    }
    return walked.woken;
}

/* Takes it again, from the task that has waited for it. */
static void take_again(enum kind kind, struct sugwelan_task *task)
{
    switch (kind) {
    case EVENT:
        EXPECT(sugwelan_take_condition(task, PLAIN, NULL), 0);
        break;
    case CHANGE:
        changes++;
        break;
    case CLEAR:
        EXPECT(sugwelan_trylock_bit(keeper, WORD, OTHER_BIT), 1);
        break;
    case EXCLUSIVE:
        EXPECT(sugwelan_take_condition(task, ALONE, NULL), 0);
        break;
    case SELECTED:
        EXPECT(sugwelan_take_condition(task, SIMPLE, NULL), 0);
        break;
    case LOCK:
        put(kind, task);
        EXPECT(sugwelan_trylock_bit(keeper, WORD, BIT), 1);
        break;
    case LOCKED_PAGE:
        put(kind, task);
        EXPECT(sugwelan_trylock_page(keeper, PAGE), 1);
        break;
    default:
        EXPECT(sugwelan_completion_done(task, CELL), 0);
    }
}

static uint64_t now(void)
{
    struct timespec time;
    clock_gettime(CLOCK_MONOTONIC, &time);
    return (uint64_t)time.tv_sec * SECOND + (uint64_t)time.tv_nsec;
}

/* A wait that ends at its limit, and not before it. */
static void ends_at(enum kind kind, struct sugwelan_task *task, enum sugwelan_state state, uint64_t limit)
{
    uint64_t begun = now();
    EXPECT(wait_within(kind, task, state, limit), -ETIMEDOUT);
    EXPECT(now() - begun >= limit, true);
}

/* In each state, at limits of 0 and 1 ms: the task is off the queue then, and the next wait is as ever. What is there is
 * got whatever the limit is. */
static void short_limits(enum kind kind, struct sugwelan_task *task)
{
    for (int state = 0; state < STATES; state++) {
        ends_at(kind, task, (enum sugwelan_state)state, 0);
        ends_at(kind, task, (enum sugwelan_state)state, MILLISECOND);
        for (int i = 0; i < LIMITS; i++) {
            EXPECT(put(kind, keeper), 0);
            EXPECT(wait_within(kind, task, (enum sugwelan_state)state, limits[i]), 0);
            take_again(kind, task);
        }
    }
}

/* A thread's part in a test. */
struct part {
    pthread_t thread;
    enum kind kind;
    struct sugwelan_task *task;
    uint64_t random;
    long gained;
};

static void start(struct part *part, enum kind kind, void *(*work)(void *), uint64_t random)
{
    *part = (struct part){.kind = kind, .random = random};
    EXPECT(sugwelan_task_fork(keeper, &part->task), 0);
    EXPECT(pthread_create(&part->thread, NULL, work, part), 0);
}

static void join(struct part *part)
{
    EXPECT(pthread_join(part->thread, NULL), 0);
}

static long end(struct part *part)
{
    EXPECT(sugwelan_task_free(part->task), 0);
    return part->gained;
}

static long join_and_end(struct part *part)
{
    join(part);
    return end(part);
}

static void *waits_a_second(void *self)
{
    struct part *me = self;
    ends_at(me->kind, me->task, (enum sugwelan_state)me->random, SECOND);
    return NULL;
}

static void *is_woken(void *self)
{
    struct part *me = self;
    uint64_t begun = now();
    EXPECT(wait_within(me->kind, me->task, SUGWELAN_UNINTERRUPTIBLE, 600 * SECOND), 0);
    EXPECT(now() - begun < 600 * SECOND, true);
    return NULL;
}

/* All kinds in each state at once, at a limit of 1 s; and at one that does not come, since they are woken. */
static void long_limits(void)
{
    struct part parts[KINDS * STATES];
    struct timespec nap = {.tv_nsec = 50000000};
    for (int i = 0; i < KINDS * STATES; i++)
        start(&parts[i], (enum kind)(i / STATES), waits_a_second, (uint64_t)(i % STATES));
    for (int i = 0; i < KINDS * STATES; i++)
        join_and_end(&parts[i]);
    for (int kind = 0; kind < KINDS; kind++) {
        start(&parts[kind], (enum kind)kind, is_woken, 0);
        nanosleep(&nap, NULL);
        put((enum kind)kind, keeper);
        join(&parts[kind]);
        take_again((enum kind)kind, parts[kind].task);
        end(&parts[kind]);
    }
}

static atomic_int inside;

/* Waits for the token so long at most: whether it has got it. */
static bool get(struct part *me, uint64_t limit)
{
    uint64_t value = me->kind > SELECTED;
    enum sugwelan_state state = (enum sugwelan_state)(me->random % STATES);
    do {
        int answer = wait_within(me->kind, me->task, state, limit);
        if (answer == -ETIMEDOUT)
            return false;
        EXPECT(answer, 0);
        if (me->kind <= SELECTED)
            EXPECT(sugwelan_take_condition(me->task, me->kind == EXCLUSIVE ? ALONE : SIMPLE, &value), 0);
    } while (!value);
    EXPECT(atomic_fetch_add(&inside, 1), 0);
    me->gained++;
    return true;
}

/* Keeps it for a while, so that limits come meanwhile, and gives it back. */
static void put_back(struct part *me)
{
    me->random = me->random * 6364136223846793005u + 1442695040888963407u;
    for (volatile uint64_t i = (me->random >> 33) % KEEPS; i > 0; i--)
        ;
    if (me->kind == LOCKED_PAGE)
        EXPECT(sugwelan_add_tally(me->task, PAGE, 1, NULL), 0);
    atomic_fetch_sub(&inside, 1);
    put(me->kind, me->task);
}

/* Gets the token where it can before its limit, and gives it back. */
static void *hurries(void *self)
{
    struct part *me = self;
    for (long round = 0; round < rounds; round++) {
        me->random = me->random * 6364136223846793005u + 1442695040888963407u;
        if (get(me, (me->random >> 33) % LONGEST))
            put_back(me);
    }
    return NULL;
}

/* Gets it, however long that lasts. */
static void *waits_on(void *self)
{
    struct part *me = self;
    for (long round = 0; round < rounds; round++)
        if (get(me, NEVER))
            put_back(me);
    EXPECT(me->gained, rounds);
    return NULL;
}

/* One token, waiters that give up sooner or later, and others who wait on. */
static void races(enum kind kind)
{
    struct part hurried[LIMITED], patient[PATIENT], last = {.kind = kind, .task = keeper};
    uint64_t tally = 0, before = 0;
    long gained = 0;
    if (kind == LOCKED_PAGE)
        EXPECT(sugwelan_add_tally(keeper, PAGE, 0, &before), 0);
    for (int i = 0; i < LIMITED; i++)
        start(&hurried[i], kind, hurries, (uint64_t)i + 1);
    for (int i = 0; i < PATIENT; i++)
        start(&patient[i], kind, waits_on, (uint64_t)i);
    put(kind, keeper);
    for (int i = 0; i < LIMITED; i++)
        gained += join_and_end(&hurried[i]);
    for (int i = 0; i < PATIENT; i++)
        gained += join_and_end(&patient[i]);
    EXPECT(get(&last, NEVER), true);
    atomic_store(&inside, 0);
    if (kind == LOCKED_PAGE) {
        EXPECT(sugwelan_add_tally(keeper, PAGE, 0, &tally), 0);
        EXPECT(tally - before, gained);
    }
    if (kind == PERMIT)
        EXPECT(sugwelan_completion_done(keeper, CELL), 0);
}

/* Gives up again and again what nobody puts there. */
static void *gives_up(void *self)
{
    struct part *me = self;
    for (long round = 0; round < rounds; round++) {
        me->random = me->random * 6364136223846793005u + 1442695040888963407u;
        enum sugwelan_state state = (enum sugwelan_state)(me->random % STATES);
        EXPECT(wait_within(me->kind, me->task, state, (me->random >> 33) % LONGEST), -ETIMEDOUT);
    }
    return NULL;
}

/* So many that they wait for the lock of the queue, too, and go on with each other's waits: each ends at its limit,
 * though nobody wakes them. */
static void crowd(enum kind kind)
{
    struct part parts[CROWD];
    for (int i = 0; i < CROWD; i++)
        start(&parts[i], kind, gives_up, (uint64_t)i + 1);
    for (int i = 0; i < CROWD; i++)
        join_and_end(&parts[i]);
    EXPECT(put(kind, keeper), 0);
    EXPECT(wait_within(kind, keeper, SUGWELAN_UNINTERRUPTIBLE, 0), 0);
    if (kind == LOCK || kind == LOCKED_PAGE)
        return;
    take_again(kind, keeper);
}

/* A signal that is pending ends the wait whatever its limit is, and not as the limit does. */
static void is_signalled(enum kind kind, struct sugwelan_task *task, enum sugwelan_state state)
{
    for (int i = 0; i < LIMITS; i++)
        EXPECT(wait_within(kind, task, state, limits[i]), -EINTR);
}

/* What is refused is so with a limit too, and a signal ends a wait with a limit; one that its state does not admit stays
 * pending where the limit comes. */
static void other_ends(struct sugwelan_task *task)
{
    uint32_t number = (uint32_t)sugwelan_task_number(task);
    EXPECT(sugwelan_wait_event_timeout(NULL, PLAIN, SUGWELAN_KILLABLE, 0), -EBADF);
    EXPECT(sugwelan_wait_event_timeout(task, SIMPLE, SUGWELAN_KILLABLE, 0), -EINVAL);
    EXPECT(sugwelan_swait_event_timeout(task, SIMPLE, SUGWELAN_KILLABLE, 0), -EOPNOTSUPP);
    EXPECT(sugwelan_lock_page_timeout(keeper, PAGE, SUGWELAN_KILLABLE, 0), -EDEADLK);
    EXPECT(sugwelan_wait_on_bit_lock_timeout(keeper, WORD, BIT, SUGWELAN_KILLABLE, NEVER), -EDEADLK);
    for (int kind = 0; kind < KINDS; kind++) {
        EXPECT(sugwelan_raise_signal(keeper, number, false), 0);
        is_signalled((enum kind)kind, task, SUGWELAN_INTERRUPTIBLE);
        ends_at((enum kind)kind, task, SUGWELAN_UNINTERRUPTIBLE, MILLISECOND);
        ends_at((enum kind)kind, task, SUGWELAN_KILLABLE, 0);
        EXPECT(sugwelan_take_signal(task), 1);
        EXPECT(sugwelan_raise_signal(keeper, number, true), 0);
        is_signalled((enum kind)kind, task, kind == SELECTED ? SUGWELAN_INTERRUPTIBLE : SUGWELAN_KILLABLE);
        ends_at((enum kind)kind, task, SUGWELAN_UNINTERRUPTIBLE, 0);
        EXPECT(sugwelan_take_signal(task), 2);
    }
}

int main(int count, char **words)
{
    struct sugwelan_task *task;
    alarm(PATIENCE);
    if (count > 1)
        rounds = atol(words[1]);
    EXPECT(sugwelan_task_new(&keeper), 0);
    EXPECT(sugwelan_task_fork(keeper, &task), 0);
    EXPECT(sugwelan_trylock_bit(keeper, WORD, BIT), 1);
    EXPECT(sugwelan_trylock_bit(keeper, WORD, OTHER_BIT), 1);
    EXPECT(sugwelan_trylock_page(keeper, PAGE), 1);
    for (int kind = 0; kind < KINDS; kind++)
        short_limits((enum kind)kind, task);
    other_ends(task);
    long_limits();
    for (int kind = 0; kind < KINDS; kind++)
        crowd((enum kind)kind);
    for (int kind = FIRST_TOKEN; kind < KINDS; kind++)
        races((enum kind)kind);
    put(LOCK, keeper);
    put(CLEAR, keeper);
    put(LOCKED_PAGE, keeper);
    EXPECT(sugwelan_task_free(task), 0);
    EXPECT(sugwelan_task_free(keeper), 0);
    return finish("limits");
}
