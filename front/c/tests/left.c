/* Waits that are left by a call of the archive itself: each kind in each state, where it sleeps, where a wake has
 * selected it, and where it was woken for nothing. The entry is off the queue then, and what it got is not lost. */
#include "../sugwelan_calls.h"
#include "expect.h"

enum { PLAIN = 3, SIMPLE = 50, VARIABLE = 20, WORD = 2, BIT = 5, OTHER_BIT = 6, PAGE = 9, CELL = 6, STATES = 3 };

/* A wait, and what ends it: both without the numbers that a state or a value is. */
struct wait {
    struct sugwelan_call begins; /* its state is put where `state_at` says */
    int state_at;
    struct sugwelan_call put;
    struct sugwelan_call take_again; /* by who has waited; none where it is null */
};

static const struct wait waits[] = {
    {{SUGWELAN_WAIT_EVENT, PLAIN, 0, 0, 0}, 1, {SUGWELAN_SET_AND_WAKE, PLAIN, 0, 0, 1},
     {SUGWELAN_TAKE_CONDITION, PLAIN, 0, 0, 0}},
    {{SUGWELAN_WAIT_EVENT, PLAIN, 0, 1, 0}, 1, {SUGWELAN_SET_AND_WAKE, PLAIN, 0, 1, 1},
     {SUGWELAN_TAKE_CONDITION, PLAIN, 0, 0, 0}},
    {{SUGWELAN_SWAIT_EVENT, SIMPLE, 0, 0, 0}, 1, {SUGWELAN_SET_AND_SWAKE, SIMPLE, 0, 0, 1},
     {SUGWELAN_TAKE_CONDITION, SIMPLE, 0, 0, 0}},
    {{SUGWELAN_WAIT_VAR_EVENT, VARIABLE, 0, 0, 0}, 1, {SUGWELAN_PUBLISH_VAR_AND_WAKE, VARIABLE, 0, 0, 1},
     {SUGWELAN_PUBLISH_VAR_AND_WAKE, VARIABLE, 0, 0, 0}},
    {{SUGWELAN_WAIT_ON_BIT, WORD, OTHER_BIT, 0, 0}, 2, {SUGWELAN_CLEAR_AND_WAKE_UP_BIT, WORD, OTHER_BIT, 0, 0},
     {SUGWELAN_ADVANCE, 0, 0, 0, 0}},
    {{SUGWELAN_WAIT_ON_BIT_LOCK, WORD, BIT, 0, 0}, 2, {SUGWELAN_CLEAR_AND_WAKE_UP_BIT, WORD, BIT, 0, 0},
     {SUGWELAN_CLEAR_AND_WAKE_UP_BIT, WORD, BIT, 0, 0}},
    {{SUGWELAN_LOCK_PAGE, PAGE, 0, 0, 0}, 1, {SUGWELAN_UNLOCK_PAGE, PAGE, 0, 0, 0},
     {SUGWELAN_UNLOCK_PAGE, PAGE, 0, 0, 0}},
    {{SUGWELAN_WAIT_FOR_COMPLETION, CELL, 0, 0, 0}, 1, {SUGWELAN_COMPLETE, CELL, 0, 0, 0},
     {SUGWELAN_ADVANCE, 0, 0, 0, 0}},
};

static void *keeper, *waiter;
static struct sugwelan_told told;

static int32_t raw(void *handle, struct sugwelan_call call)
{
    return sugwelan_call(handle, &call, &told);
}

/* Makes a call until it is over or its task is asleep. It goes on by calls of the kind. */
static int32_t go(void *handle, struct sugwelan_call call, uint32_t kind)
{
    int32_t answer = raw(handle, call);
    while (answer == SUGWELAN_AGAIN || answer == SUGWELAN_LOCKED)
        answer = raw(handle, (struct sugwelan_call){.kind = kind});
    return answer;
}

static int32_t advance(void)
{
    return go(waiter, (struct sugwelan_call){.kind = SUGWELAN_ADVANCE}, SUGWELAN_ADVANCE);
}

static int32_t leave(void)
{
    return go(waiter, (struct sugwelan_call){.kind = SUGWELAN_LEAVE}, SUGWELAN_LEAVE);
}

/* Begins the wait, and goes on until the task is asleep. */
static void sleeps(const struct wait *wait, uint32_t state)
{
    struct sugwelan_call call = wait->begins;
    *(wait->state_at == 1 ? &call.b : &call.c) = state;
    EXPECT(go(waiter, call, SUGWELAN_ADVANCE), SUGWELAN_PARK);
}

/* Wakes the waiter's task by its number, which sleeps or does not. */
static void kick(int asleep)
{
    EXPECT(go(keeper, (struct sugwelan_call){SUGWELAN_WAKE_UP_PROCESS, 1, 0, 0, 0}, SUGWELAN_ADVANCE), SUGWELAN_DONE);
    EXPECT(told.value, asleep);
    EXPECT(told.rouse_count, asleep);
    if (asleep)
        EXPECT(told.rouse[0], 1);
}

/* Puts there what is waited for, by which so many tasks are to be roused. */
static void put(const struct wait *wait, uint32_t roused)
{
    EXPECT(go(keeper, wait->put, SUGWELAN_ADVANCE), SUGWELAN_DONE);
    EXPECT(told.rouse_count, roused);
    if (wait->put.kind != SUGWELAN_COMPLETE)
        EXPECT(wait->put.kind == SUGWELAN_SET_AND_SWAKE ? told.selected : told.woken, roused);
}

/* The keeper has its bits and the page, no condition is set, and there is no permit. */
static void arrange(void)
{
    EXPECT(raw(keeper, (struct sugwelan_call){SUGWELAN_TRYLOCK_BIT, WORD, BIT, 0, 0}), SUGWELAN_DONE);
    EXPECT(raw(keeper, (struct sugwelan_call){SUGWELAN_TRYLOCK_BIT, WORD, OTHER_BIT, 0, 0}), SUGWELAN_DONE);
    EXPECT(raw(keeper, (struct sugwelan_call){SUGWELAN_TRYLOCK_PAGE, PAGE, 0, 0, 0}), SUGWELAN_DONE);
}

/* What the waiter has got goes back to where it was: where it does not keep it, this is refused. */
static void take_again(const struct wait *wait)
{
    if (wait->take_again.kind)
        EXPECT(go(waiter, wait->take_again, SUGWELAN_ADVANCE), SUGWELAN_DONE);
    EXPECT(raw(keeper, (struct sugwelan_call){SUGWELAN_COMPLETION_DONE, CELL, 0, 0, 0}), SUGWELAN_DONE);
    EXPECT(told.value, 0);
    arrange();
}

/* No call is under way any more. */
static void is_over(void)
{
    EXPECT(leave(), -ENOENT);
    EXPECT(advance(), -ENOENT);
}

/* The wait at once, where what it waits for is there. */
static void gets(const struct wait *wait)
{
    EXPECT(go(waiter, wait->begins, SUGWELAN_ADVANCE), SUGWELAN_DONE);
    take_again(wait);
}

/* It sleeps, is woken by its number, and leaves: nothing of it is left, and the next waits are as ever. */
static void leaves_asleep(const struct wait *wait, uint32_t state)
{
    sleeps(wait, state);
    EXPECT(leave(), SUGWELAN_PARK);
    EXPECT(leave(), SUGWELAN_PARK);
    kick(1);
    EXPECT(leave(), -ECANCELED);
    is_over();
    kick(0);
    put(wait, 0);
    gets(wait);
}

/* It is woken for nothing, sleeps again, and leaves then. */
static void sleeps_again(const struct wait *wait, uint32_t state)
{
    sleeps(wait, state);
    kick(1);
    EXPECT(advance(), SUGWELAN_PARK);
    kick(1);
    EXPECT(leave(), -ECANCELED);
    is_over();
    put(wait, 0);
    gets(wait);
}

/* A wake has selected it: it has got what it waited for. */
static void leaves_selected(const struct wait *wait, uint32_t state)
{
    sleeps(wait, state);
    put(wait, 1);
    EXPECT(leave(), SUGWELAN_DONE);
    is_over();
    take_again(wait);
}

/* It was woken by its number, and what it waits for was put there before it left. */
static void is_met(const struct wait *wait, uint32_t state)
{
    sleeps(wait, state);
    kick(1);
    EXPECT(go(keeper, wait->put, SUGWELAN_ADVANCE), SUGWELAN_DONE);
    EXPECT(leave(), SUGWELAN_DONE);
    is_over();
    take_again(wait);
}

/* A signal ended it before it left. */
static void is_signalled(const struct wait *wait)
{
    sleeps(wait, SUGWELAN_INTERRUPTIBLE);
    EXPECT(raw(keeper, (struct sugwelan_call){SUGWELAN_RAISE_SIGNAL, 1, 0, 0, 0}), SUGWELAN_DONE);
    EXPECT(told.rouse_count, 1);
    int32_t answer = leave();
    EXPECT(answer == -EINTR || answer == -ECANCELED, 1);
    is_over();
    EXPECT(raw(waiter, (struct sugwelan_call){.kind = SUGWELAN_TAKE_SIGNAL}), SUGWELAN_DONE);
    EXPECT(told.value, 1);
    put(wait, 0);
    gets(wait);
}

int main(void)
{
    alarm(PATIENCE);
    EXPECT(sugwelan_new(&keeper), 0);
    EXPECT(sugwelan_fork(keeper, 0, &waiter), 0);
    EXPECT(raw(waiter, (struct sugwelan_call){.kind = SUGWELAN_NUMBER}), SUGWELAN_DONE);
    EXPECT(told.value, 1);
    arrange();
    is_over();
    for (const struct wait *wait = waits; wait < waits + sizeof waits / sizeof *waits; wait++) {
        for (uint32_t state = 0; state < STATES; state++) {
            if (wait->begins.kind == SUGWELAN_SWAIT_EVENT && state == SUGWELAN_KILLABLE)
                continue;
            leaves_asleep(wait, state);
            sleeps_again(wait, state);
            leaves_selected(wait, state);
            is_met(wait, state);
        }
        is_signalled(wait);
    }
    for (const struct wait *wait = waits; wait < waits + sizeof waits / sizeof *waits; wait++)
        if (wait->put.kind == SUGWELAN_CLEAR_AND_WAKE_UP_BIT || wait->put.kind == SUGWELAN_UNLOCK_PAGE)
            put(wait, 0);
    EXPECT(sugwelan_free(waiter), 0);
    EXPECT(sugwelan_free(keeper), 0);
    return finish("left");
}
