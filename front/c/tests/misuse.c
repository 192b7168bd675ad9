/* Wrong calls: each answers its code, and nothing has changed. */
#include "../sugwelan.h"
#include "expect.h"
#include <string.h>

enum { SET = 3, CLEAR = 4, SIMPLE = 50, VARIABLE = 20, CELL = 6 };
enum { WORD = 2, KEPT = 5, OTHER = 6, PAGE = 9, FREE_PAGE = 10 };
enum { VALUE = 7, OLD = 8, NEW = 9, AMOUNT = 3, NO_STATE = 3, NO_MODE = 2 };

static struct sugwelan_task *task;

/* The task keeps a bit and a page; a condition is set, a variable was changed. */
static void arrange(void)
{
    EXPECT(sugwelan_set_and_wake(task, SET, VALUE, 0, NULL), 0);
    EXPECT(sugwelan_publish_var_and_wake(task, VARIABLE, NEW, NULL), 0);
    EXPECT(sugwelan_trylock_bit(task, WORD, KEPT), 1);
    EXPECT(sugwelan_trylock_page(task, PAGE), 1);
    EXPECT(sugwelan_add_tally(task, PAGE, AMOUNT, NULL), 0);
}

/* Looks whether all is as it was arranged. */
static void is_as_before(void)
{
    uint64_t value = 0;
    EXPECT(sugwelan_wait_event(task, SET, SUGWELAN_UNINTERRUPTIBLE), 0);
    EXPECT(sugwelan_wait_var_event(task, VARIABLE, OLD, SUGWELAN_UNINTERRUPTIBLE, &value), 0);
    EXPECT(value, NEW);
    EXPECT(sugwelan_trylock_bit(task, WORD, KEPT), 0);
    EXPECT(sugwelan_add_tally(task, PAGE, 0, &value), 0);
    EXPECT(value, AMOUNT);
    EXPECT(sugwelan_wait_on_bit(task, WORD, OTHER, SUGWELAN_UNINTERRUPTIBLE), 0);
    EXPECT(sugwelan_take_condition(task, CLEAR, &value), 0);
    EXPECT(value, 0);
}

/* Counts whether a call answers its code and has changed nothing. */
#define REFUSED(call, code) \
    do { \
        EXPECT(call, code); \
        is_as_before(); \
    } while (0)

static void conditions_out_of_range(void)
{
    uint64_t value;
    REFUSED(sugwelan_wait_event(task, SUGWELAN_FIRST_SIMPLE, SUGWELAN_UNINTERRUPTIBLE), -EINVAL);
    REFUSED(sugwelan_wait_event(task, UINT32_MAX, SUGWELAN_UNINTERRUPTIBLE), -EINVAL);
    REFUSED(sugwelan_wait_event(task, SET + 256, SUGWELAN_UNINTERRUPTIBLE), -EINVAL);
    REFUSED(sugwelan_wait_event(task, SET, (enum sugwelan_state)NO_STATE), -EINVAL);
    REFUSED(sugwelan_wait_event_exclusive(task, SUGWELAN_CONDITIONS, SUGWELAN_UNINTERRUPTIBLE), -EINVAL);
    REFUSED(sugwelan_wait_event_exclusive(task, SET, (enum sugwelan_state)NO_STATE), -EINVAL);
    REFUSED(sugwelan_swait_event(task, SUGWELAN_FIRST_SIMPLE - 1, SUGWELAN_UNINTERRUPTIBLE), -EINVAL);
    REFUSED(sugwelan_swait_event(task, SUGWELAN_CONDITIONS, SUGWELAN_UNINTERRUPTIBLE), -EINVAL);
    REFUSED(sugwelan_swait_event(task, SIMPLE, SUGWELAN_KILLABLE), -EOPNOTSUPP);
    REFUSED(sugwelan_swait_event(task, SUGWELAN_CONDITIONS, SUGWELAN_KILLABLE), -EINVAL);
    REFUSED(sugwelan_wake_up(task, SUGWELAN_FIRST_SIMPLE, SUGWELAN_WAKE_NORMAL, 0, NULL), -EINVAL);
    REFUSED(sugwelan_wake_up(task, SET, (enum sugwelan_mode)NO_MODE, 0, NULL), -EINVAL);
    REFUSED(sugwelan_set_and_wake(task, SUGWELAN_FIRST_SIMPLE, 1, 0, NULL), -EINVAL);
    REFUSED(sugwelan_set_and_wake(task, CLEAR + 256, 1, 0, NULL), -EINVAL);
    REFUSED(sugwelan_take_condition(task, SUGWELAN_CONDITIONS, &value), -EINVAL);
    REFUSED(sugwelan_set_and_swake_one(task, SUGWELAN_FIRST_SIMPLE - 1, 1, NULL), -EINVAL);
    REFUSED(sugwelan_set_and_swake_all(task, SUGWELAN_CONDITIONS, 1, NULL), -EINVAL);
    REFUSED(sugwelan_swake_up_one(task, SUGWELAN_FIRST_SIMPLE - 1, NULL), -EINVAL);
    REFUSED(sugwelan_swake_up_all(task, SUGWELAN_CONDITIONS, NULL), -EINVAL);
}

static void words_out_of_range(void)
{
    REFUSED(sugwelan_wait_var_event(task, SUGWELAN_VARIABLES, 0, SUGWELAN_UNINTERRUPTIBLE, NULL), -EINVAL);
    REFUSED(sugwelan_wait_var_event(task, VARIABLE, OLD, (enum sugwelan_state)NO_STATE, NULL), -EINVAL);
    REFUSED(sugwelan_publish_var_and_wake(task, SUGWELAN_VARIABLES, 1, NULL), -EINVAL);
    REFUSED(sugwelan_publish_var_and_wake(task, SUGWELAN_FIRST_VARIABLE - 1, 1, NULL), -EINVAL);
    REFUSED(sugwelan_publish_var_and_wake(task, VARIABLE + 256, 1, NULL), -EINVAL);
    REFUSED(sugwelan_wait_on_bit(task, SUGWELAN_WORDS, OTHER, SUGWELAN_UNINTERRUPTIBLE), -EINVAL);
    REFUSED(sugwelan_wait_on_bit(task, WORD, SUGWELAN_BITS, SUGWELAN_UNINTERRUPTIBLE), -EINVAL);
    REFUSED(sugwelan_wait_on_bit(task, WORD, OTHER, (enum sugwelan_state)NO_STATE), -EINVAL);
    REFUSED(sugwelan_wait_on_bit_lock(task, SUGWELAN_WORDS, OTHER, SUGWELAN_UNINTERRUPTIBLE), -EINVAL);
    REFUSED(sugwelan_wait_on_bit_lock(task, WORD, SUGWELAN_BITS, SUGWELAN_UNINTERRUPTIBLE), -EINVAL);
    REFUSED(sugwelan_wait_on_bit_lock(task, WORD, OTHER, (enum sugwelan_state)NO_STATE), -EINVAL);
    REFUSED(sugwelan_trylock_bit(task, SUGWELAN_WORDS, OTHER), -EINVAL);
    REFUSED(sugwelan_trylock_bit(task, WORD, SUGWELAN_BITS), -EINVAL);
    REFUSED(sugwelan_trylock_bit(task, WORD, OTHER + 256), -EINVAL);
    REFUSED(sugwelan_clear_and_wake_up_bit(task, SUGWELAN_WORDS, KEPT, NULL), -EINVAL);
    REFUSED(sugwelan_clear_and_wake_up_bit(task, WORD, SUGWELAN_BITS, NULL), -EINVAL);
    REFUSED(sugwelan_clear_and_wake_up_bit(task, WORD, KEPT + 256, NULL), -EINVAL);
    REFUSED(sugwelan_lock_page(task, SUGWELAN_PAGES, SUGWELAN_UNINTERRUPTIBLE), -EINVAL);
    REFUSED(sugwelan_lock_page(task, FREE_PAGE, (enum sugwelan_state)NO_STATE), -EINVAL);
    REFUSED(sugwelan_trylock_page(task, SUGWELAN_PAGES), -EINVAL);
    REFUSED(sugwelan_unlock_page(task, SUGWELAN_PAGES, NULL), -EINVAL);
    REFUSED(sugwelan_unlock_page(task, PAGE + 256, NULL), -EINVAL);
    REFUSED(sugwelan_add_tally(task, SUGWELAN_PAGES, 1, NULL), -EINVAL);
}

static void completions_out_of_range(void)
{
    REFUSED(sugwelan_wait_for_completion(task, SUGWELAN_COMPLETIONS, SUGWELAN_UNINTERRUPTIBLE), -EINVAL);
    REFUSED(sugwelan_wait_for_completion(task, 0, (enum sugwelan_state)NO_STATE), -EINVAL);
    REFUSED(sugwelan_complete(task, SUGWELAN_COMPLETIONS), -EINVAL);
    REFUSED(sugwelan_complete_all(task, SUGWELAN_COMPLETIONS), -EINVAL);
    REFUSED(sugwelan_reinit_completion(task, SUGWELAN_COMPLETIONS), -EINVAL);
    REFUSED(sugwelan_try_wait_for_completion(task, SUGWELAN_COMPLETIONS), -EINVAL);
    REFUSED(sugwelan_completion_done(task, SUGWELAN_COMPLETIONS), -EINVAL);
    REFUSED(sugwelan_raise_signal(task, 256, 0), -EINVAL);
    REFUSED(sugwelan_wake_up_process(task, 256), -EINVAL);
}

static void bits_of_others(void)
{
    REFUSED(sugwelan_clear_and_wake_up_bit(task, WORD, OTHER, NULL), -EPERM);
    REFUSED(sugwelan_unlock_page(task, FREE_PAGE, NULL), -EPERM);
    REFUSED(sugwelan_add_tally(task, FREE_PAGE, 1, NULL), -EPERM);
    REFUSED(sugwelan_wait_on_bit(task, WORD, KEPT, SUGWELAN_UNINTERRUPTIBLE), -EDEADLK);
    REFUSED(sugwelan_wait_on_bit_lock(task, WORD, KEPT, SUGWELAN_UNINTERRUPTIBLE), -EDEADLK);
    REFUSED(sugwelan_lock_page(task, PAGE, SUGWELAN_UNINTERRUPTIBLE), -EDEADLK);
    REFUSED(sugwelan_wait_on_bit(task, PAGE, 0, SUGWELAN_UNINTERRUPTIBLE), -EDEADLK);
    REFUSED(sugwelan_task_free(task), -ENOTEMPTY);
}

static void no_task(void)
{
    struct sugwelan_task *none = NULL;
    EXPECT(sugwelan_task_fork(NULL, &none), -EBADF);
    EXPECT(sugwelan_domain_task(NULL, &none), -EBADF);
    EXPECT(none == NULL, 1);
    EXPECT(sugwelan_task_free(NULL), -EBADF);
    EXPECT(sugwelan_task_number(NULL), -EBADF);
    EXPECT(sugwelan_task_domain(NULL) == NULL, 1);
    EXPECT(sugwelan_wait_event(NULL, SET, SUGWELAN_UNINTERRUPTIBLE), -EBADF);
    EXPECT(sugwelan_wait_event_exclusive(NULL, SET, SUGWELAN_UNINTERRUPTIBLE), -EBADF);
    EXPECT(sugwelan_swait_event(NULL, SIMPLE, SUGWELAN_UNINTERRUPTIBLE), -EBADF);
    EXPECT(sugwelan_wake_up(NULL, SET, SUGWELAN_WAKE_NORMAL, 0, NULL), -EBADF);
    EXPECT(sugwelan_set_and_wake(NULL, SET, 1, 0, NULL), -EBADF);
    EXPECT(sugwelan_take_condition(NULL, SET, NULL), -EBADF);
    EXPECT(sugwelan_set_and_swake_one(NULL, SIMPLE, 1, NULL), -EBADF);
    EXPECT(sugwelan_set_and_swake_all(NULL, SIMPLE, 1, NULL), -EBADF);
    EXPECT(sugwelan_swake_up_one(NULL, SIMPLE, NULL), -EBADF);
    EXPECT(sugwelan_swake_up_all(NULL, SIMPLE, NULL), -EBADF);
    EXPECT(sugwelan_wait_var_event(NULL, VARIABLE, 0, SUGWELAN_UNINTERRUPTIBLE, NULL), -EBADF);
    EXPECT(sugwelan_publish_var_and_wake(NULL, VARIABLE, 1, NULL), -EBADF);
    EXPECT(sugwelan_wait_on_bit(NULL, WORD, KEPT, SUGWELAN_UNINTERRUPTIBLE), -EBADF);
    EXPECT(sugwelan_wait_on_bit_lock(NULL, WORD, KEPT, SUGWELAN_UNINTERRUPTIBLE), -EBADF);
    EXPECT(sugwelan_trylock_bit(NULL, WORD, KEPT), -EBADF);
    EXPECT(sugwelan_clear_and_wake_up_bit(NULL, WORD, KEPT, NULL), -EBADF);
    EXPECT(sugwelan_lock_page(NULL, PAGE, SUGWELAN_UNINTERRUPTIBLE), -EBADF);
    EXPECT(sugwelan_trylock_page(NULL, PAGE), -EBADF);
    EXPECT(sugwelan_unlock_page(NULL, PAGE, NULL), -EBADF);
    EXPECT(sugwelan_add_tally(NULL, PAGE, 1, NULL), -EBADF);
    EXPECT(sugwelan_wait_for_completion(NULL, CELL, SUGWELAN_UNINTERRUPTIBLE), -EBADF);
    EXPECT(sugwelan_complete(NULL, CELL), -EBADF);
    EXPECT(sugwelan_complete_all(NULL, CELL), -EBADF);
    EXPECT(sugwelan_reinit_completion(NULL, CELL), -EBADF);
    EXPECT(sugwelan_try_wait_for_completion(NULL, CELL), -EBADF);
    EXPECT(sugwelan_completion_done(NULL, CELL), -EBADF);
    EXPECT(sugwelan_raise_signal(NULL, 0, 0), -EBADF);
    EXPECT(sugwelan_wake_up_process(NULL, 0), -EBADF);
    EXPECT(sugwelan_take_signal(NULL), -EBADF);
    EXPECT(sugwelan_signal_pending(NULL), -EBADF);
}

static void no_domain(void)
{
    EXPECT(sugwelan_domain_free(NULL), -EBADF);
    EXPECT(sugwelan_domain_raise_signal(NULL, 0, 0), -EBADF);
    EXPECT(sugwelan_domain_wake_up_process(NULL, 0), -EBADF);
    EXPECT(sugwelan_domain_wake_up(NULL, SET, SUGWELAN_WAKE_NORMAL, 0, NULL), -EBADF);
    EXPECT(sugwelan_domain_set_and_wake(NULL, SET, 1, 0, NULL), -EBADF);
    EXPECT(sugwelan_domain_set_and_swake_one(NULL, SIMPLE, 1, NULL), -EBADF);
    EXPECT(sugwelan_domain_set_and_swake_all(NULL, SIMPLE, 1, NULL), -EBADF);
    EXPECT(sugwelan_domain_swake_up_one(NULL, SIMPLE, NULL), -EBADF);
    EXPECT(sugwelan_domain_swake_up_all(NULL, SIMPLE, NULL), -EBADF);
    EXPECT(sugwelan_domain_publish_var_and_wake(NULL, VARIABLE, 1, NULL), -EBADF);
    EXPECT(sugwelan_domain_complete(NULL, CELL), -EBADF);
    EXPECT(sugwelan_domain_complete_all(NULL, CELL), -EBADF);
}

/* No place for what is given out. */
static void no_place(void)
{
    EXPECT(sugwelan_task_new(NULL), -EINVAL);
    EXPECT(sugwelan_domain_new(NULL), -EINVAL);
    REFUSED(sugwelan_task_fork(task, NULL), -EINVAL);
    REFUSED(sugwelan_domain_task(sugwelan_task_domain(task), NULL), -EINVAL);
    REFUSED(sugwelan_domain_free(sugwelan_task_domain(task)), -EALREADY);
}

/* The calls of a Domain, with bad numbers. */
static void domain_out_of_range(void)
{
    struct sugwelan_domain *domain = sugwelan_task_domain(task);
    REFUSED(sugwelan_domain_raise_signal(domain, 256, 0), -EINVAL);
    REFUSED(sugwelan_domain_wake_up_process(domain, 256), -EINVAL);
    REFUSED(sugwelan_domain_wake_up(domain, SUGWELAN_FIRST_SIMPLE, SUGWELAN_WAKE_NORMAL, 0, NULL), -EINVAL);
    REFUSED(sugwelan_domain_wake_up(domain, SET, (enum sugwelan_mode)NO_MODE, 0, NULL), -EINVAL);
    REFUSED(sugwelan_domain_set_and_wake(domain, CLEAR + 256, 1, 0, NULL), -EINVAL);
    REFUSED(sugwelan_domain_set_and_swake_one(domain, SUGWELAN_FIRST_SIMPLE - 1, 1, NULL), -EINVAL);
    REFUSED(sugwelan_domain_set_and_swake_all(domain, SUGWELAN_CONDITIONS, 1, NULL), -EINVAL);
    REFUSED(sugwelan_domain_swake_up_one(domain, SUGWELAN_FIRST_SIMPLE - 1, NULL), -EINVAL);
    REFUSED(sugwelan_domain_swake_up_all(domain, SUGWELAN_CONDITIONS, NULL), -EINVAL);
    REFUSED(sugwelan_domain_publish_var_and_wake(domain, SUGWELAN_FIRST_VARIABLE - 1, 1, NULL), -EINVAL);
    REFUSED(sugwelan_domain_complete(domain, SUGWELAN_COMPLETIONS), -EINVAL);
    REFUSED(sugwelan_domain_complete_all(domain, SUGWELAN_COMPLETIONS), -EINVAL);
}

/* So many tasks at a time; one that was freed is given out again. */
static void numbers(void)
{
    static struct sugwelan_task *rest[SUGWELAN_TASKS];
    struct sugwelan_task *none = NULL;
    int count = 0, number;
    while (!sugwelan_task_fork(count ? rest[count - 1] : task, &rest[count]))
        count++;
    EXPECT(count, SUGWELAN_TASKS - 2);
    REFUSED(sugwelan_task_fork(task, &none), -EAGAIN);
    REFUSED(sugwelan_domain_task(sugwelan_task_domain(task), &none), -EAGAIN);
    EXPECT(none == NULL, 1);
    number = sugwelan_task_number(rest[7]);
    EXPECT(sugwelan_trylock_bit(rest[7], WORD, KEPT), 0);
    EXPECT(sugwelan_trylock_bit(rest[7], WORD, OTHER), 1);
    EXPECT(sugwelan_task_free(rest[7]), -ENOTEMPTY);
    EXPECT(sugwelan_clear_and_wake_up_bit(rest[7], WORD, OTHER, NULL), 0);
    EXPECT(sugwelan_raise_signal(rest[7], (uint32_t)number, 0), 0);
    EXPECT(sugwelan_task_free(rest[7]), 0);
    EXPECT(sugwelan_task_fork(task, &rest[7]), 0);
    EXPECT(sugwelan_task_number(rest[7]), number);
    EXPECT(sugwelan_take_signal(rest[7]), 0);
    EXPECT(sugwelan_trylock_bit(rest[7], WORD, KEPT), 0);
    while (count)
        EXPECT(sugwelan_task_free(rest[--count]), 0);
}

/* A signal ends no call that need not sleep; who is to stop looks for it. */
static void pending_signals(void)
{
    uint32_t own = (uint32_t)sugwelan_task_number(task);
    EXPECT(sugwelan_signal_pending(task), 0);
    EXPECT(sugwelan_domain_raise_signal(sugwelan_task_domain(task), own, 0), 0);
    EXPECT(sugwelan_signal_pending(task), 1);
    EXPECT(sugwelan_wait_event(task, SET, SUGWELAN_INTERRUPTIBLE), 0);
    EXPECT(sugwelan_wait_event(task, CLEAR, SUGWELAN_INTERRUPTIBLE), -EINTR);
    EXPECT(sugwelan_swait_event(task, SIMPLE, SUGWELAN_INTERRUPTIBLE), -EINTR);
    EXPECT(sugwelan_wait_var_event(task, VARIABLE, NEW, SUGWELAN_INTERRUPTIBLE, NULL), -EINTR);
    EXPECT(sugwelan_wait_for_completion(task, CELL, SUGWELAN_INTERRUPTIBLE), -EINTR);
    EXPECT(sugwelan_raise_signal(task, own, 1), 0);
    EXPECT(sugwelan_signal_pending(task), 2);
    EXPECT(sugwelan_wait_event(task, CLEAR, SUGWELAN_KILLABLE), -EINTR);
    EXPECT(sugwelan_wait_event_exclusive(task, CLEAR, SUGWELAN_KILLABLE), -EINTR);
    EXPECT(sugwelan_take_signal(task), 2);
    EXPECT(sugwelan_take_signal(task), 0);
    EXPECT(sugwelan_signal_pending(task), 0);
}

/* A signal ends the waits for a bit and for a page that another task keeps. */
static void signals_at_locks(void)
{
    struct sugwelan_task *other;
    EXPECT(sugwelan_task_fork(task, &other), 0);
    EXPECT(sugwelan_raise_signal(other, (uint32_t)sugwelan_task_number(other), 1), 0);
    EXPECT(sugwelan_wait_on_bit(other, WORD, KEPT, SUGWELAN_KILLABLE), -EINTR);
    EXPECT(sugwelan_wait_on_bit_lock(other, WORD, KEPT, SUGWELAN_INTERRUPTIBLE), -EINTR);
    EXPECT(sugwelan_lock_page(other, PAGE, SUGWELAN_KILLABLE), -EINTR);
    EXPECT(sugwelan_task_free(other), 0);
}

static struct sugwelan_told told;

/* A call of the archive itself. */
static int32_t raw(void *handle, uint32_t kind, uint32_t a, uint32_t b, uint32_t c)
{
    struct sugwelan_call call = {kind, a, b, c, VALUE};
    return sugwelan_call(handle, &call, &told);
}

/* Makes a call of the archive until it is over or its task is asleep. */
static int32_t go(void *handle, uint32_t kind, uint32_t a, uint32_t b, uint32_t c)
{
    int32_t answer = raw(handle, kind, a, b, c);
    while (answer == SUGWELAN_AGAIN || answer == SUGWELAN_LOCKED)
        answer = raw(handle, SUGWELAN_ADVANCE, 0, 0, 0);
    return answer;
}

/* Calls that would begin, with good numbers, each. */
static const struct sugwelan_call beginnings[] = {
    {SUGWELAN_WAIT_EVENT, CLEAR, 0, 0, 0},
    {SUGWELAN_SWAIT_EVENT, SIMPLE, 0, 0, 0},
    {SUGWELAN_WAIT_VAR_EVENT, VARIABLE, 0, 0, 0},
    {SUGWELAN_WAIT_ON_BIT, WORD, OTHER, 0, 0},
    {SUGWELAN_WAIT_ON_BIT_LOCK, WORD, OTHER, 0, 0},
    {SUGWELAN_LOCK_PAGE, FREE_PAGE, 0, 0, 0},
    {SUGWELAN_WAIT_FOR_COMPLETION, CELL, 0, 0, 0},
    {SUGWELAN_WAKE_UP, CLEAR, 0, 0, 0},
    {SUGWELAN_SET_AND_WAKE, CLEAR, 0, 0, VALUE},
    {SUGWELAN_PUBLISH_VAR_AND_WAKE, VARIABLE, 0, 0, VALUE},
    {SUGWELAN_CLEAR_AND_WAKE_UP_BIT, WORD, KEPT, 0, 0},
    {SUGWELAN_UNLOCK_PAGE, PAGE, 0, 0, 0},
    {SUGWELAN_SWAKE_UP_ONE, SIMPLE, 0, 0, 0},
    {SUGWELAN_SWAKE_UP_ALL, SIMPLE, 0, 0, 0},
    {SUGWELAN_SET_AND_SWAKE, SIMPLE, 0, 0, VALUE},
    {SUGWELAN_COMPLETE, CELL, 0, 0, 0},
    {SUGWELAN_COMPLETE_ALL, CELL, 0, 0, 0},
    {SUGWELAN_REINIT_COMPLETION, CELL, 0, 0, 0},
    {SUGWELAN_TRY_WAIT_FOR_COMPLETION, CELL, 0, 0, 0},
    {SUGWELAN_COMPLETION_DONE, CELL, 0, 0, 0},
    {SUGWELAN_TRYLOCK_BIT, WORD, OTHER, 0, 0},
    {SUGWELAN_TRYLOCK_PAGE, FREE_PAGE, 0, 0, 0},
    {SUGWELAN_ADD_TALLY, PAGE, 0, 0, AMOUNT},
    {SUGWELAN_TAKE_CONDITION, CLEAR, 0, 0, 0},
    {SUGWELAN_RAISE_SIGNAL, 0, 0, 0, 0},
    {SUGWELAN_TAKE_SIGNAL, 0, 0, 0, 0},
    {SUGWELAN_WAKE_UP_PROCESS, 0, 0, 0, 0},
};

/* While a call is under way no other one begins, and the task is not given up. */
static void under_way(void *sleeper)
{
    void *none = NULL;
    for (size_t i = 0; i < sizeof beginnings / sizeof *beginnings; i++)
        EXPECT(sugwelan_call(sleeper, &beginnings[i], &told), -EBUSY);
    EXPECT(sugwelan_fork(sleeper, 0, &none), -EBUSY);
    EXPECT(none == NULL, 1);
    EXPECT(sugwelan_free(sleeper), -EBUSY);
    EXPECT(raw(sleeper, SUGWELAN_NUMBER, 0, 0, 0), SUGWELAN_DONE);
    EXPECT(told.value, 1);
}

static void handles(void)
{
    void *waker, *sleeper, *none = NULL;
    EXPECT(sugwelan_new(&waker), 0);
    EXPECT(sugwelan_fork(waker, 0, &sleeper), 0);
    EXPECT(raw(sleeper, SUGWELAN_ADVANCE, 0, 0, 0), -ENOENT);
    EXPECT(raw(sleeper, SUGWELAN_SWAIT_EVENT, SIMPLE, SUGWELAN_KILLABLE, 0), -EOPNOTSUPP);
    EXPECT(raw(sleeper, SUGWELAN_UNLOCK_PAGE, PAGE, 0, 0), -EPERM);
    EXPECT(raw(sleeper, UINT32_MAX, 0, 0, 0), -EINVAL);
    EXPECT(raw(sleeper, SUGWELAN_WAIT_EVENT, CLEAR, 0, 2), -EINVAL);
    EXPECT(raw(sleeper, SUGWELAN_TRYLOCK_BIT, WORD, KEPT, 0), SUGWELAN_DONE);
    EXPECT(told.value, 1);
    EXPECT(raw(sleeper, SUGWELAN_TRYLOCK_PAGE, PAGE, 0, 0), SUGWELAN_DONE);
    EXPECT(raw(sleeper, SUGWELAN_LOCK_PAGE, PAGE, 0, 0), -EDEADLK);
    EXPECT(sugwelan_fork(waker, SUGWELAN_TASKS - 1, &none), -EAGAIN);
    EXPECT(sugwelan_fork(waker, SUGWELAN_TASKS, &none), -EINVAL);
    EXPECT(go(sleeper, SUGWELAN_WAIT_EVENT, SET, 0, 0), SUGWELAN_PARK);
    under_way(sleeper);
    EXPECT(go(sleeper, SUGWELAN_ADVANCE, 0, 0, 0), SUGWELAN_PARK);
    under_way(sleeper);
    EXPECT(go(waker, SUGWELAN_SET_AND_WAKE, SET, 0, 0), SUGWELAN_DONE);
    EXPECT(told.woken, 1);
    EXPECT(told.rouse_count, 1);
    EXPECT(told.rouse[0], 1);
    EXPECT(go(sleeper, SUGWELAN_ADVANCE, 0, 0, 0), SUGWELAN_DONE);
    EXPECT(sugwelan_free(sleeper), -ENOTEMPTY);
    EXPECT(go(sleeper, SUGWELAN_CLEAR_AND_WAKE_UP_BIT, WORD, KEPT, 0), SUGWELAN_DONE);
    EXPECT(told.rouse_count, 0);
    EXPECT(go(sleeper, SUGWELAN_UNLOCK_PAGE, PAGE, 0, 0), SUGWELAN_DONE);
    EXPECT(told.rouse_count, 0);
    EXPECT(sugwelan_free(sleeper), 0);
    EXPECT(sugwelan_free(waker), 0);
}

int main(void)
{
    alarm(PATIENCE);
    EXPECT(sugwelan_task_new(&task), 0);
    arrange();
    is_as_before();
    conditions_out_of_range();
    words_out_of_range();
    completions_out_of_range();
    bits_of_others();
    no_task();
    no_domain();
    no_place();
    domain_out_of_range();
    numbers();
    pending_signals();
    signals_at_locks();
    EXPECT(sugwelan_abi(), SUGWELAN_ABI);
    EXPECT(sugwelan_clear_and_wake_up_bit(task, WORD, KEPT, NULL), 0);
    EXPECT(sugwelan_unlock_page(task, PAGE, NULL), 0);
    EXPECT(sugwelan_task_free(task), 0);
    handles();
    return finish("misuse");
}
