/* Wait queues, completions, locks by bits and pages, for threads: the calls of the Linux kernel, proved to lose no
 * wakeup. What is proved is the archive beneath; `sugwelan.c`, which parks and rouses, is tested.
 *
 * A Domain is a world of its own: 64 conditions, 128 variables, 128 words of 64 bits, 128 pages and 64 completions,
 * all 0 at first, and up to 255 tasks at a time. A thread makes its calls by a task, and a task is used by one thread
 * at a time. Who has no task at hand, or whose task waits, makes wakes by the Domain.
 *
 * Each call goes on to its end: a wait parks its thread. What the caller has to keep to is this, and all else is
 * tested:
 *   - a task or a Domain is one that a call here gave out, or null, and is no more used once it was freed;
 *   - no thread is in a call on a task when it is freed;
 *   - no call is made from a signal handler: it may wait for the very thread that it interrupted;
 *   - a thread whose cancel type is asynchronous makes no call. With the usual type `pthread_cancel` stops no thread
 *     within a call, and no wait is a cancellation point, since each caller would have to clean up what he keeps: one
 *     that is parked goes on once it is woken or its limit has come, and is cancelled at its next cancellation point. So
 *     who is to be cancelled waits with a limit, and calls pthread_testcancel before he waits on;
 *   - after fork(2) the child's copy of a Domain is a world of its own, where no wake comes from the parent. It is
 *     whole where no other thread was in a call; so make Domains behind the fork.
 *
 * Each call answers 0 or what it says, or one of those that it lists, a negative errno:
 *   -EINVAL           a number is out of its range, or there is no place for what is given out
 *   -EDEADLK          the task itself keeps the bit or page for which it would wait
 *   -EPERM            the task does not keep the bit or page that it would give back, or to whose tally it would add
 *   -ENOTEMPTY        the task keeps a bit or a page, and would be freed
 *   -EOPNOTSUPP       a wait in a simple queue would be killable
 *   -EALREADY         another thread is in a call on the task, or the Domain was freed before
 *   -EBADF            the task or the Domain is null
 *   -EINTR            a signal ended the wait: one of sugwelan_raise_signal, since those of the system end none
 *   -ETIMEDOUT        the limit of a wait came first, and it was left
 *   -ENOSPC           no place is left in the queue, as after 2^37 waits at it; the wait is over
 *   -EAGAIN           no number is spare for a further task
 *   -ENOMEM           there is no memory; the number of a further task may be used up
 *   -ENOTRECOVERABLE  a wake of the task came to no end, as none does, and it makes no more calls
 *
 * After all but -EINTR, -ETIMEDOUT, -ENOSPC and -ENOMEM nothing has changed. What is not listed with each call: -EBADF
 * and -ENOTRECOVERABLE, and of those that take a task -EALREADY.
 *
 * The rule for wakers: change the condition, then wake. The rule for waiters: the end of a wait says that the
 * condition was set, and not that it still is; who takes it tests what it has got. A signal ends no call that need not
 * sleep: who works on without sleeping asks sugwelan_signal_pending.
 *
 * A wait with a limit, `.._timeout`, is as the one before it, and lasts so many nanoseconds of CLOCK_MONOTONIC at most:
 * any number, of which the last is some 584 years; with 0 it looks whether it has to wait, and goes on at once. Who
 * waits without a limit takes the call without one. Where the limit has come the wait is left: its entry goes off the
 * queue, and it looks once more. What it has got meanwhile it has, and answers 0; else it answers -ETIMEDOUT, keeps
 * nothing, and takes nothing from those who wait on. It ends later than its limit by what the thread waits for a
 * processor and for the lock of the queue, which others keep for short. Time is of this library alone: no law of the
 * archive speaks of it.
 *
 * The headers are C99 or C++; `sugwelan.c` is C11. */
#ifndef SUGWELAN_H
#define SUGWELAN_H

#include "sugwelan_calls.h"

#ifdef __cplusplus
extern "C" {
#endif

/* The version of what is declared here. */
enum { SUGWELAN_ABI = 2 };

/* The version of what is linked: it is to be SUGWELAN_ABI. */
int sugwelan_abi(void);

/* A Domain, and a task of one. */
struct sugwelan_domain;
struct sugwelan_task;

/* What a wake did. */
struct sugwelan_walked {
    uint32_t woken;        /* how many tasks it woke */
    uint32_t selected;     /* how many of them by exclusive entries */
    uint32_t holds;        /* how often it held the queue. A wake for a variable, a bit or a page holds it only where
                            * somebody is queued; one for a condition holds it at least once */
    enum sugwelan_end end; /* where it ended */
};

/* Domains. */

/* Makes a Domain. -EINVAL, -ENOMEM */
int sugwelan_domain_new(struct sugwelan_domain **out);

/* Gives a Domain up: its memory goes with the last of its tasks. -EALREADY */
int sugwelan_domain_free(struct sugwelan_domain *domain);

/* Gives out a task of the Domain: one that was freed, or a further one. -EINVAL, -EAGAIN where 255 are in use,
 * -ENOMEM */
int sugwelan_domain_task(struct sugwelan_domain *domain, struct sugwelan_task **out);

/* Tasks. */

/* Makes a Domain that ends with the last of its tasks, and gives out its first. -EINVAL, -ENOMEM */
int sugwelan_task_new(struct sugwelan_task **out);

/* Gives out a further task of the same Domain, also while the task is in a call. -EINVAL, -EAGAIN, -ENOMEM */
int sugwelan_task_fork(struct sugwelan_task *task, struct sugwelan_task **out);

/* Gives a task up, for the next one who wants a task of the Domain. -ENOTEMPTY */
int sugwelan_task_free(struct sugwelan_task *task);

/* The Domain of the task, also while it is in a call: null of null. It is there as long as a task of it. */
struct sugwelan_domain *sugwelan_task_domain(struct sugwelan_task *task);

/* The number of the task, from 0 to 255, also while it is in a call. Once it was freed, another one gets it. */
int sugwelan_task_number(struct sugwelan_task *task);

/* Conditions. One that is not 0 is set. */

/* Waits until a condition below SUGWELAN_FIRST_SIMPLE is set. -EINVAL, -EINTR, -ENOSPC */
int sugwelan_wait_event(struct sugwelan_task *task, uint32_t condition, enum sugwelan_state state);

/* The same with a limit. -EINVAL, -EINTR, -ETIMEDOUT, -ENOSPC */
int sugwelan_wait_event_timeout(struct sugwelan_task *task, uint32_t condition, enum sugwelan_state state,
                                uint64_t nanoseconds);

/* Waits as one of those of whom a wake with a count selects only so many. -EINVAL, -EINTR, -ENOSPC */
int sugwelan_wait_event_exclusive(struct sugwelan_task *task, uint32_t condition, enum sugwelan_state state);

/* The same with a limit: where a wake has selected it, it answers 0, or has found that others took the condition.
 * -EINVAL, -EINTR, -ETIMEDOUT, -ENOSPC */
int sugwelan_wait_event_exclusive_timeout(struct sugwelan_task *task, uint32_t condition, enum sugwelan_state state,
                                          uint64_t nanoseconds);

/* Waits in the simple queue of a condition from SUGWELAN_FIRST_SIMPLE on. -EINVAL, -EOPNOTSUPP, -EINTR, -ENOSPC */
int sugwelan_swait_event(struct sugwelan_task *task, uint32_t condition, enum sugwelan_state state);

/* The same with a limit. -EINVAL, -EOPNOTSUPP, -EINTR, -ETIMEDOUT, -ENOSPC */
int sugwelan_swait_event_timeout(struct sugwelan_task *task, uint32_t condition, enum sugwelan_state state,
                                 uint64_t nanoseconds);

/* Wakes who waits for a condition: all of them where the count is 0, else all that are not exclusive before the last
 * of `count` exclusive ones. `walked` may be null, here and below. -EINVAL */
int sugwelan_wake_up(struct sugwelan_task *task, uint32_t condition, enum sugwelan_mode mode, uint32_t count,
                     struct sugwelan_walked *walked);

/* Sets a condition to a value, and wakes as sugwelan_wake_up does. -EINVAL */
int sugwelan_set_and_wake(struct sugwelan_task *task, uint32_t condition, uint64_t value, uint32_t count,
                          struct sugwelan_walked *walked);

/* Puts 0 in place of a condition's value, which it gives out; `value` may be null. -EINVAL */
int sugwelan_take_condition(struct sugwelan_task *task, uint32_t condition, uint64_t *value);

/* Sets a condition from SUGWELAN_FIRST_SIMPLE on to a value, and wakes the first who waits in its simple queue. It
 * gives out how many it took off the queue, as the three below do; `selected` may be null. -EINVAL */
int sugwelan_set_and_swake_one(struct sugwelan_task *task, uint32_t condition, uint64_t value, uint32_t *selected);

/* The same, and wakes all. -EINVAL */
int sugwelan_set_and_swake_all(struct sugwelan_task *task, uint32_t condition, uint64_t value, uint32_t *selected);

/* Wakes the first who waits in a simple queue. -EINVAL */
int sugwelan_swake_up_one(struct sugwelan_task *task, uint32_t condition, uint32_t *selected);

/* Wakes all who wait in a simple queue. -EINVAL */
int sugwelan_swake_up_all(struct sugwelan_task *task, uint32_t condition, uint32_t *selected);

/* Variables. */

/* Waits until a variable differs from `old`, and gives out the value that it found; `found` may be null. -EINVAL,
 * -EINTR, -ENOSPC */
int sugwelan_wait_var_event(struct sugwelan_task *task, uint32_t variable, uint64_t old, enum sugwelan_state state,
                            uint64_t *found);

/* The same with a limit. -EINVAL, -EINTR, -ETIMEDOUT, -ENOSPC */
int sugwelan_wait_var_event_timeout(struct sugwelan_task *task, uint32_t variable, uint64_t old,
                                    enum sugwelan_state state, uint64_t nanoseconds, uint64_t *found);

/* Changes a variable from SUGWELAN_FIRST_VARIABLE on, and wakes who waits for it. -EINVAL */
int sugwelan_publish_var_and_wake(struct sugwelan_task *task, uint32_t variable, uint64_t value,
                                  struct sugwelan_walked *walked);

/* Bits. A task that takes one keeps it, until it gives it back. A bit is a number, and each Domain has its own of that
 * number: nothing here tells that a task is of another Domain than others who take the same. */

/* Waits until a bit is clear, and does not take it. -EINVAL, -EDEADLK, -EINTR, -ENOSPC */
int sugwelan_wait_on_bit(struct sugwelan_task *task, uint32_t word, uint32_t bit, enum sugwelan_state state);

/* The same with a limit. -EINVAL, -EDEADLK, -EINTR, -ETIMEDOUT, -ENOSPC */
int sugwelan_wait_on_bit_timeout(struct sugwelan_task *task, uint32_t word, uint32_t bit, enum sugwelan_state state,
                                 uint64_t nanoseconds);

/* Waits until it has taken a bit. -EINVAL, -EDEADLK, -EINTR, -ENOSPC */
int sugwelan_wait_on_bit_lock(struct sugwelan_task *task, uint32_t word, uint32_t bit, enum sugwelan_state state);

/* The same with a limit. -EINVAL, -EDEADLK, -EINTR, -ETIMEDOUT, -ENOSPC */
int sugwelan_wait_on_bit_lock_timeout(struct sugwelan_task *task, uint32_t word, uint32_t bit,
                                      enum sugwelan_state state, uint64_t nanoseconds);

/* Takes a bit where it is clear: 1 where it was, else 0. So its answer is that of the kernel's test_and_set_bit turned
 * round. -EINVAL */
int sugwelan_trylock_bit(struct sugwelan_task *task, uint32_t word, uint32_t bit);

/* Gives a bit back, and wakes who waits for it. -EINVAL, -EPERM */
int sugwelan_clear_and_wake_up_bit(struct sugwelan_task *task, uint32_t word, uint32_t bit,
                                   struct sugwelan_walked *walked);

/* Pages. Page p is bit 0 of word p, handed over to the first who waits for it; it has a tally. */

/* Waits until it has got a page. -EINVAL, -EDEADLK, -EINTR, -ENOSPC */
int sugwelan_lock_page(struct sugwelan_task *task, uint32_t page, enum sugwelan_state state);

/* The same with a limit. -EINVAL, -EDEADLK, -EINTR, -ETIMEDOUT, -ENOSPC */
int sugwelan_lock_page_timeout(struct sugwelan_task *task, uint32_t page, enum sugwelan_state state,
                               uint64_t nanoseconds);

/* Takes a page that nobody keeps: 1 where it has got it, else 0. -EINVAL */
int sugwelan_trylock_page(struct sugwelan_task *task, uint32_t page);

/* Gives a page back, or over to the first who waits for it. -EINVAL, -EPERM */
int sugwelan_unlock_page(struct sugwelan_task *task, uint32_t page, struct sugwelan_walked *walked);

/* Adds to the tally of a page that the task keeps, and gives out the tally before; `before` may be null. -EINVAL,
 * -EPERM */
int sugwelan_add_tally(struct sugwelan_task *task, uint32_t page, uint64_t amount, uint64_t *before);

/* Completions. */

/* Waits until a completion has a permit, and takes it. -EINVAL, -EINTR, -ENOSPC */
int sugwelan_wait_for_completion(struct sugwelan_task *task, uint32_t completion, enum sugwelan_state state);

/* The same with a limit. -EINVAL, -EINTR, -ETIMEDOUT, -ENOSPC */
int sugwelan_wait_for_completion_timeout(struct sugwelan_task *task, uint32_t completion, enum sugwelan_state state,
                                         uint64_t nanoseconds);

/* Gives a completion one permit more, and wakes the first who waits for one. -EINVAL */
int sugwelan_complete(struct sugwelan_task *task, uint32_t completion);

/* Gives a completion permits without end, and wakes all. -EINVAL */
int sugwelan_complete_all(struct sugwelan_task *task, uint32_t completion);

/* Takes all permits of a completion. -EINVAL */
int sugwelan_reinit_completion(struct sugwelan_task *task, uint32_t completion);

/* Takes a permit where there is one: 1 where it has got it, else 0. -EINVAL */
int sugwelan_try_wait_for_completion(struct sugwelan_task *task, uint32_t completion);

/* Whether a completion has a permit: 1 or 0. -EINVAL */
int sugwelan_completion_done(struct sugwelan_task *task, uint32_t completion);

/* Signals. */

/* Raises a signal of a task, by its number, and wakes it where it sleeps in a state that the signal ends. A number that
 * no task has is good, too. -EINVAL */
int sugwelan_raise_signal(struct sugwelan_task *task, uint32_t number, int fatal);

/* Wakes a task, by its number, with no signal: 1 where it slept or was about to, else 0. What it waits for it looks at
 * again, and it sleeps again where that is not so: for who has changed something that the task looks at itself. A number
 * that no task has is good, too. -EINVAL */
int sugwelan_wake_up_process(struct sugwelan_task *task, uint32_t number);

/* Takes the signals of the own task: 0 where there was none, 1 for a plain one, 2 for a fatal one. */
int sugwelan_take_signal(struct sugwelan_task *task);

/* The same, and does not take them. */
int sugwelan_signal_pending(struct sugwelan_task *task);

/* The calls that wake, for who has no task at hand or whose task waits: each as the one of a task above, with its
 * codes. The Domain makes them by a task of its own under a lock, one at a time. */

int sugwelan_domain_raise_signal(struct sugwelan_domain *domain, uint32_t number, int fatal);
int sugwelan_domain_wake_up_process(struct sugwelan_domain *domain, uint32_t number);
int sugwelan_domain_wake_up(struct sugwelan_domain *domain, uint32_t condition, enum sugwelan_mode mode, uint32_t count,
                            struct sugwelan_walked *walked);
int sugwelan_domain_set_and_wake(struct sugwelan_domain *domain, uint32_t condition, uint64_t value, uint32_t count,
                                 struct sugwelan_walked *walked);
int sugwelan_domain_set_and_swake_one(struct sugwelan_domain *domain, uint32_t condition, uint64_t value,
                                      uint32_t *selected);
int sugwelan_domain_set_and_swake_all(struct sugwelan_domain *domain, uint32_t condition, uint64_t value,
                                      uint32_t *selected);
int sugwelan_domain_swake_up_one(struct sugwelan_domain *domain, uint32_t condition, uint32_t *selected);
int sugwelan_domain_swake_up_all(struct sugwelan_domain *domain, uint32_t condition, uint32_t *selected);
int sugwelan_domain_publish_var_and_wake(struct sugwelan_domain *domain, uint32_t variable, uint64_t value,
                                         struct sugwelan_walked *walked);
int sugwelan_domain_complete(struct sugwelan_domain *domain, uint32_t completion);
int sugwelan_domain_complete_all(struct sugwelan_domain *domain, uint32_t completion);

#ifdef __cplusplus
}
#endif

#endif
