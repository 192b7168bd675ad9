/* The calls of libsugwelan_c.a, the proved part of the library. None of them waits.
 *
 * Who wants calls that go on to their ends takes sugwelan.h. This header is for who writes a loop of his own, as an
 * executor does: a call is begun by `sugwelan_call`, and goes on by further ones of kind SUGWELAN_ADVANCE.
 *
 * A handle is one task of a Domain. It is one that `sugwelan_new` or `sugwelan_fork` gave out and that was not freed,
 * and one thread at a time makes a call on it: the caller keeps to that, and all else is tested. */
#ifndef SUGWELAN_CALLS_H
#define SUGWELAN_CALLS_H

#include <stdint.h>

#ifdef __cplusplus
extern "C" {
#endif

/* How many of each thing a Domain has. Numbers begin at 0. */
enum {
    SUGWELAN_TASKS = 256,
    SUGWELAN_FIRST_SIMPLE = 48,  /* conditions below have wait queues, those from here on simple ones */
    SUGWELAN_CONDITIONS = 64,
    SUGWELAN_COMPLETIONS = 64,
    SUGWELAN_WORDS = 128,        /* words of bits; page p is locked by bit 0 of word p */
    SUGWELAN_BITS = 64,          /* bits of a word */
    SUGWELAN_PAGES = 128,
    SUGWELAN_VARIABLES = 128,
    SUGWELAN_FIRST_VARIABLE = 16, /* the first variable that may be published */
    SUGWELAN_HEADS = 384         /* queues, each with a lock */
};

/* How a task sleeps in a wait. */
enum sugwelan_state {
    SUGWELAN_UNINTERRUPTIBLE = 0, /* no signal ends the wait */
    SUGWELAN_INTERRUPTIBLE = 1,   /* each signal ends it */
    SUGWELAN_KILLABLE = 2         /* a fatal signal ends it */
};

/* Whom a wake meets. */
enum sugwelan_mode {
    SUGWELAN_WAKE_NORMAL = 0,       /* sleepers in each state */
    SUGWELAN_WAKE_INTERRUPTIBLE = 1 /* interruptible sleepers alone */
};

/* How a wake ended. */
enum sugwelan_end {
    SUGWELAN_END = 0,    /* behind the last entry of the queue */
    SUGWELAN_SPENT = 1,  /* it had selected as many exclusive waiters as its count said */
    SUGWELAN_STOPPED = 2 /* an entry stopped it: its bit was set again, or its page taken */
};

/* What a call answers. Another answer is a negative errno, after which nothing has changed but with -EINTR, -ECANCELED
 * and -ENOSPC:
 *   -EINVAL           a number is out of its range, or the kind is none
 *   -EOPNOTSUPP       a wait in a simple queue would be killable
 *   -EBUSY            another call of the task is under way
 *   -ENOENT           no call is under way that could go on
 *   -EPERM            the task does not keep the bit or page that it would give back, or to whose tally it would add
 *   -EDEADLK          the task keeps the bit or page itself for which it would wait
 *   -EINTR            a signal ended the wait
 *   -ECANCELED        the wait was left: it has taken nothing, and `told` has the value that its last look found
 *   -ENOSPC           no place is left in the queue, and the wait is over
 *   -ENOTRECOVERABLE  a wake of the task came to no end, as none does, and it makes no more calls */
enum sugwelan_answer {
    SUGWELAN_DONE = 0,   /* the call is over, and `told` has its result */
    SUGWELAN_AGAIN = 1,  /* advance at once */
    SUGWELAN_LOCKED = 2, /* it waits for the lock of a queue: advance once its ticket is served; sooner does no harm */
    SUGWELAN_PARK = 3    /* the task was put asleep: advance once it was roused; sooner does no harm */
};

/* The kinds of calls. Each has numbers in `a`, `b` and `c`, in this order, where - is one that does not count; and some
 * have a value. */
enum sugwelan_kind {
    SUGWELAN_ADVANCE = 0,                  /* goes on with the call that is under way */
    SUGWELAN_WAIT_EVENT = 1,               /* condition, state, 1 for an exclusive wait */
    SUGWELAN_SWAIT_EVENT = 2,              /* simple condition, state */
    SUGWELAN_WAIT_VAR_EVENT = 3,           /* variable, state; value: the old one; tells the value that it found */
    SUGWELAN_WAIT_ON_BIT = 4,              /* word, bit, state */
    SUGWELAN_WAIT_ON_BIT_LOCK = 5,         /* word, bit, state */
    SUGWELAN_LOCK_PAGE = 6,                /* page, state */
    SUGWELAN_WAIT_FOR_COMPLETION = 7,      /* completion, state */
    SUGWELAN_WAKE_UP = 10,                 /* condition, mode, count */
    SUGWELAN_SET_AND_WAKE = 11,            /* condition, -, count; value */
    SUGWELAN_PUBLISH_VAR_AND_WAKE = 12,    /* variable; value */
    SUGWELAN_CLEAR_AND_WAKE_UP_BIT = 13,   /* word, bit */
    SUGWELAN_UNLOCK_PAGE = 14,             /* page */
    SUGWELAN_SWAKE_UP_ONE = 15,            /* simple condition */
    SUGWELAN_SWAKE_UP_ALL = 16,            /* simple condition */
    SUGWELAN_SET_AND_SWAKE = 17,           /* simple condition, 1 to wake all; value */
    SUGWELAN_COMPLETE = 18,                /* completion */
    SUGWELAN_COMPLETE_ALL = 19,            /* completion */
    SUGWELAN_REINIT_COMPLETION = 20,       /* completion */
    SUGWELAN_TRY_WAIT_FOR_COMPLETION = 21, /* completion; tells 1 where it has taken a permit */
    SUGWELAN_COMPLETION_DONE = 22,         /* completion; tells 1 where there is a permit */
    SUGWELAN_TRYLOCK_BIT = 30,             /* word, bit; tells 1 where it has taken it */
    SUGWELAN_TRYLOCK_PAGE = 31,            /* page; tells 1 where it has taken it */
    SUGWELAN_ADD_TALLY = 32,               /* page; value: what is added; tells the tally before */
    SUGWELAN_TAKE_CONDITION = 33,          /* condition; tells its value */
    SUGWELAN_NUMBER = 34,                  /* tells the task's number, also while a call is under way */
    SUGWELAN_RAISE_SIGNAL = 35,            /* task, 1 for a fatal signal */
    SUGWELAN_TAKE_SIGNAL = 36,             /* tells 0 for none, 1 for a plain one, 2 for a fatal one */
    SUGWELAN_WAKE_UP_PROCESS = 37,         /* task; tells 1 where it slept, or was about to */
    SUGWELAN_LEAVE = 38                    /* goes on with the call that is under way, as SUGWELAN_ADVANCE does, and
                                            * leaves it where it is a wait. It ends as ever where it has got what it
                                            * waited for. A task that is asleep is woken first, by another one */
};

/* A call. */
struct sugwelan_call {
    uint32_t kind;
    uint32_t a;
    uint32_t b;
    uint32_t c;
    uint64_t value;
};

/* How many places there are for tasks that one call has roused. */
enum { SUGWELAN_ROUSED = 768 };

/* What a call told. After each answer, negative ones too, the threads of the tasks rouse[0] to rouse[rouse_count - 1]
 * are to be roused: they were asleep, and are no more. */
struct sugwelan_told {
    uint64_t value;    /* of a call that answers a value */
    uint64_t ticket;   /* of one that waits for a lock: the ticket that it has drawn */
    uint64_t served;   /* ... and the one that was found served in its place */
    uint32_t woken;    /* of a wake: how many tasks it woke */
    uint32_t selected; /* ... and how many of them by exclusive entries; of a simple queue, how many it took off */
    uint32_t holds;    /* ... how often it held the queue: of a wake for a variable, a bit or a page 0 where nobody was
                        * queued; of one for a condition at least once */
    uint32_t end;      /* ... and one of enum sugwelan_end */
    uint32_t head;     /* the queue for whose lock it waits, or SUGWELAN_HEADS */
    uint32_t passed;   /* the queue whose lock it gave back, or SUGWELAN_HEADS: the next ticket of that lock is served now.
                        * It is told where the call is over, too, and where it waits for the next ticket already */
    uint32_t rouse_count;
    uint8_t rouse[SUGWELAN_ROUSED];
};

/* A Domain and its first task, to which the 255 other numbers are spare: 0, or -ENOMEM. */
int32_t sugwelan_new(void **out);

/* A further task of the same Domain, with `share` of the task's spare numbers to give out in turn: 0, -EAGAIN where
 * fewer than 1 + share are spare, -EINVAL where share is above 255, -EBUSY, -ENOTRECOVERABLE, -ENOMEM. */
int32_t sugwelan_fork(void *task, uint32_t share, void **out);

/* Begins a call, or goes on with it. */
int32_t sugwelan_call(void *task, const struct sugwelan_call *call, struct sugwelan_told *told);

/* Gives a task up and frees its block: 0, -EBUSY while a call is under way, -ENOTEMPTY while it keeps a bit or a page.
 * One that makes no more calls may be given up. */
int32_t sugwelan_free(void *task);

#ifdef __cplusplus
}
#endif

#endif
