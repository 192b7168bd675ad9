/* Goes on with each call to its end: parks a thread whose task sleeps, and rouses those whose tasks were woken. It is
 * C11. */
#ifndef _GNU_SOURCE
#define _GNU_SOURCE
#endif
#include "sugwelan.h"
#include <errno.h>
#include <linux/futex.h>
#include <pthread.h>
#include <stdatomic.h>
#include <stdbool.h>
#include <stddef.h>
#include <stdlib.h>
#include <string.h>
#include <sys/syscall.h>
#include <time.h>
#include <unistd.h>

/* How often a bell is looked at before its thread parks. */
#ifndef SUGWELAN_LOOKS
#define SUGWELAN_LOOKS 0
#endif

/* How often a thread looks whether its ticket of the lock of a queue is served before others go on with its call; and
 * how often whether they have before it parks. */
#ifndef SUGWELAN_TRIES
#define SUGWELAN_TRIES 50
#endif
#ifndef SUGWELAN_WATCHES
#define SUGWELAN_WATCHES 200
#endif

/* With how many calls of others it goes on at most, before it hands that on to the last one's thread. */
#ifndef SUGWELAN_MOST
#define SUGWELAN_MOST 64
#endif

/* For tests: how long a thread is held up that has gone on with another's call, before it says so. */
#ifndef SUGWELAN_SLOW
#define SUGWELAN_SLOW 0
#endif

enum { CACHE_LINE = 64, SECOND = 1000000000 };

/* What a bell says. */
enum { QUIET, RUNG, PARKED };

struct bell {
    _Alignas(CACHE_LINE) _Atomic uint32_t word;
};

/* What orders the memory of two calls is hidden in the archive from a checker of races; so it is told, by a tie for
 * each thing that calls are about. */
#if defined(__has_feature)
#if __has_feature(thread_sanitizer)
#define CHECKS_RACES
#endif
#elif defined(__SANITIZE_THREAD__)
#define CHECKS_RACES
#endif

/* The first ties of each kind of things. */
enum {
    CONDITION_TIES = 0,
    VARIABLE_TIES = CONDITION_TIES + SUGWELAN_CONDITIONS,
    BIT_TIES = VARIABLE_TIES + SUGWELAN_VARIABLES,
    COMPLETION_TIES = BIT_TIES + SUGWELAN_WORDS * SUGWELAN_BITS,
    SIGNAL_TIES = COMPLETION_TIES + SUGWELAN_COMPLETIONS,
    TIES = SIGNAL_TIES + SUGWELAN_TASKS
};

/* A call that is under way. */
struct course {
    struct sugwelan_domain *domain;
    void *handle;
    uint32_t number;              /* of the task */
    const struct timespec *until; /* when it is left: null for never */
    bool leaves;                  /* that time has come */
    struct sugwelan_told *told;
};

/* One that waits for the lock of a queue. Whoever passes the lock on goes on with it, so that nobody waits for a thread
 * that does not run. */
struct waiter {
    struct waiter *next;
    uint64_t ticket;
    struct course *course;
    int32_t answer;   /* of the stretch that has got the lock, ... */
    bool goes_on;     /* ... and whether its thread is to go on with those behind it, ... */
    atomic_bool over; /* ... once this is so */
};

/* Those that wait for the lock of a queue, by their tickets. */
struct gate {
    _Alignas(CACHE_LINE) _Atomic uint32_t count;
    pthread_mutex_t lock; /* ... of what follows, and of the calls of those that wait */
    struct waiter *first;
};

struct sugwelan_domain {
    struct bell bells[SUGWELAN_TASKS];
    struct gate gates[SUGWELAN_HEADS];
    _Atomic uint32_t users; /* how many tasks are out, and 1 for the Domain until it is freed */
    atomic_bool owned;      /* it was not freed yet */
    pthread_mutex_t lock;   /* ... of what follows */
    void *home;             /* the first task in the archive: it makes further ones, and calls for who has none */
    struct sugwelan_task *spare; /* tasks that were freed */
#ifdef CHECKS_RACES
    uint64_t ties[TIES];
#endif
};

struct sugwelan_task {
    void *handle; /* its part in the archive */
    struct sugwelan_domain *domain;
    struct sugwelan_task *next; /* of those that were freed */
    uint32_t number;
    uint32_t kept;    /* how many bits and pages it keeps */
    atomic_bool busy; /* a thread is in a call on it, or it was freed */
};

/* The archive reads and writes as many bytes. */
_Static_assert(sizeof(struct sugwelan_call) == 24 && offsetof(struct sugwelan_call, value) == 16, "a call");
_Static_assert(sizeof(struct sugwelan_told) == 824 && offsetof(struct sugwelan_told, rouse) == 52, "what it told");

#ifdef CHECKS_RACES
void __tsan_acquire(void *at);
void __tsan_release(void *at);

/* The tie of the thing that a call is about: below 0 where there is none. */
static int tie_of(const struct sugwelan_call *call, uint32_t number)
{
    switch (call->kind) {
    case SUGWELAN_WAIT_EVENT:
    case SUGWELAN_SWAIT_EVENT:
    case SUGWELAN_SET_AND_WAKE:
    case SUGWELAN_SET_AND_SWAKE:
    case SUGWELAN_TAKE_CONDITION:
        return call->a < SUGWELAN_CONDITIONS ? CONDITION_TIES + (int)call->a : -1;
    case SUGWELAN_WAIT_VAR_EVENT:
    case SUGWELAN_PUBLISH_VAR_AND_WAKE:
        return call->a < SUGWELAN_VARIABLES ? VARIABLE_TIES + (int)call->a : -1;
    case SUGWELAN_WAIT_ON_BIT:
    case SUGWELAN_WAIT_ON_BIT_LOCK:
    case SUGWELAN_CLEAR_AND_WAKE_UP_BIT:
    case SUGWELAN_TRYLOCK_BIT:
        return call->a < SUGWELAN_WORDS && call->b < SUGWELAN_BITS
                   ? BIT_TIES + (int)(call->a * SUGWELAN_BITS + call->b) : -1;
    case SUGWELAN_LOCK_PAGE:
    case SUGWELAN_UNLOCK_PAGE:
    case SUGWELAN_TRYLOCK_PAGE:
        return call->a < SUGWELAN_PAGES ? BIT_TIES + (int)(call->a * SUGWELAN_BITS) : -1;
    case SUGWELAN_WAIT_FOR_COMPLETION:
    case SUGWELAN_COMPLETE:
    case SUGWELAN_COMPLETE_ALL:
    case SUGWELAN_TRY_WAIT_FOR_COMPLETION:
    case SUGWELAN_COMPLETION_DONE:
        return call->a < SUGWELAN_COMPLETIONS ? COMPLETION_TIES + (int)call->a : -1;
    case SUGWELAN_RAISE_SIGNAL:
        return call->a < SUGWELAN_TASKS ? SIGNAL_TIES + (int)call->a : -1;
    case SUGWELAN_TAKE_SIGNAL:
        return SIGNAL_TIES + (int)number;
    default:
        return -1;
    }
}

/* Whether a call changes what it is about, for others to see. */
static bool publishes(uint32_t kind)
{
    return kind == SUGWELAN_SET_AND_WAKE || kind == SUGWELAN_SET_AND_SWAKE || kind == SUGWELAN_PUBLISH_VAR_AND_WAKE ||
           kind == SUGWELAN_CLEAR_AND_WAKE_UP_BIT || kind == SUGWELAN_UNLOCK_PAGE || kind == SUGWELAN_COMPLETE ||
           kind == SUGWELAN_COMPLETE_ALL || kind == SUGWELAN_RAISE_SIGNAL;
}

/* Whether a call that is over has seen what others have changed: those that try have where they have got it. */
static bool sees(uint32_t kind, const struct sugwelan_told *told)
{
    bool tries = kind == SUGWELAN_TRYLOCK_BIT || kind == SUGWELAN_TRYLOCK_PAGE ||
                 kind == SUGWELAN_TRY_WAIT_FOR_COMPLETION || kind == SUGWELAN_COMPLETION_DONE;
    return !publishes(kind) && (!tries || told->value);
}

static void tell_begin(struct sugwelan_domain *domain, uint32_t number, const struct sugwelan_call *call)
{
    int tie = tie_of(call, number);
    if (tie >= 0 && publishes(call->kind))
        __tsan_release(&domain->ties[tie]);
}

static void tell_end(struct sugwelan_domain *domain, uint32_t number, const struct sugwelan_call *call, int32_t answer,
                     const struct sugwelan_told *told)
{
    int tie = tie_of(call, number);
    if (answer == -EINTR)
        __tsan_acquire(&domain->ties[SIGNAL_TIES + number]);
    else if (tie >= 0 && !answer && sees(call->kind, told))
        __tsan_acquire(&domain->ties[tie]);
}
#else
static void tell_begin(struct sugwelan_domain *domain, uint32_t number, const struct sugwelan_call *call)
{
    (void)domain, (void)number, (void)call;
}

static void tell_end(struct sugwelan_domain *domain, uint32_t number, const struct sugwelan_call *call, int32_t answer,
                     const struct sugwelan_told *told)
{
    (void)domain, (void)number, (void)call, (void)answer, (void)told;
}
#endif

static void relax(void)
{
#if defined(__x86_64__) || defined(__i386__)
    __builtin_ia32_pause();
#elif defined(__aarch64__)
    __asm__ volatile("yield");
#endif
}

static void ring(struct bell *bell)
{
    if (atomic_exchange(&bell->word, RUNG) == PARKED)
        syscall(SYS_futex, &bell->word, FUTEX_WAKE_PRIVATE, 1, NULL, NULL, 0);
}

/* A time from now on. No count is too high: the last one is some 584 years. */
static struct timespec after(uint64_t nanoseconds)
{
    struct timespec time;
    clock_gettime(CLOCK_MONOTONIC, &time);
    uint64_t rest = (uint64_t)time.tv_nsec + nanoseconds % SECOND;
    time.tv_sec += (time_t)(nanoseconds / SECOND + rest / SECOND);
    time.tv_nsec = (long)(rest % SECOND);
    return time;
}

/* Whether a time has come: null never does. */
static bool is_past(const struct timespec *time)
{
    struct timespec now;
    if (!time)
        return false;
    clock_gettime(CLOCK_MONOTONIC, &now);
    return now.tv_sec != time->tv_sec ? now.tv_sec > time->tv_sec : now.tv_nsec >= time->tv_nsec;
}

/* Returns once the bell was rung, and makes it quiet: false where the time came first. */
static bool park(struct bell *bell, const struct timespec *until)
{
    uint32_t quiet = QUIET;
    if (is_past(until))
        return false;
    for (int look = 0; look < SUGWELAN_LOOKS && atomic_load(&bell->word) == QUIET; look++)
        relax();
    if (atomic_compare_exchange_strong(&bell->word, &quiet, PARKED))
        while (atomic_load(&bell->word) == PARKED && !is_past(until))
            syscall(SYS_futex, &bell->word, FUTEX_WAIT_BITSET_PRIVATE, PARKED, until, NULL, FUTEX_BITSET_MATCH_ANY);
    return atomic_exchange(&bell->word, QUIET) == RUNG;
}

static void rouse(struct sugwelan_domain *domain, const struct sugwelan_told *told)
{
    for (uint32_t i = 0; i < told->rouse_count; i++)
        ring(&domain->bells[told->rouse[i]]);
}

/* The call that goes on with another one: it leaves that once its time has come. */
static const struct sugwelan_call *next_of(const struct course *course)
{
    static const struct sugwelan_call ADVANCE = {.kind = SUGWELAN_ADVANCE}, LEAVE = {.kind = SUGWELAN_LEAVE};
    return course->leaves ? &LEAVE : &ADVANCE;
}

static void put(struct gate *gate, struct waiter *waiter)
{
    struct waiter **place = &gate->first;
    while (*place && (*place)->ticket < waiter->ticket)
        place = &(*place)->next;
    waiter->next = *place;
    *place = waiter;
    atomic_fetch_add(&gate->count, 1);
}

static void take(struct gate *gate, struct waiter *waiter)
{
    struct waiter **place = &gate->first;
    while (*place != waiter)
        place = &(*place)->next;
    *place = waiter->next;
    atomic_fetch_sub(&gate->count, 1);
}

/* One look whether the ticket is served of a call that waits for a lock: true where it went on by that. */
static bool look(struct waiter *waiter)
{
    struct course *course = waiter->course;
    course->told->rouse_count = 0;
    waiter->answer = sugwelan_call(course->handle, next_of(course), course->told);
    return waiter->answer != SUGWELAN_LOCKED || course->told->ticket != waiter->ticket;
}

/* Goes on with the first call that waits for a lock: true where the lock was its and is passed on once more, and that is
 * not handed on to its thread. */
static bool serve_first(struct sugwelan_domain *domain, struct gate *gate, bool hands_on)
{
    struct sugwelan_told told;
    pthread_mutex_lock(&gate->lock);
    struct waiter *first = gate->first;
    if (!first || !look(first)) {
        pthread_mutex_unlock(&gate->lock);
        return false;
    }
    for (int slow = 0; slow < SUGWELAN_SLOW; slow++)
        relax();
    struct course *course = first->course;
    uint32_t number = course->number;
    int32_t answer = first->answer;
    /* Who sleeps and is to leave does not stay asleep: its thread has to see to that. */
    bool sleeps = answer == SUGWELAN_PARK && !course->leaves;
    told.rouse_count = course->told->rouse_count;
    memcpy(told.rouse, course->told->rouse, told.rouse_count);
    course->told->rouse_count = 0;
    take(gate, first);
    if (answer == SUGWELAN_LOCKED) {
        first->ticket = course->told->ticket;
        put(gate, first);
        hands_on = false;
    } else {
        first->goes_on = hands_on;
        atomic_store(&first->over, true);
    }
    pthread_mutex_unlock(&gate->lock);
    rouse(domain, &told);
    if (hands_on || (answer != SUGWELAN_LOCKED && !sleeps))
        ring(&domain->bells[number]);
    return !hands_on;
}

/* Goes on with those calls that wait for a lock that was given back. */
static void serve(struct sugwelan_domain *domain, struct gate *gate)
{
    for (int served = 1; atomic_load(&gate->count) && serve_first(domain, gate, served >= SUGWELAN_MOST); served++)
        ;
}

/* What follows a stretch: those are roused whom it woke, and who waits for the lock that it gave back is served. */
static void follow(struct sugwelan_domain *domain, const struct sugwelan_told *told)
{
    rouse(domain, told);
    if (told->passed < SUGWELAN_HEADS)
        serve(domain, &domain->gates[told->passed]);
}

/* Waits until the call has gone on that waits for a lock, and answers what its stretch did. It is among those that wait
 * before its last look, so whoever passes the lock on behind that look finds it there. Where its time comes meanwhile,
 * it waits on, and whoever goes on with it leaves it: another's stretch may have put it asleep, or may yet. */
static int32_t await_lock(struct course *course)
{
    struct sugwelan_domain *domain = course->domain;
    struct gate *gate = &domain->gates[course->told->head];
    struct waiter me = {.ticket = course->told->ticket, .course = course};
    pthread_mutex_lock(&gate->lock);
    put(gate, &me);
    if (look(&me)) {
        take(gate, &me);
        pthread_mutex_unlock(&gate->lock);
        follow(domain, course->told);
        return me.answer;
    }
    pthread_mutex_unlock(&gate->lock);
    for (int watch = 0; watch < SUGWELAN_WATCHES && !atomic_load(&me.over); watch++)
        relax();
    while (!atomic_load(&me.over)) {
        bool rung = park(&domain->bells[course->number], course->leaves ? NULL : course->until);
        /* The ring may be of who woke the task behind a stretch that has put it asleep and is not told yet. */
        pthread_mutex_lock(&gate->lock);
        course->leaves = course->leaves || !rung;
        pthread_mutex_unlock(&gate->lock);
    }
    if (me.goes_on)
        serve(domain, gate);
    /* Who sleeps now may have been woken since, and the bell's ring be used up. */
    return me.answer == SUGWELAN_PARK ? SUGWELAN_AGAIN : me.answer;
}

/* Makes a stretch of a call. */
static int32_t stretch(struct course *course, const struct sugwelan_call *call)
{
    course->told->rouse_count = 0;
    int32_t answer = sugwelan_call(course->handle, call, course->told);
    follow(course->domain, course->told);
    return answer;
}

/* Goes on with a call that waits for a lock: looks some times whether its ticket is served, and then waits. */
static int32_t pass_lock(struct course *course)
{
    uint64_t ticket = course->told->ticket;
    for (int look = 0; look < SUGWELAN_TRIES; look++) {
        relax();
        int32_t answer = stretch(course, next_of(course));
        if (answer != SUGWELAN_LOCKED || course->told->ticket != ticket)
            return answer;
    }
    return await_lock(course);
}

static int wake_up_at_home(struct sugwelan_domain *domain, uint32_t number);

/* Parks the thread of a task that sleeps. Once its time has come it parks no more: a task that sleeps makes no step, so
 * the Domain's own one wakes it first, and it leaves its wait then. */
static void sleep_on(struct course *course)
{
    struct bell *bell = &course->domain->bells[course->number];
    course->leaves = course->leaves || !park(bell, course->until);
    /* That fails where the Domain's task makes no more calls; then there is no way out but to be woken by others. */
    if (course->leaves && wake_up_at_home(course->domain, course->number))
        park(bell, NULL);
}

/* Makes a call to its end. */
static int32_t run(struct course *course, const struct sugwelan_call *call)
{
    int32_t answer = stretch(course, call);
    for (;;) {
        if (answer == SUGWELAN_LOCKED) {
            answer = pass_lock(course);
            continue;
        }
        if (answer == SUGWELAN_PARK)
            sleep_on(course);
        else if (answer != SUGWELAN_AGAIN)
            return answer;
        answer = stretch(course, next_of(course));
    }
}

/* Makes a call of a task: 0 or a negative errno. A wait is left once a time has come, if one is given. */
static int served(struct sugwelan_domain *domain, void *handle, uint32_t number, const struct timespec *until,
                  const struct sugwelan_call *call, struct sugwelan_told *told)
{
    struct course course = {.domain = domain, .handle = handle, .number = number, .until = until, .told = told};
    tell_begin(domain, number, call);
    int32_t answer = run(&course, call);
    tell_end(domain, number, call, answer, told);
    return answer == -ECANCELED ? -ETIMEDOUT : answer;
}

/* Counts what the task has taken or given back by a call that is over. */
static void count_kept(struct sugwelan_task *task, uint32_t kind, const struct sugwelan_told *told)
{
    if (kind == SUGWELAN_WAIT_ON_BIT_LOCK || kind == SUGWELAN_LOCK_PAGE)
        task->kept++;
    else if (kind == SUGWELAN_TRYLOCK_BIT || kind == SUGWELAN_TRYLOCK_PAGE)
        task->kept += told->value != 0;
    else if (kind == SUGWELAN_CLEAR_AND_WAKE_UP_BIT || kind == SUGWELAN_UNLOCK_PAGE)
        task->kept--;
}

/* Lets one thread at a time in: 0 where it may go on. */
static int begin(struct sugwelan_task *task)
{
    if (!task)
        return -EBADF;
    if (atomic_exchange_explicit(&task->busy, true, memory_order_acquire))
        return -EALREADY;
    return 0;
}

static void end(struct sugwelan_task *task)
{
    atomic_store_explicit(&task->busy, false, memory_order_release);
}

/* Who makes a call: a task, or where it is null a Domain; and when a wait is left, if it is limited. */
struct caller {
    struct sugwelan_task *task;
    struct sugwelan_domain *domain;
    bool limited;
    struct timespec until;
};

static struct caller by_task(struct sugwelan_task *task)
{
    return (struct caller){.task = task};
}

static struct caller by_task_within(struct sugwelan_task *task, uint64_t nanoseconds)
{
    return (struct caller){.task = task, .limited = true, .until = after(nanoseconds)};
}

static struct caller by_domain(struct sugwelan_domain *domain)
{
    return (struct caller){.domain = domain};
}

/* Makes a call by the Domain's own task. Its number is 0, and no wait is among those calls. */
static int made_at_home(struct sugwelan_domain *domain, const struct sugwelan_call *call, struct sugwelan_told *told)
{
    if (!domain)
        return -EBADF;
    pthread_mutex_lock(&domain->lock);
    int answer = served(domain, domain->home, 0, NULL, call, told);
    pthread_mutex_unlock(&domain->lock);
    return answer;
}

/* Wakes a task where it sleeps: 0 or a negative errno. */
static int wake_up_at_home(struct sugwelan_domain *domain, uint32_t number)
{
    struct sugwelan_told told;
    struct sugwelan_call call = {.kind = SUGWELAN_WAKE_UP_PROCESS, .a = number};
    return made_at_home(domain, &call, &told);
}

/* Makes a call: 0 or a negative errno. `told` is as the last stretch left it. */
static int made(struct caller who, struct sugwelan_call call, struct sugwelan_told *told)
{
    struct sugwelan_task *task = who.task;
    if (who.domain)
        return made_at_home(who.domain, &call, told);
    int answer = begin(task);
    if (answer)
        return answer;
    answer = served(task->domain, task->handle, task->number, who.limited ? &who.until : NULL, &call, told);
    if (!answer)
        count_kept(task, call.kind, told);
    end(task);
    return answer;
}

/* Makes a wait, or another call that gives nothing out. */
static int waits(struct caller who, struct sugwelan_call call)
{
    struct sugwelan_told told;
    return made(who, call, &told);
}

/* Makes a call that gives out a value. */
static int finds(struct caller who, struct sugwelan_call call, uint64_t *value)
{
    struct sugwelan_told told;
    int answer = made(who, call, &told);
    if (!answer && value)
        *value = told.value;
    return answer;
}

/* Makes a call whose value is small and is the answer. */
static int tells(struct caller who, struct sugwelan_call call)
{
    uint64_t value = 0;
    int answer = finds(who, call, &value);
    return answer ? answer : (int)value;
}

/* Makes a wake. */
static int wakes(struct caller who, struct sugwelan_call call, struct sugwelan_walked *walked)
{
    struct sugwelan_told told;
    int answer = made(who, call, &told);
    if (!answer && walked)
        *walked = (struct sugwelan_walked){told.woken, told.selected, told.holds, (enum sugwelan_end)told.end};
    return answer;
}

/* Makes a wake of a simple queue. */
static int selects(struct caller who, struct sugwelan_call call, uint32_t *selected)
{
    struct sugwelan_told told;
    int answer = made(who, call, &told);
    if (!answer && selected)
        *selected = told.selected;
    return answer;
}

int sugwelan_abi(void)
{
    return SUGWELAN_ABI;
}

/* One user of a Domain less; with the last one it goes, and all its tasks are spare then. */
static void let_go(struct sugwelan_domain *domain)
{
    if (atomic_fetch_sub(&domain->users, 1) != 1)
        return;
    for (struct sugwelan_task *task = domain->spare, *next; task; task = next) {
        next = task->next;
        sugwelan_free(task->handle);
        free(task);
    }
    sugwelan_free(domain->home);
    for (int i = 0; i < SUGWELAN_HEADS; i++)
        pthread_mutex_destroy(&domain->gates[i].lock);
    pthread_mutex_destroy(&domain->lock);
    free(domain);
}

int sugwelan_domain_new(struct sugwelan_domain **out)
{
    if (!out)
        return -EINVAL;
    struct sugwelan_domain *domain = aligned_alloc(CACHE_LINE, sizeof *domain);
    if (!domain)
        return -ENOMEM;
    int answer = sugwelan_new(&domain->home);
    if (answer) {
        free(domain);
        return answer;
    }
    for (int i = 0; i < SUGWELAN_TASKS; i++)
        atomic_init(&domain->bells[i].word, QUIET);
    for (int i = 0; i < SUGWELAN_HEADS; i++) {
        atomic_init(&domain->gates[i].count, 0);
        pthread_mutex_init(&domain->gates[i].lock, NULL);
        domain->gates[i].first = NULL;
    }
    atomic_init(&domain->users, 1);
    atomic_init(&domain->owned, true);
    pthread_mutex_init(&domain->lock, NULL);
    domain->spare = NULL;
    *out = domain;
    return 0;
}

int sugwelan_domain_free(struct sugwelan_domain *domain)
{
    if (!domain)
        return -EBADF;
    if (!atomic_exchange(&domain->owned, false))
        return -EALREADY;
    let_go(domain);
    return 0;
}

/* Makes a further task: 0 or a negative errno. */
static int new_task(struct sugwelan_domain *domain, struct sugwelan_task **out)
{
    struct sugwelan_told told;
    struct sugwelan_call call = {.kind = SUGWELAN_NUMBER};
    struct sugwelan_task *task = malloc(sizeof *task);
    if (!task)
        return -ENOMEM;
    pthread_mutex_lock(&domain->lock);
    int answer = sugwelan_fork(domain->home, 0, &task->handle);
    pthread_mutex_unlock(&domain->lock);
    if (answer) {
        free(task);
        return answer;
    }
    sugwelan_call(task->handle, &call, &told);
    task->domain = domain;
    task->next = NULL;
    task->number = (uint32_t)told.value;
    task->kept = 0;
    atomic_init(&task->busy, true);
    *out = task;
    return 0;
}

/* A task that was freed, if there is one. */
static struct sugwelan_task *spare_task(struct sugwelan_domain *domain)
{
    pthread_mutex_lock(&domain->lock);
    struct sugwelan_task *task = domain->spare;
    if (task)
        domain->spare = task->next;
    pthread_mutex_unlock(&domain->lock);
    return task;
}

int sugwelan_domain_task(struct sugwelan_domain *domain, struct sugwelan_task **out)
{
    struct sugwelan_told told;
    struct sugwelan_call call = {.kind = SUGWELAN_TAKE_SIGNAL};
    if (!domain)
        return -EBADF;
    if (!out)
        return -EINVAL;
    struct sugwelan_task *task = spare_task(domain);
    if (!task) {
        int answer = new_task(domain, &task);
        if (answer)
            return answer;
    }
    /* Signals that were raised of its number before are none of its own. */
    sugwelan_call(task->handle, &call, &told);
    atomic_fetch_add(&domain->users, 1);
    end(task);
    *out = task;
    return 0;
}

int sugwelan_task_new(struct sugwelan_task **out)
{
    struct sugwelan_domain *domain;
    if (!out)
        return -EINVAL;
    int answer = sugwelan_domain_new(&domain);
    if (answer)
        return answer;
    answer = sugwelan_domain_task(domain, out);
    sugwelan_domain_free(domain);
    return answer;
}

int sugwelan_task_fork(struct sugwelan_task *task, struct sugwelan_task **out)
{
    return sugwelan_domain_task(sugwelan_task_domain(task), out);
}

int sugwelan_task_free(struct sugwelan_task *task)
{
    int answer = begin(task);
    if (answer)
        return answer;
    if (task->kept) {
        end(task);
        return -ENOTEMPTY;
    }
    struct sugwelan_domain *domain = task->domain;
    pthread_mutex_lock(&domain->lock);
    task->next = domain->spare;
    domain->spare = task;
    pthread_mutex_unlock(&domain->lock);
    let_go(domain);
    return 0;
}

struct sugwelan_domain *sugwelan_task_domain(struct sugwelan_task *task)
{
    return task ? task->domain : NULL;
}

int sugwelan_task_number(struct sugwelan_task *task)
{
    return task ? (int)task->number : -EBADF;
}

int sugwelan_wait_event(struct sugwelan_task *task, uint32_t condition, enum sugwelan_state state)
{
    return waits(by_task(task), (struct sugwelan_call){SUGWELAN_WAIT_EVENT, condition, state, false, 0});
}

int sugwelan_wait_event_timeout(struct sugwelan_task *task, uint32_t condition, enum sugwelan_state state,
                                uint64_t nanoseconds)
{
    return waits(by_task_within(task, nanoseconds),
                 (struct sugwelan_call){SUGWELAN_WAIT_EVENT, condition, state, false, 0});
}

int sugwelan_wait_event_exclusive(struct sugwelan_task *task, uint32_t condition, enum sugwelan_state state)
{
    return waits(by_task(task), (struct sugwelan_call){SUGWELAN_WAIT_EVENT, condition, state, true, 0});
}

int sugwelan_wait_event_exclusive_timeout(struct sugwelan_task *task, uint32_t condition, enum sugwelan_state state,
                                          uint64_t nanoseconds)
{
    return waits(by_task_within(task, nanoseconds),
                 (struct sugwelan_call){SUGWELAN_WAIT_EVENT, condition, state, true, 0});
}

int sugwelan_swait_event(struct sugwelan_task *task, uint32_t condition, enum sugwelan_state state)
{
    return waits(by_task(task), (struct sugwelan_call){SUGWELAN_SWAIT_EVENT, condition, state, 0, 0});
}

int sugwelan_swait_event_timeout(struct sugwelan_task *task, uint32_t condition, enum sugwelan_state state,
                                 uint64_t nanoseconds)
{
    return waits(by_task_within(task, nanoseconds),
                 (struct sugwelan_call){SUGWELAN_SWAIT_EVENT, condition, state, 0, 0});
}

int sugwelan_wake_up(struct sugwelan_task *task, uint32_t condition, enum sugwelan_mode mode, uint32_t count,
                     struct sugwelan_walked *walked)
{
    return wakes(by_task(task), (struct sugwelan_call){SUGWELAN_WAKE_UP, condition, mode, count, 0}, walked);
}

int sugwelan_set_and_wake(struct sugwelan_task *task, uint32_t condition, uint64_t value, uint32_t count,
                          struct sugwelan_walked *walked)
{
    return wakes(by_task(task), (struct sugwelan_call){SUGWELAN_SET_AND_WAKE, condition, 0, count, value}, walked);
}

int sugwelan_take_condition(struct sugwelan_task *task, uint32_t condition, uint64_t *value)
{
    return finds(by_task(task), (struct sugwelan_call){SUGWELAN_TAKE_CONDITION, condition, 0, 0, 0}, value);
}

int sugwelan_set_and_swake_one(struct sugwelan_task *task, uint32_t condition, uint64_t value, uint32_t *selected)
{
    return selects(by_task(task), (struct sugwelan_call){SUGWELAN_SET_AND_SWAKE, condition, false, 0, value}, selected);
}

int sugwelan_set_and_swake_all(struct sugwelan_task *task, uint32_t condition, uint64_t value, uint32_t *selected)
{
    return selects(by_task(task), (struct sugwelan_call){SUGWELAN_SET_AND_SWAKE, condition, true, 0, value}, selected);
}

int sugwelan_swake_up_one(struct sugwelan_task *task, uint32_t condition, uint32_t *selected)
{
    return selects(by_task(task), (struct sugwelan_call){SUGWELAN_SWAKE_UP_ONE, condition, 0, 0, 0}, selected);
}

int sugwelan_swake_up_all(struct sugwelan_task *task, uint32_t condition, uint32_t *selected)
{
    return selects(by_task(task), (struct sugwelan_call){SUGWELAN_SWAKE_UP_ALL, condition, 0, 0, 0}, selected);
}

int sugwelan_wait_var_event(struct sugwelan_task *task, uint32_t variable, uint64_t old, enum sugwelan_state state,
                            uint64_t *found)
{
    return finds(by_task(task), (struct sugwelan_call){SUGWELAN_WAIT_VAR_EVENT, variable, state, 0, old}, found);
}

int sugwelan_wait_var_event_timeout(struct sugwelan_task *task, uint32_t variable, uint64_t old,
                                    enum sugwelan_state state, uint64_t nanoseconds, uint64_t *found)
{
    return finds(by_task_within(task, nanoseconds),
                 (struct sugwelan_call){SUGWELAN_WAIT_VAR_EVENT, variable, state, 0, old}, found);
}

int sugwelan_publish_var_and_wake(struct sugwelan_task *task, uint32_t variable, uint64_t value,
                                  struct sugwelan_walked *walked)
{
    return wakes(by_task(task), (struct sugwelan_call){SUGWELAN_PUBLISH_VAR_AND_WAKE, variable, 0, 0, value}, walked);
}

int sugwelan_wait_on_bit(struct sugwelan_task *task, uint32_t word, uint32_t bit, enum sugwelan_state state)
{
    return waits(by_task(task), (struct sugwelan_call){SUGWELAN_WAIT_ON_BIT, word, bit, state, 0});
}

int sugwelan_wait_on_bit_timeout(struct sugwelan_task *task, uint32_t word, uint32_t bit, enum sugwelan_state state,
                                 uint64_t nanoseconds)
{
    return waits(by_task_within(task, nanoseconds),
                 (struct sugwelan_call){SUGWELAN_WAIT_ON_BIT, word, bit, state, 0});
}

int sugwelan_wait_on_bit_lock(struct sugwelan_task *task, uint32_t word, uint32_t bit, enum sugwelan_state state)
{
    return waits(by_task(task), (struct sugwelan_call){SUGWELAN_WAIT_ON_BIT_LOCK, word, bit, state, 0});
}

int sugwelan_wait_on_bit_lock_timeout(struct sugwelan_task *task, uint32_t word, uint32_t bit,
                                      enum sugwelan_state state, uint64_t nanoseconds)
{
    return waits(by_task_within(task, nanoseconds),
                 (struct sugwelan_call){SUGWELAN_WAIT_ON_BIT_LOCK, word, bit, state, 0});
}

int sugwelan_trylock_bit(struct sugwelan_task *task, uint32_t word, uint32_t bit)
{
    return tells(by_task(task), (struct sugwelan_call){SUGWELAN_TRYLOCK_BIT, word, bit, 0, 0});
}

int sugwelan_clear_and_wake_up_bit(struct sugwelan_task *task, uint32_t word, uint32_t bit,
                                   struct sugwelan_walked *walked)
{
    return wakes(by_task(task), (struct sugwelan_call){SUGWELAN_CLEAR_AND_WAKE_UP_BIT, word, bit, 0, 0}, walked);
}

int sugwelan_lock_page(struct sugwelan_task *task, uint32_t page, enum sugwelan_state state)
{
    return waits(by_task(task), (struct sugwelan_call){SUGWELAN_LOCK_PAGE, page, state, 0, 0});
}

int sugwelan_lock_page_timeout(struct sugwelan_task *task, uint32_t page, enum sugwelan_state state,
                               uint64_t nanoseconds)
{
    return waits(by_task_within(task, nanoseconds), (struct sugwelan_call){SUGWELAN_LOCK_PAGE, page, state, 0, 0});
}

int sugwelan_trylock_page(struct sugwelan_task *task, uint32_t page)
{
    return tells(by_task(task), (struct sugwelan_call){SUGWELAN_TRYLOCK_PAGE, page, 0, 0, 0});
}

int sugwelan_unlock_page(struct sugwelan_task *task, uint32_t page, struct sugwelan_walked *walked)
{
    return wakes(by_task(task), (struct sugwelan_call){SUGWELAN_UNLOCK_PAGE, page, 0, 0, 0}, walked);
}

int sugwelan_add_tally(struct sugwelan_task *task, uint32_t page, uint64_t amount, uint64_t *before)
{
    return finds(by_task(task), (struct sugwelan_call){SUGWELAN_ADD_TALLY, page, 0, 0, amount}, before);
}

int sugwelan_wait_for_completion(struct sugwelan_task *task, uint32_t completion, enum sugwelan_state state)
{
    return waits(by_task(task), (struct sugwelan_call){SUGWELAN_WAIT_FOR_COMPLETION, completion, state, 0, 0});
}

int sugwelan_wait_for_completion_timeout(struct sugwelan_task *task, uint32_t completion, enum sugwelan_state state,
                                         uint64_t nanoseconds)
{
    return waits(by_task_within(task, nanoseconds),
                 (struct sugwelan_call){SUGWELAN_WAIT_FOR_COMPLETION, completion, state, 0, 0});
}

int sugwelan_complete(struct sugwelan_task *task, uint32_t completion)
{
    return waits(by_task(task), (struct sugwelan_call){SUGWELAN_COMPLETE, completion, 0, 0, 0});
}

int sugwelan_complete_all(struct sugwelan_task *task, uint32_t completion)
{
    return waits(by_task(task), (struct sugwelan_call){SUGWELAN_COMPLETE_ALL, completion, 0, 0, 0});
}

int sugwelan_reinit_completion(struct sugwelan_task *task, uint32_t completion)
{
    return waits(by_task(task), (struct sugwelan_call){SUGWELAN_REINIT_COMPLETION, completion, 0, 0, 0});
}

int sugwelan_try_wait_for_completion(struct sugwelan_task *task, uint32_t completion)
{
    return tells(by_task(task), (struct sugwelan_call){SUGWELAN_TRY_WAIT_FOR_COMPLETION, completion, 0, 0, 0});
}

int sugwelan_completion_done(struct sugwelan_task *task, uint32_t completion)
{
    return tells(by_task(task), (struct sugwelan_call){SUGWELAN_COMPLETION_DONE, completion, 0, 0, 0});
}

int sugwelan_raise_signal(struct sugwelan_task *task, uint32_t number, int fatal)
{
    return waits(by_task(task), (struct sugwelan_call){SUGWELAN_RAISE_SIGNAL, number, fatal != 0, 0, 0});
}

int sugwelan_wake_up_process(struct sugwelan_task *task, uint32_t number)
{
    return tells(by_task(task), (struct sugwelan_call){SUGWELAN_WAKE_UP_PROCESS, number, 0, 0, 0});
}

int sugwelan_take_signal(struct sugwelan_task *task)
{
    return tells(by_task(task), (struct sugwelan_call){SUGWELAN_TAKE_SIGNAL, 0, 0, 0, 0});
}

/* Both calls are over at once, and no other one of the task comes between them. */
int sugwelan_signal_pending(struct sugwelan_task *task)
{
    struct sugwelan_told told;
    struct sugwelan_call call = {.kind = SUGWELAN_TAKE_SIGNAL};
    int answer = begin(task);
    if (answer)
        return answer;
    answer = served(task->domain, task->handle, task->number, NULL, &call, &told);
    uint64_t signal = answer ? 0 : told.value;
    if (signal) {
        call = (struct sugwelan_call){SUGWELAN_RAISE_SIGNAL, task->number, signal == 2, 0, 0};
        answer = served(task->domain, task->handle, task->number, NULL, &call, &told);
    }
    end(task);
    return answer ? answer : (int)signal;
}

int sugwelan_domain_raise_signal(struct sugwelan_domain *domain, uint32_t number, int fatal)
{
    return waits(by_domain(domain), (struct sugwelan_call){SUGWELAN_RAISE_SIGNAL, number, fatal != 0, 0, 0});
}

int sugwelan_domain_wake_up_process(struct sugwelan_domain *domain, uint32_t number)
{
    return tells(by_domain(domain), (struct sugwelan_call){SUGWELAN_WAKE_UP_PROCESS, number, 0, 0, 0});
}

int sugwelan_domain_wake_up(struct sugwelan_domain *domain, uint32_t condition, enum sugwelan_mode mode, uint32_t count,
                            struct sugwelan_walked *walked)
{
    return wakes(by_domain(domain), (struct sugwelan_call){SUGWELAN_WAKE_UP, condition, mode, count, 0}, walked);
}

int sugwelan_domain_set_and_wake(struct sugwelan_domain *domain, uint32_t condition, uint64_t value, uint32_t count,
                                 struct sugwelan_walked *walked)
{
    return wakes(by_domain(domain), (struct sugwelan_call){SUGWELAN_SET_AND_WAKE, condition, 0, count, value}, walked);
}

int sugwelan_domain_set_and_swake_one(struct sugwelan_domain *domain, uint32_t condition, uint64_t value,
                                      uint32_t *selected)
{
    return selects(by_domain(domain), (struct sugwelan_call){SUGWELAN_SET_AND_SWAKE, condition, false, 0, value},
                   selected);
}

int sugwelan_domain_set_and_swake_all(struct sugwelan_domain *domain, uint32_t condition, uint64_t value,
                                      uint32_t *selected)
{
    return selects(by_domain(domain), (struct sugwelan_call){SUGWELAN_SET_AND_SWAKE, condition, true, 0, value},
                   selected);
}

int sugwelan_domain_swake_up_one(struct sugwelan_domain *domain, uint32_t condition, uint32_t *selected)
{
    return selects(by_domain(domain), (struct sugwelan_call){SUGWELAN_SWAKE_UP_ONE, condition, 0, 0, 0}, selected);
}

int sugwelan_domain_swake_up_all(struct sugwelan_domain *domain, uint32_t condition, uint32_t *selected)
{
    return selects(by_domain(domain), (struct sugwelan_call){SUGWELAN_SWAKE_UP_ALL, condition, 0, 0, 0}, selected);
}

int sugwelan_domain_publish_var_and_wake(struct sugwelan_domain *domain, uint32_t variable, uint64_t value,
                                         struct sugwelan_walked *walked)
{
    return wakes(by_domain(domain), (struct sugwelan_call){SUGWELAN_PUBLISH_VAR_AND_WAKE, variable, 0, 0, value},
                 walked);
}

int sugwelan_domain_complete(struct sugwelan_domain *domain, uint32_t completion)
{
    return waits(by_domain(domain), (struct sugwelan_call){SUGWELAN_COMPLETE, completion, 0, 0, 0});
}

int sugwelan_domain_complete_all(struct sugwelan_domain *domain, uint32_t completion)
{
    return waits(by_domain(domain), (struct sugwelan_call){SUGWELAN_COMPLETE_ALL, completion, 0, 0, 0});
}
