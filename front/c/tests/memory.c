/* Each allocation fails in turn: the call says so, and leaves nothing behind. The program is linked so that the
 * functions here stand in place of those of memory. */
#include "../sugwelan.h"
#include "expect.h"
#include <stddef.h>

/* After how many allocations one fails; below 0 none does. */
static int until = -1;

static int fails(void)
{
    return until >= 0 && until-- == 0;
}

void *__real_malloc(size_t size);
void *__real_calloc(size_t count, size_t size);
void *__real_realloc(void *block, size_t size);
void *__real_aligned_alloc(size_t alignment, size_t size);
void *__wrap_malloc(size_t size);
void *__wrap_calloc(size_t count, size_t size);
void *__wrap_realloc(void *block, size_t size);
void *__wrap_aligned_alloc(size_t alignment, size_t size);

void *__wrap_malloc(size_t size)
{
    return fails() ? NULL : __real_malloc(size);
}

void *__wrap_calloc(size_t count, size_t size)
{
    return fails() ? NULL : __real_calloc(count, size);
}

void *__wrap_realloc(void *block, size_t size)
{
    return fails() ? NULL : __real_realloc(block, size);
}

void *__wrap_aligned_alloc(size_t alignment, size_t size)
{
    return fails() ? NULL : __real_aligned_alloc(alignment, size);
}

/* Makes a Domain with memory for so many allocations: whether that sufficed. */
static int makes(int memory, struct sugwelan_task **out)
{
    until = memory;
    int answer = sugwelan_task_new(out);
    until = -1;
    EXPECT(answer, answer ? -ENOMEM : 0);
    return answer == 0;
}

/* The same of a further task. */
static int forks(int memory, struct sugwelan_task *task, struct sugwelan_task **out)
{
    until = memory;
    int answer = sugwelan_task_fork(task, out);
    until = -1;
    EXPECT(answer, answer ? -ENOMEM : 0);
    return answer == 0;
}

int main(void)
{
    struct sugwelan_task *first, *second;
    int memory = 0, more = 0;
    alarm(PATIENCE);
    while (!makes(memory, &first))
        memory++;
    while (!forks(more, first, &second))
        more++;
    EXPECT(memory > 1, 1);
    EXPECT(more > 0, 1);
    EXPECT(sugwelan_set_and_wake(first, 0, 1, 0, NULL), 0);
    until = 0;
    EXPECT(sugwelan_wait_event(second, 0, SUGWELAN_UNINTERRUPTIBLE), 0);
    EXPECT(sugwelan_lock_page(second, 0, SUGWELAN_UNINTERRUPTIBLE), 0);
    EXPECT(sugwelan_unlock_page(second, 0, NULL), 0);
    until = -1;
    EXPECT(sugwelan_task_free(first), 0);
    EXPECT(sugwelan_task_free(second), 0);
    return finish("memory");
}
