/* A driver hands commands to a device and waits for its interrupts. The device is a thread here, and so is its
 * interrupt. */
#include "../sugwelan.h"
#include <inttypes.h>
#include <pthread.h>
#include <stdio.h>

enum { COMMAND = 0, STATUS = 1, COMMANDS = 3, STOP = 99 };

/* Waits for a condition and takes its value. Another task may have been faster; then it waits again. */
static int claim(struct sugwelan_task *task, uint32_t condition, uint64_t *value)
{
    int answer;
    do {
        answer = sugwelan_wait_event(task, condition, SUGWELAN_KILLABLE);
        if (!answer)
            answer = sugwelan_take_condition(task, condition, value);
    } while (!answer && !*value);
    return answer;
}

/* Hands a command, not 0, to the device, and waits for its interrupt: 0 and the status, or what ended the wait. */
static int transfer(struct sugwelan_task *driver, uint64_t command, uint64_t *status)
{
    int answer = sugwelan_set_and_wake(driver, COMMAND, command, 1, NULL);
    return answer ? answer : claim(driver, STATUS, status);
}

/* The device works on commands until it is stopped, and raises an interrupt after each. */
static void *device(void *task)
{
    uint64_t command = 0;
    while (command != STOP && !claim(task, COMMAND, &command))
        sugwelan_set_and_wake(task, STATUS, command * 10, 1, NULL);
    sugwelan_task_free(task);
    return NULL;
}

int main(void)
{
    struct sugwelan_task *driver, *other;
    pthread_t thread;
    uint64_t status;
    if (sugwelan_task_new(&driver) || sugwelan_task_fork(driver, &other))
        return 1;
    if (pthread_create(&thread, NULL, device, other))
        return 1;
    for (uint64_t command = 1; command <= COMMANDS; command++)
        if (!transfer(driver, command, &status))
            printf("command %" PRIu64 ": status %" PRIu64 "\n", command, status);
    transfer(driver, STOP, &status);
    pthread_join(thread, NULL);
    return sugwelan_task_free(driver) != 0;
}
