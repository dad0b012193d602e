/* Runs the tasks of fenced_tasks.h, which to_starpu.py makes, under StarPU; each does nothing for a while. Prints when which starts and ends. */
#include "fenced_tasks.h"
#include <pthread.h>
#include <stdint.h>
#include <stdio.h>
#include <unistd.h>

static pthread_mutex_t turn = PTHREAD_MUTEX_INITIALIZER;

static void tell(char what, uintptr_t task)
{
    pthread_mutex_lock(&turn);
    printf("%c %lu\n", what, (unsigned long)task);
    pthread_mutex_unlock(&turn);
}

static void work(void *buffers[], void *argument)
{
    uintptr_t task = (uintptr_t)argument;
    (void)buffers;
    tell('S', task);
    usleep(1000 + task * 7919 % 4000);
    tell('E', task);
}

static struct starpu_codelet codelet = {.cpu_funcs = {work}, .nbuffers = 0};

static struct starpu_task *created(uintptr_t task)
{
    struct starpu_task *made = starpu_task_create();
    made->cl = &codelet;
    made->cl_arg = (void *)task;
    return made;
}

int main(void)
{
    struct starpu_task *tasks[MEMPLAN_TASKS];
    if (starpu_init(NULL))
        return 1;
    for (size_t i = 0; i < MEMPLAN_TASKS; i++)
        tasks[i] = created(i + 1);
    if (memplan_fence(tasks))
        return 1;
    for (size_t i = 0; i < MEMPLAN_TASKS; i++)
        if (starpu_task_submit(tasks[i]))
            return 1;
    starpu_task_wait_for_all();
    starpu_shutdown();
    return 0;
}
