/* The jobs of tasks over one round: refusals 28 to 30, and 12 for a short job buffer. */
#include <stdlib.h>

#include "paper.h"

/* The sum is taken in 64 bits. */
static bool task_fault(const struct paper_tasks *tasks, unsigned i)
{
    if (tasks->period[i] == 0 || tasks->deadline[i] == 0)
        return true;
    if ((uint64_t)tasks->phase[i] + tasks->deadline[i] > tasks->period[i])
        return true;
    return tasks->cycles[i] < 1 || tasks->cycles[i] > PAPER_CYCLES;
}

struct paper_refusal paper_read_tasks(struct paper_bytes bytes, struct paper_tasks *tasks)
{
    if (bytes.length < 2)
        return paper_refuse(28, 0);
    unsigned count = paper_number(bytes, 0, 2);
    if (count > PAPER_TASKS || bytes.length != 2 + 16 * count)
        return paper_refuse(28, 0);
    tasks->count = count;
    for (unsigned i = 0; i < count; i++) {
        tasks->phase[i] = paper_number(bytes, 2 + 8 * i, 4);
        tasks->period[i] = paper_number(bytes, 2 + 8 * i + 4, 4);
        tasks->deadline[i] = paper_number(bytes, 2 + 8 * count + 8 * i, 4);
        tasks->cycles[i] = paper_number(bytes, 2 + 8 * count + 8 * i + 4, 4);
        if (task_fault(tasks, i))
            return paper_refuse(28, i);
    }
    return paper_refuse(0, 0);
}

static bool all_divide(const struct paper_tasks *tasks, uint64_t number)
{
    for (unsigned i = 0; i < tasks->count; i++)
        if (number % tasks->period[i] != 0)
            return false;
    return true;
}

/* The least number that every period divides, or 0 where it is above 1,000,000. It is one of the multiples of the longest
 * period, and they are tried from the first on. */
uint32_t paper_multiple(const struct paper_tasks *tasks)
{
    uint64_t longest = 1;
    for (unsigned i = 0; i < tasks->count; i++)
        if (tasks->period[i] > longest)
            longest = tasks->period[i];
    for (uint64_t number = longest; number <= PAPER_TIME; number += longest)
        if (all_divide(tasks, number))
            return (uint32_t)number;
    return 0;
}

/* A job, with the number of its task. */
struct released {
    uint64_t release;
    unsigned task;
};

/* All jobs that are released before the end, task after task. False where they are more than 64. */
static bool release_all(const struct paper_tasks *tasks, uint64_t end, struct released *released, unsigned *count)
{
    *count = 0;
    for (unsigned i = 0; i < tasks->count; i++)
        for (uint64_t release = tasks->phase[i]; release < end; release += tasks->period[i]) {
            if (*count == PAPER_JOBS)
                return false;
            released[(*count)++] = (struct released) { release, i };
        }
    return true;
}

static int by_release_and_task(const void *a, const void *b)
{
    const struct released *x = a, *y = b;
    if (x->release != y->release)
        return x->release < y->release ? -1 : 1;
    return (x->task > y->task) - (x->task < y->task);
}

static void sort_jobs(const struct paper_tasks *tasks, struct released *released, unsigned count, struct paper_jobs *jobs)
{
    if (count > 0)
        qsort(released, count, sizeof *released, by_release_and_task);
    jobs->count = count;
    for (unsigned j = 0; j < count; j++) {
        unsigned task = released[j].task;
        jobs->release[j] = (uint32_t)released[j].release;
        jobs->deadline[j] = (uint32_t)released[j].release + tasks->deadline[task];
        jobs->cycles[j] = tasks->cycles[task];
    }
}

/* Number 0: the jobs are those whose table must be written. */
struct ramyearly_rounds_answer paper_rounds(struct paper_bytes tasks_bytes, size_t jobs_length, struct paper_jobs *jobs)
{
    struct paper_tasks tasks;
    struct released released[PAPER_JOBS];
    unsigned count;
    struct paper_refusal refusal = paper_read_tasks(tasks_bytes, &tasks);
    if (refusal.number)
        return (struct ramyearly_rounds_answer) { .number = refusal.number, .place = refusal.place };
    uint32_t multiple = paper_multiple(&tasks);
    if (multiple == 0)
        return (struct ramyearly_rounds_answer) { .number = 29 };
    if (!release_all(&tasks, multiple, released, &count))
        return (struct ramyearly_rounds_answer) { .number = 30 };
    uint32_t length = 2 + 12 * count;
    if (jobs_length < length)
        return (struct ramyearly_rounds_answer) { .number = 12, .place = length };
    sort_jobs(&tasks, released, count, jobs);
    return (struct ramyearly_rounds_answer) { .length = length, .multiple = multiple };
}
