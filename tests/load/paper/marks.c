/* Handover marks: refusal 34, and which of them are bounds. */
#include "paper.h"

/* The ticks may be any 32-bit numbers. */
struct paper_refusal paper_read_marks(struct paper_bytes bytes, struct paper_marks *marks)
{
    if (bytes.length < 2)
        return paper_refuse(34, 0);
    unsigned count = paper_number(bytes, 0, 2);
    if (count > PAPER_MARKS || bytes.length != 2 + 4 * count)
        return paper_refuse(34, 0);
    marks->count = count;
    for (unsigned i = 0; i < count; i++) {
        marks->tick[i] = paper_number(bytes, 2 + 4 * i, 4);
        if (i > 0 && marks->tick[i - 1] >= marks->tick[i])
            return paper_refuse(34, 0);
    }
    return paper_refuse(0, 0);
}

/* Strictly between earliest release and latest deadline: some job is released before it, and some deadline is after it. */
bool paper_mark_is_bound(const struct paper_jobs *jobs, uint32_t tick)
{
    bool after_release = false, before_deadline = false;
    for (unsigned j = 0; j < jobs->count; j++) {
        after_release = after_release || jobs->release[j] < tick;
        before_deadline = before_deadline || tick < jobs->deadline[j];
    }
    return after_release && before_deadline;
}
