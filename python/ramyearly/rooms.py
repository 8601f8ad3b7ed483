"""The room of jobs, in words. A job's room is the most cycles that can be added to it alone with all deadlines still met.

What room each job has, and which is nearest to trouble, is the archive's answer: (job, room), the nearest first.
"""

from .reasons import named_jobs

ROOM = "The room of a job is the most cycles that can be added to it alone with all deadlines still met; one more is too many."
OF_OTHERS = "Cycles added to one job may take the room of others."
WITH_MARGIN = "Added cycles come on top of those with the margin, and get no margin themselves."
OF_TASKS = (
    "A longer task has more cycles in each of its jobs, so that with several jobs in a round its room may be less than theirs."
)


def about_room(site):
    """What is said of the room of a site's jobs, sentence by sentence."""
    found = [ROOM, OF_OTHERS]
    if site.parameters.margin:
        found.append(WITH_MARGIN)
    if site.multiple is not None:
        found.append(OF_TASKS)
    return found


def about_nearest(rooms):
    """Which jobs are nearest to trouble, and how many cycles can be added there."""
    if not rooms:
        return "there are no jobs, so none is nearest to trouble"
    least = rooms[0][1]
    jobs = [job for job, room in rooms if room == least]
    nearest = "the job nearest to trouble is" if len(jobs) == 1 else "the jobs nearest to trouble are"
    return f"{nearest} {named_jobs(jobs)}: {about_added(least, several=len(jobs) > 1)}"


def about_added(room, several):
    """What can be added to a job with this room, or to one of several that have it."""
    if room == 0:
        return f"no cycle can be added to {'any of them' if several else 'it'}"
    return f"at most {room:,} cycle{'' if room == 1 else 's'} can be added to {'any one of them' if several else 'it'}"
