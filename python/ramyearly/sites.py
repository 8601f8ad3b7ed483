"""A site's folder: its tables as bytes, each with the file and the lines that they came from.

A task list may stand in place of the job list. The archive lays it out, and the jobs that come out are the site's. A mark
list may stand beside either, and a site without one has no marks. The parameters of a site stand in no file: they are given with
the folder.
"""

import contextlib
import os
from typing import NamedTuple

from . import operations, tables
from .calls import altered_jobs, altered_levels
from .errors import SiteError, TableError
from .parameters import UNALTERED, Parameters
from .reasons import listed, ticks
from .refusals import Overfull, Refused
from .terminal import NAME


class Source(NamedTuple):
    """A table's bytes and where they came from."""

    path: str
    data: bytes
    lines: list = None  # where the file is text, the line of each entry
    trouble: str = None  # why the file can't be read, and counts as empty; or why it means no marks
    tasks: list = None  # where jobs were laid out from tasks, the task of each
    given: bytes = None  # where parameters have altered the bytes, those that came from the file

    def file_data(self):
        """The bytes that came from the file."""
        return self.data if self.given is None else self.given

    def altered_columns(self, table):
        """The names of the columns that parameters have altered, and what each entry has there as it was given."""
        entries, given = tables.entries_of(self.data, table), tables.entries_of(self.file_data(), table)
        places = [place for place, values in enumerate(zip(zip(*entries), zip(*given))) if values[0] != values[1]]
        names = [table.columns()[place][0] for place in places]
        return names, [[entry[place] for place in places] for entry in given]

    def altered_to(self, data):
        """The source with these bytes, which parameters have made of its own."""
        return self if data == self.data else self._replace(data=data, given=self.data)


class Site(NamedTuple):
    """What a folder holds. The sources go by table."""

    folder: str
    sources: dict
    multiple: int = None  # where its jobs were laid out from tasks, the ticks after which they repeat
    parameters: Parameters = UNALTERED

    def data(self, table):
        return self.sources[table].data

    def arguments(self, lent):
        """The bytes of these tables and the parameters, as the operations take them."""
        return [*map(self.data, lent), self.parameters]

    def altered(self):
        """The site with the tables that its parameters make of its own. These have no fault, and neither have the parameters."""
        by_parameters = {tables.LEVELS: altered_levels, tables.JOBS: altered_jobs}
        kinds = [table for table in by_parameters if table in self.sources]
        changed = {table: by_parameters[table](self.data(table), self.parameters) for table in kinds}
        return self.adding({table: self.sources[table].altered_to(data) for table, data in changed.items()})

    def files(self):
        """The sources that are files of their own. A mark list that is missing is none."""
        return {
            table: source
            for table, source in self.sources.items()
            if source.tasks is None and not (table is tables.MARKS and is_missing(source))
        }

    def adding(self, sources):
        return self._replace(sources={**self.sources, **sources})

    def counts(self):
        """How many jobs there are and, where there are any, how many marks."""
        jobs, marks = (tables.sizes_of(self.data(table), table)[0] for table in (tables.JOBS, tables.MARKS))
        return f"jobs {jobs}" + (f", marks {marks}" if marks else "")

    def remarks(self):
        """What is said behind the figures of a site with tasks or with parameters."""
        repeats = "" if self.multiple is None else f", repeats every {ticks(self.multiple)}"
        return repeats + self.parameters.said(self.level_data())

    def level_data(self):
        """The level table that came from the file, or no bytes where levels have no part in what is asked."""
        return self.sources[tables.LEVELS].file_data() if tables.LEVELS in self.sources else b""


def alterations(parameters, levels):
    """What parameters do to tables with these levels, as a sentence; nothing where they alter nothing."""
    highest, free, margin = parameters
    words = {
        "highest": "only the lowest " + ("running level is" if highest == 1 else f"{highest} running levels are") + " allowed",
        "free": f"{ticks(free)} {'is' if free == 1 else 'are'} kept free before each deadline",
        "margin": f"each job's cycles have a margin of {margin} percent, rounded up",
    }
    found = [words[name] for name in parameters.altering(levels)]
    return f"{listed(found).capitalize()}." if found else ""


def read_site(folder, parameters=UNALTERED):
    """The tables of a site. Text that is no table is an error; bytes of any content are not."""
    return read_levels_and_work(folder, parameters).adding({tables.MARKS: read_marks(folder)})


def read_levels_and_work(folder, parameters=UNALTERED):
    """The levels of a site and its jobs or its tasks, without marks."""
    sources = {table: read_source(folder, table) for table in (tables.LEVELS, tables.work_table(folder))}
    if all(map(is_missing, sources.values())):
        names = "jobs.txt or tasks.txt, levels.txt"
        raise SiteError(f"{folder}: no job list, no task list and no level list ({names}; --help says more)")
    return Site(folder, sources, parameters=parameters)


def is_missing(source):
    return source.trouble and not os.path.lexists(source.path)


def read_planned(folder, parameters=UNALTERED):
    """The jobs or the tasks of a site, its marks and its plan, without levels. A site that has no plan is to be planned
    first."""
    work = tables.work_table(folder)
    sources = {work: read_source(folder, work), tables.PLAN: read_bytes(folder, tables.PLAN)}
    if is_missing(sources[work]):
        raise SiteError(f"{folder}: no job list and no task list (jobs.txt or tasks.txt; --help says more)")
    if is_missing(sources[tables.PLAN]):
        raise SiteError(f"{sources[tables.PLAN].path}: there is no plan; plan first ({NAME} plan {folder})")
    return Site(folder, {**sources, tables.MARKS: read_marks(folder)}, parameters=parameters)


def read_work(folder, parameters=UNALTERED):
    """The jobs or the tasks of a site and its marks, which are the same for all boards."""
    work = tables.work_table(folder)
    return Site(folder, {work: read_source(folder, work), tables.MARKS: read_marks(folder)}, parameters=parameters)


def read_plan(site):
    """The site with the plan and the price list that stand beside its tables."""
    return site.adding({table: read_bytes(site.folder, table) for table in tables.PLAN_TABLES})


def read_plan_by_hand(site):
    """The site with a plan that people may have written: as with the other tables, its text is read before its bytes."""
    source = read_source(site.folder, tables.PLAN)
    if is_missing(source):
        form = "a line of plan.txt is a step: interval, job, cycles"
        raise SiteError(f"{site.folder}: no plan (plan.txt, plan.csv or plan.tbl); {form} (--help says more)")
    return site.adding({tables.PLAN: source})


def with_intervals(site):
    """The site with the number of its intervals in a plan that was read from text. A plan in bytes has its own, right or wrong.
    What is wrong with the site's tables is refused."""
    source = site.sources[tables.PLAN]
    if source.lines is None:
        return site
    spans = operations.spans_of_tables(*site.arguments(tables.LENT_TO_PLAN))
    entries = tables.entries_of(source.data, tables.PLAN)
    return site.adding({tables.PLAN: source._replace(data=tables.to_bytes(entries, tables.PLAN, sizes=(len(spans),)))})


def lay_out(site):
    """The site with its jobs: where it has tasks, those of one round. They are said to be in the lines of their tasks."""
    if tables.TASKS not in site.sources:
        return site
    source = site.sources[tables.TASKS]
    rounds = operations.rounds_of(source.data)
    lines = None if source.lines is None else [source.lines[task] for task in rounds.tasks]
    jobs = Source(source.path, rounds.job_bytes, lines=lines, tasks=rounds.tasks)
    return site.adding({tables.JOBS: jobs})._replace(multiple=rounds.multiple)


def read_source(folder, table):
    """A table from its text where there is one: people edit the text, and the bytes are made from it."""
    path = tables.text_file(folder, table)
    if path is None:
        return read_bytes(folder, table)
    try:
        entries, lines = tables.read_text(path, table)
    except OSError as error:
        raise TableError(f"{path}: {error.strerror}") from None
    # A size that is not the number of entries does not stand in the text, and is 0 until it is known.
    unknown = (0,) * (len(table.sizes) - 1)
    return Source(path, tables.to_bytes(entries, table, sizes=unknown), lines=lines)


def read_bytes(folder, table):
    """A table in bytes. A file that can't be read counts as empty. Of a file that is too long for any table no more is
    read than shows that."""
    path = tables.path_of(folder, table)
    try:
        with open(path, "rb") as file:
            return Source(path, file.read(table.length(tables.MOST_ENTRIES) + 1))
    except OSError as error:
        return Source(path, b"", trouble=error.strerror)


def read_marks(folder):
    """The marks of a site. A file in bytes that is missing, unreadable or empty means none, as in the listing program."""
    source = read_source(folder, tables.MARKS)
    return source if source.data else source._replace(data=tables.NO_MARKS, trouble=source.trouble or "empty")


def place_in(source, entries):
    """The file, with the lines of these entries where it is text."""
    if source.lines is None or not entries:
        return source.path
    # Several jobs may have come from one task.
    lines = sorted({source.lines[entry] for entry in entries})
    return f"{source.path} line{'s' if len(lines) > 1 else ''} {listed(lines)}"


def entries_of_refusal(refusal, site):
    """What a refusal speaks of: the jobs inside a window, the steps in an interval that has too many cycles, or one entry."""
    if isinstance(refusal, Overfull):
        return refusal.inside
    if refusal.number == 20:
        steps = tables.split_cells(tables.entries_of(site.data(tables.PLAN), tables.PLAN))
        return [number for number, (interval, _, _) in enumerate(steps) if interval == refusal.place]
    return [] if refusal.entry is None else [refusal.entry]


def explain(refusal, site):
    """A refusal as one line, with the file and the lines that it is about, or with the folder where it is about no file."""
    if refusal.table is None:
        return f"{site.folder}: {refusal}"
    source = site.sources[refusal.table]
    entries = entries_of_refusal(refusal, site)
    empty = f"{source.trouble}, so it counts as empty: " if source.trouble else ""
    return f"{place_in(source, entries)}: {empty}{refusal.words} ({refusal.reference()})"


@contextlib.contextmanager
def explained(site):
    """Turns a refusal into the line that explains it."""
    try:
        yield
    except Refused as refusal:
        raise SiteError(explain(refusal, site)) from None
