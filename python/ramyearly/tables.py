"""A site's tables in text and in bytes.

A site is a folder. In text its tables are jobs.txt or jobs.csv, and levels.txt or
levels.csv; in bytes they are jobs.tbl and levels.tbl. A task list, as tasks.txt,
tasks.csv or tasks.tbl, may stand in place of the job list. A mark list, as marks.txt,
marks.csv or marks.tbl, may stand beside either; a missing one means that there are no
marks, and so does an empty marks.tbl. Where there are several boards, each further one
has a level list levels-NAME.txt, levels-NAME.csv or levels-NAME.tbl.

A line of text is an entry. A job has a release, a deadline and cycles; a task has a
phase, a period, a deadline and cycles; a level has a frequency and a voltage; a mark has
a tick, at which there is a handover. Spaces or commas stand between the numbers. Blank
lines count for nothing, and neither does what follows a '#'. The first line may be the
names of the columns. A number is digits, with '_' between them where that is easier to
read: 1_000_000.

The first entry of a level list may be the idle entry: frequency 0 and, in the place of the voltage, what
idling draws in thousands of power units. With '0 5' idling draws 5,000; without an idle
entry it draws nothing.

A plan that is made by hand is plan.txt or plan.csv. A line is a step: an interval, a job and
cycles, intervals and jobs being numbered from 0. How many intervals there are is not
written: the site's jobs and marks say it. In this form decode prints a plan, and fits reads
one; the other verbs read plan.tbl alone.

Numbers are not compared with the limits of a site: that is the planner's work, and its
refusal names the entry. Only what has no room in the bytes is an error here.
"""

import operator
import os
import re
from typing import NamedTuple

from .errors import TableError

SIZE_BYTES = 2
MOST_ENTRIES = 2 ** (8 * SIZE_BYTES) - 1
JOBS_IN_A_CELL = 64  # a plan's cell is interval × 64 + job
TEXT_ENDINGS = (".txt", ".csv")
ENDINGS = (*TEXT_ENDINGS, ".tbl")
LEVEL_LIST = r"levels(-.+)?"  # what the level list of a board is called, without its ending
NUMBER = r"-?[0-9]+(_[0-9]+)*"
ZERO = r"-?0+(_0+)*"


class Table(NamedTuple):
    """How a table lies in bytes: 16-bit sizes, then parallel arrays, the lowest byte first."""

    name: str  # of the file, without its ending
    entry: str  # what one entry is called
    sizes: tuple  # names of the sizes; the last one counts the entries
    arrays: tuple  # for each array, the columns of its elements, as (name, bits)

    def columns(self):
        return [column for array in self.arrays for column in array]

    def head(self):
        """The bytes that the sizes take."""
        return SIZE_BYTES * len(self.sizes)

    def length(self, count):
        """The bytes that so many entries take."""
        return self.head() + count * sum(bits // 8 for _, bits in self.columns())


LEVELS = Table("levels", "level", ("levels",), ((("frequency", 16),), (("voltage", 16),)))
# The idle entry, with which a level table may begin, has what idling draws in the place of the voltage.
IDLE = LEVELS._replace(entry="first entry of frequency 0", arrays=((("frequency", 16),), (("idle draw", 16),)))
JOBS = Table("jobs", "job", ("jobs",), ((("release", 32), ("deadline", 32)), (("cycles", 32),)))
MARKS = Table("marks", "mark", ("marks",), ((("tick", 32),),))
TASKS = Table("tasks", "task", ("tasks",), ((("phase", 32), ("period", 32)), (("deadline", 32), ("cycles", 32))))
PLAN = Table("plan", "step", ("intervals", "steps"), ((("cell", 16),), (("cycles", 32),)))
PRICES = Table("prices", "interval", ("intervals",), ((("end", 32),), (("price", 8),)))
# A plan with its steps in cell order, beside the plan that it was made from.
ORDERED = PLAN._replace(name="ordered")
# A plan in text: people number intervals and jobs, and a cell has both, in these bits of its 16.
STEPS = PLAN._replace(arrays=((("interval", 10), ("job", 6)), (("cycles", 32),)))

# What stands in place of what: a site has one of the two.
IN_PLACE_OF = {TASKS: JOBS, JOBS: TASKS}
SITE_TABLES = (TASKS, JOBS, MARKS, LEVELS)
PLAN_TABLES = (PLAN, PRICES)
ALL_TABLES = (*SITE_TABLES, *PLAN_TABLES, ORDERED)
# What planning is lent, whether a plan fits, checking and ordering, what touches a span, and the room of jobs, in their order.
LENT_TO_PLAN = (LEVELS, JOBS, MARKS)
LENT_TO_FITS = (LEVELS, JOBS, MARKS, PLAN)
LENT_TO_CHECK = (LEVELS, JOBS, MARKS, PLAN, PRICES)
LENT_TO_TOUCHING = (JOBS, MARKS, PLAN)
LENT_TO_NEAREST = (LEVELS, JOBS)
NO_JOBS = bytes(SIZE_BYTES)  # a job table without jobs
# A mark table without marks. A file of marks without bytes means the same.
NO_MARKS = bytes(SIZE_BYTES)


def named(table, place, is_zero):
    """The table with the names that an entry's columns have there. A level table's first entry is the idle entry where its
    first number is zero; the level lists of further boards differ from the first in name alone."""
    return IDLE if table.entry == LEVELS.entry and place == 0 and is_zero else table


def in_text(table):
    """The table with the columns that its text has. They are those of its bytes but for a plan."""
    return STEPS if table in (PLAN, ORDERED) else table


def has_idle_entry(table, entries):
    return len(entries) > 0 and named(table, 0, entries[0][0] == 0) is IDLE


def first_running(levels):
    """The entry of the first running level, before which the idle entry may stand."""
    return 1 if has_idle_entry(LEVELS, levels) else 0


# Text to entries.


def read_number(word, column, bits):
    """The number that a word says; a ValueError says why it is none."""
    if word == "":
        raise ValueError(f"{column} is empty")
    if not re.fullmatch(NUMBER, word):
        raise ValueError(f"{column} '{word}' is not a whole number")
    # Twenty digits are too many for any column, and Python refuses to read thousands of them.
    digits = word.replace("_", "").lstrip("-0")[:20]
    number = int(digits or "0")
    if number >= 2**bits or (word.startswith("-") and number > 0):
        raise ValueError(f"{column} '{word}' {no_room(bits)}")
    return number


def no_room(bits):
    return f"does not fit in {bits} bits (0 to {2**bits - 1})"


def read_entry(words, table):
    """The numbers of a line's words; a ValueError says why they are no entry."""
    check_width(words, table)
    return tuple(read_number(word, name, bits) for word, (name, bits) in zip(words, table.columns()))


def check_width(entry, table):
    """A ValueError where an entry has more columns than its table, or fewer."""
    columns = table.columns()
    if len(entry) != len(columns):
        names = ", ".join(name for name, _ in columns)
        have = "1 column" if len(entry) == 1 else f"{len(entry)} columns"
        raise ValueError(f"{have}, but a {table.entry} has {len(columns)}: {names}")


def is_header(words, table):
    return [word.lower() for word in words] == [name for name, _ in table.columns()]


def parse_text(text, table, name):
    """The entries of a text, and the line of each. An error names the file and the line."""
    entries, lines = [], []
    first, shown = True, in_text(table)
    for number, line in enumerate(text.split("\n"), start=1):
        line = line.split("#")[0].strip()
        if line == "":
            continue
        words = re.split(r"\s*,\s*|\s+", line)
        header = first and is_header(words, shown)
        first = False
        if header:
            continue
        if len(entries) == MOST_ENTRIES:
            raise TableError(f"{name} line {number}: more than {MOST_ENTRIES} entries do not fit in the count's 16 bits")
        try:
            entries.append(read_entry(words, named(shown, len(entries), re.fullmatch(ZERO, words[0]))))
        except ValueError as error:
            raise TableError(f"{name} line {number}: {error}") from None
        lines.append(number)
    return join_cells(entries) if shown is STEPS else entries, lines


def read_text(path, table):
    """The entries of a text file, with their lines. Spreadsheets put a mark before UTF-8 text, which is passed over."""
    with open(path, "rb") as file:
        data = file.read()
    try:
        text = data.decode("utf-8-sig")
    except UnicodeDecodeError as error:
        line = data.count(b"\n", 0, error.start) + 1
        raise TableError(f"{path} line {line}: this is not text") from None
    return parse_text(text, table, path)


# Entries to bytes and back.


def to_bytes(entries, table, sizes=()):
    """The bytes of a table: its sizes before the number of entries, and the entries. A ValueError names what has no room."""
    counts = (*sizes, len(entries))
    data = bytearray()
    for name, count in zip(table.sizes, counts):
        data += number_bytes(count, name, 8 * SIZE_BYTES)
    start = 0
    for which, array in enumerate(table.arrays):
        for place, entry in enumerate(entries):
            kind = named(table, place, list(entry[:1]) == [0])
            check_width(entry, kind)
            for number, (name, bits) in zip(entry[start:], kind.arrays[which]):
                data += number_bytes(number, name, bits)
        start += len(array)
    return bytes(data)


def number_bytes(number, name, bits):
    return check_room(number, name, bits).to_bytes(bits // 8, "little")


def check_room(number, name, bits):
    """A whole number that fits in so many bits; otherwise a ValueError, or a TypeError for what is no whole number."""
    number = operator.index(number)
    if not 0 <= number < 2**bits:
        raise ValueError(f"{name} {number} {no_room(bits)}")
    return number


def sizes_of(data, table):
    """The sizes that stand at the beginning of a table's bytes, which has them all."""
    return [int.from_bytes(data[at : at + SIZE_BYTES], "little") for at in range(0, table.head(), SIZE_BYTES)]


def count_running(levels):
    """The running levels that a level table in bytes has by its count and its first entry; of a malformed one, any number."""
    count = int.from_bytes(levels[:SIZE_BYTES], "little")
    return max(count - (levels[SIZE_BYTES : 2 * SIZE_BYTES] == bytes(SIZE_BYTES)), 0)


def length_fault(data, table):
    """Why these bytes are no table, as words, or nothing where their length is right."""
    have = "1 byte" if len(data) == 1 else f"{len(data)} bytes"
    if len(data) < table.head():
        return f"{have}, but the sizes alone take {table.head()}"
    count = sizes_of(data, table)[-1]
    if len(data) != table.length(count):
        return f"{have}, but {table.sizes[-1]} number {count}, which takes {table.length(count)}"
    return None


def from_bytes(data, table, name):
    """The sizes and the entries of a table in bytes. An error names the file."""
    fault = length_fault(data, table)
    if fault:
        raise TableError(f"{name}: {fault}")
    sizes = sizes_of(data, table)
    entries = [()] * sizes[-1]
    at = table.head()
    for array in table.arrays:
        for i in range(len(entries)):
            for _, bits in array:
                entries[i] += (int.from_bytes(data[at : at + bits // 8], "little"),)
                at += bits // 8
    return sizes, entries


def entries_of(data, table):
    """The entries of a table in bytes that has no fault in its length."""
    return from_bytes(data, table, table.name)[1]


def split_cells(entries):
    """A plan's steps with the interval and the job of their cells."""
    return [(cell // JOBS_IN_A_CELL, cell % JOBS_IN_A_CELL, cycles) for cell, cycles in entries]


def spans(jobs, prices):
    """From and to of each interval: a price list has the ends, and the first interval begins at the earliest release."""
    ends = [end for end, _ in prices]
    starts = [min(release for release, _, _ in jobs), *ends[:-1]] if ends else []
    return list(zip(starts, ends))


def join_cells(steps):
    """The entries of a plan in bytes, from steps of interval, job and cycles. A ValueError names a job without a cell."""
    for _, job, _ in steps:
        if not 0 <= job < JOBS_IN_A_CELL:
            raise ValueError(f"job {job} has no place in a cell (0 to {JOBS_IN_A_CELL - 1})")
    return [(interval * JOBS_IN_A_CELL + job, cycles) for interval, job, cycles in steps]


# Entries to text.


def to_text(sizes, entries, table, csv=False):
    """The text of a table: its sizes as a comment, what an idle entry has, the names of the columns, the entries."""
    names = [name for name, _ in in_text(table).columns()]
    if in_text(table) is STEPS:
        entries = split_cells(entries)
    said = ", ".join(f"{name} {size}" for name, size in zip(table.sizes, sizes))
    between = "," if csv else " "
    idle = "# the first entry is the idle entry: frequency 0 and the idle draw, in thousands of power units"
    lines = [f"# {said}", *([idle] if has_idle_entry(table, entries) else []), ("" if csv else "# ") + between.join(names)]
    lines += [between.join(str(number) for number in entry) for entry in entries]
    return "\n".join(lines) + "\n"


# The files of a folder.


def path_of(folder, table, ending=".tbl"):
    return os.path.normpath(os.path.join(folder, table.name + ending))


def text_files(folder, table):
    """The paths of a table's text forms that are there."""
    paths = [path_of(folder, table, ending) for ending in TEXT_ENDINGS]
    return [path for path in paths if os.path.exists(path)]


def text_file(folder, table):
    """The path of a table's text form, or None. Two text forms may disagree, so they are an error."""
    found = text_files(folder, table)
    if len(found) > 1:
        raise TableError(f"{found[1]}: {os.path.basename(found[0])} is there too; keep one of them")
    return found[0] if found else None


def any_file(folder, table):
    """The path of the file that a table is read from, its text before its bytes, or None where there is neither."""
    data = path_of(folder, table)
    return text_file(folder, table) or (data if os.path.lexists(data) else None)


def level_lists(folder):
    """A table for each level list of a folder: levels, and then each levels-NAME by name."""
    stems = {stem for stem, ending in map(os.path.splitext, os.listdir(folder)) if ending in ENDINGS}
    return [LEVELS._replace(name=stem) for stem in sorted(stems) if re.fullmatch(LEVEL_LIST, stem, re.DOTALL)]


def with_level_lists(kinds, folder):
    """These tables, with each level list of a folder in place of the one."""
    return [table for kind in kinds for table in (level_lists(folder) if kind is LEVELS else [kind])]


def check_one_list(tasks, jobs):
    """The paths of a task list and of a job list, or None. Both may disagree, so they are an error."""
    if tasks and jobs:
        there = f"{os.path.basename(jobs)} is there too, and a task list stands in place of a job list"
        raise TableError(f"{tasks}: {there}; keep one of them")


def work_table(folder):
    """What says what a site has to run: its tasks or its jobs."""
    tasks = any_file(folder, TASKS)
    check_one_list(tasks, any_file(folder, JOBS))
    return TASKS if tasks else JOBS
