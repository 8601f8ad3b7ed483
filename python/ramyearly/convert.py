"""Turns the tables of a folder from text into bytes and back, and a site with tasks into one with jobs."""

import os

from . import tables
from .errors import TableError
from .files import write_files


def encode(folder, out):
    """Writes the .tbl form of each table that has a text form. Nothing is written where one has an error."""
    tables.work_table(folder)
    sources = [(table, tables.text_file(folder, table)) for table in tables.with_level_lists(tables.SITE_TABLES, folder)]
    made = [(table, tables.to_bytes(tables.read_text(path, table)[0], table)) for table, path in sources if path]
    if not made:
        names = ", ".join(table.name + ending for table in tables.SITE_TABLES for ending in tables.TEXT_ENDINGS)
        raise TableError(f"{folder}: no table in text ({names})")
    write_tables(made, out)


def write_tables(made, out):
    """Writes tables in bytes, given as (table, bytes), to a folder."""
    check_places(out, [table for table, _ in made])
    write_files([(tables.path_of(out, table), data) for table, data in made])


def check_places(out, written):
    """A job list is not written beside a task list, nor a task list beside a job list."""
    for table in written:
        other = tables.IN_PLACE_OF.get(table)
        there = other and tables.any_file(out, other)
        if there:
            raise TableError(f"{there}: is there already, and a {table.entry} list does not stand beside a {other.entry} list")


def decode(folder, csv):
    """The text of each table that is there in bytes, as (table, text)."""
    paths = {table: tables.path_of(folder, table) for table in tables.with_level_lists(tables.ALL_TABLES, folder)}
    paths = {table: path for table, path in paths.items() if os.path.exists(path)}
    tables.check_one_list(paths.get(tables.TASKS), paths.get(tables.JOBS))
    made = []
    for table, path in paths.items():
        with open(path, "rb") as file:
            data = file.read()
        if table is tables.MARKS and not data:
            data = tables.NO_MARKS
        sizes, entries = tables.from_bytes(data, table, path)
        made.append((table, tables.to_text(sizes, entries, table, csv)))
    if not made:
        names = ", ".join(table.name + ".tbl" for table in tables.ALL_TABLES)
        raise TableError(f"{folder}: no table in bytes ({names})")
    return made


def write_decoded(made, out, csv):
    """Writes decoded tables to a folder. A text form that is there stays as it is."""
    for table, _ in made:
        there = tables.text_file(out, table)
        if there:
            raise TableError(f"{there}: is there already, and is not written over")
    check_places(out, [table for table, _ in made])
    ending = ".csv" if csv else ".txt"
    write_files([(tables.path_of(out, table, ending), text.encode()) for table, text in made])


def write_laid_out(site, out):
    """Writes the tables of a site whose jobs are laid out, as far as they could be read. Marks are ticks of one round.

    Where the site has no marks, a marks.tbl that is there already is written as one without marks: it was of another site.
    """
    replaced = [tables.MARKS] if os.path.isfile(tables.path_of(out, tables.MARKS)) else []
    sources = [(table, site.sources[table]) for table in tables.LENT_TO_PLAN]
    write_tables([(table, source.data) for table, source in sources if not source.trouble or table in replaced], out)
