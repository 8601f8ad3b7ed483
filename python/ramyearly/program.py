"""The listing of a site, by the proved listing program."""

import subprocess
import tempfile

from . import archive, tables
from .calls import Call, inside
from .errors import Trouble
from .refusals import Overfull, refused


def listing(site):
    """The listing's text, and the refusal that it shows or None."""
    call = Call(*map(site.data, tables.LENT_TO_PLAN))
    text = run(call)
    word, *rest = text.splitlines()[0].split()
    if word == "refused":
        number, place = map(int, rest)
        return text, refused(number, place, call)
    if word == "overfull":
        start, end, spare = map(int, rest)
        return text, Overfull(start, end, spare, inside(call, start, end))
    return text, None


def run(call):
    """What the program prints in a folder with these tables alone."""
    program = archive.listing_program()
    with tempfile.TemporaryDirectory() as folder:
        for table in tables.LENT_TO_PLAN:
            with open(tables.path_of(folder, table), "wb") as file:
                file.write(getattr(call, table.name))
        ended = subprocess.run([program], cwd=folder, stdin=subprocess.DEVNULL, stdout=subprocess.PIPE)
    if ended.returncode or not ended.stdout:
        raise Trouble(f"{program}: the listing program ended with status {ended.returncode} and {len(ended.stdout)} bytes")
    return ended.stdout.decode("ascii")
