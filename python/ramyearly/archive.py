"""The proved archive: the functions of include/ramyearly.h, on bytes.

Nothing is decided here. A call hands its bytes on and gives back the struct that the archive answered.
"""

import ctypes
import functools
import os

from .errors import Trouble
from .parameters import UNALTERED

ROOT = os.path.dirname(os.path.dirname(os.path.dirname(os.path.abspath(__file__))))
# In a release, and in the repository after a build.
LIBRARIES = ("lib/libramyearly.so", "target/lib/libramyearly.so")
PROGRAMS = ("bin/ramyearly-listing", "target/bin/listing")


class CheckAnswer(ctypes.Structure):
    _fields_ = [("number", ctypes.c_uint32), ("place", ctypes.c_uint32), ("energy", ctypes.c_uint64)]


class FitsAnswer(ctypes.Structure):
    _fields_ = CheckAnswer._fields_


class SettingAnswer(ctypes.Structure):
    _fields_ = [
        ("number", ctypes.c_uint32),
        ("place", ctypes.c_uint32),
        ("band", ctypes.c_uint32),
        ("gap", ctypes.c_uint32),
        ("extra", ctypes.c_uint64),
    ]


class SpareAnswer(ctypes.Structure):
    _fields_ = [("number", ctypes.c_uint32), ("place", ctypes.c_uint32), ("spare", ctypes.c_int64)]


class PlanAnswer(ctypes.Structure):
    _fields_ = [
        ("number", ctypes.c_uint32),
        ("place", ctypes.c_uint32),
        ("intervals", ctypes.c_uint32),
        ("steps", ctypes.c_uint32),
        ("energy", ctypes.c_uint64),
        ("start", ctypes.c_uint32),
        ("end", ctypes.c_uint32),
        ("spare", ctypes.c_int64),
    ]


class RoundsAnswer(ctypes.Structure):
    _fields_ = [
        ("number", ctypes.c_uint32),
        ("place", ctypes.c_uint32),
        ("length", ctypes.c_uint32),
        ("multiple", ctypes.c_uint32),
    ]


class OrderAnswer(ctypes.Structure):
    _fields_ = [("number", ctypes.c_uint32), ("place", ctypes.c_uint32), ("length", ctypes.c_uint32)]


class TouchingAnswer(ctypes.Structure):
    _fields_ = [
        ("number", ctypes.c_uint32),
        ("place", ctypes.c_uint32),
        ("open", ctypes.c_uint32),
        ("inside", ctypes.c_uint32),
        ("steps", ctypes.c_uint32),
        ("deadline", ctypes.c_uint32),
    ]


class NearestAnswer(ctypes.Structure):
    _fields_ = [
        ("number", ctypes.c_uint32),
        ("place", ctypes.c_uint32),
        ("start", ctypes.c_uint32),
        ("end", ctypes.c_uint32),
        ("spare", ctypes.c_int64),
        ("length", ctypes.c_uint64),
    ]


TABLE = (ctypes.c_char_p, ctypes.c_size_t)
BUFFER = (ctypes.c_void_p, ctypes.c_size_t)
NUMBER = (ctypes.c_uint32,)
SITE = TABLE * 3 + NUMBER * 3  # levels, jobs, marks and the parameters

# For each function what it answers and what it is lent, as in the header.
FUNCTIONS = {
    "ramyearly_check": (CheckAnswer, SITE + TABLE * 2),
    "ramyearly_fits": (FitsAnswer, SITE + TABLE),
    "ramyearly_setting": (SettingAnswer, TABLE + NUMBER * 2 + (ctypes.c_uint64,)),
    "ramyearly_spare": (SpareAnswer, TABLE * 2 + NUMBER * 5),
    "ramyearly_plan": (PlanAnswer, SITE + BUFFER * 3),
    "ramyearly_rounds": (RoundsAnswer, TABLE + BUFFER),
    "ramyearly_order": (OrderAnswer, SITE + TABLE * 2 + BUFFER),
    "ramyearly_touching": (TouchingAnswer, TABLE * 2 + NUMBER * 2 + TABLE + NUMBER * 2 + BUFFER * 3),
    "ramyearly_nearest": (NearestAnswer, TABLE * 2 + NUMBER * 3 + BUFFER),
}


def find(names):
    """The first of these files that is there, under the folder that the package stands in."""
    for name in names:
        path = os.path.join(ROOT, *name.split("/"))
        if os.path.exists(path):
            return path
    raise Trouble(f"{os.path.basename(names[0])} is missing beside the package: it was not built, or not copied with it")


@functools.cache
def library():
    """The shared object, with its functions' types."""
    path = find(LIBRARIES)
    try:
        loaded = ctypes.CDLL(path)
        for name, (answer, lent) in FUNCTIONS.items():
            function = getattr(loaded, name)
            function.restype, function.argtypes = answer, lent
    except (OSError, AttributeError) as error:
        raise Trouble(f"{path}: {error}") from None
    return loaded


def listing_program():
    """The path of the listing program."""
    return find(PROGRAMS)


def tables(*tables_in_bytes):
    """Pointer and length of each table. The pointer of an empty one is not null either."""
    return [word for data in tables_in_bytes for word in (data, len(data))]


def numbers(levels, parameters):
    """The three numbers for this level table."""
    return parameters.allowed(levels), parameters.free, parameters.margin


def site(levels, jobs, marks, parameters=UNALTERED):
    """What an operation is lent of a site."""
    return [*tables(levels, jobs, marks), *numbers(levels, parameters)]


def check(levels, jobs, marks, plan, prices, parameters=UNALTERED):
    return library().ramyearly_check(*site(levels, jobs, marks, parameters), *tables(plan, prices))


def fits(levels, jobs, marks, plan, parameters=UNALTERED):
    return library().ramyearly_fits(*site(levels, jobs, marks, parameters), *tables(plan))


def setting(levels, length, load, parameters=UNALTERED):
    """Of the parameters the highest level is taken."""
    return library().ramyearly_setting(*tables(levels), parameters.allowed(levels), length, load)


def spare(levels, jobs, start, end, parameters=UNALTERED):
    return library().ramyearly_spare(*tables(levels, jobs), *numbers(levels, parameters), start, end)


# For each function that writes, its buffers in their order: the refusal that says that one is too short, and its elements.
# The place of that refusal is the length wanted.
PLAN_BUFFERS = ((12, ctypes.c_uint8), (13, ctypes.c_uint8), (14, ctypes.c_uint32))
ROUNDS_BUFFERS = ((12, ctypes.c_uint8),)
ORDER_BUFFERS = ((12, ctypes.c_uint8),)
TOUCHING_BUFFERS = ((14, ctypes.c_uint32),) * 3
NEAREST_BUFFERS = ((14, ctypes.c_uint32),)


def call_into(function, lent, kinds, lengths):
    """Calls with buffers of these lengths: the answer, and the buffers."""
    # A buffer of no elements has an address of its own only where it is made with one.
    buffers = [(kind * max(length, 1))() for (_, kind), length in zip(kinds, lengths)]
    words = [word for buffer, length in zip(buffers, lengths) for word in (ctypes.addressof(buffer), length)]
    return function(*lent, *words), buffers


def call(function, lent, kinds):
    """Calls with buffers as long as the archive wants them: the answer, and the buffers as written."""
    lengths = [0] * len(kinds)
    answer, buffers = call_into(function, lent, kinds, lengths)
    while short := shorter_than_wanted(answer, kinds, lengths):
        # Several buffers may have one refusal. It is about the first that is too short, so that at worst one before it,
        # which was long enough, gets longer.
        lengths[short[0]] = answer.place
        answer, buffers = call_into(function, lent, kinds, lengths)
    return answer, *buffers


def shorter_than_wanted(answer, kinds, lengths):
    """The numbers of the buffers that an answer may have found too short; none where it is not such a refusal."""
    return [which for which, (number, _) in enumerate(kinds) if number == answer.number and lengths[which] < answer.place]


def plan(levels, jobs, marks, parameters=UNALTERED):
    """Plans: the answer, and the buffers of plan, prices and shares."""
    return call(library().ramyearly_plan, site(levels, jobs, marks, parameters), PLAN_BUFFERS)


def rounds(tasks):
    """Lays tasks out: the answer, and the buffer of the job table."""
    return call(library().ramyearly_rounds, tables(tasks), ROUNDS_BUFFERS)


def order(levels, jobs, marks, plan, prices, parameters=UNALTERED):
    """Orders a plan's steps: the answer, and the buffer of the ordered plan."""
    lent = [*site(levels, jobs, marks, parameters), *tables(plan, prices)]
    return call(library().ramyearly_order, lent, ORDER_BUFFERS)


def touching(jobs, marks, plan, start, end, parameters=UNALTERED):
    """Lists what touches a span: the answer, and the lists of open jobs, of jobs inside and of the steps' cells. Of the
    parameters the free ticks and the margin are taken."""
    lent = [*tables(jobs, marks), parameters.free, parameters.margin, *tables(plan), start, end]
    return call(library().ramyearly_touching, lent, TOUCHING_BUFFERS)


def nearest(levels, jobs, parameters=UNALTERED):
    """Lists the jobs nearest to trouble: the answer, and the list of each job's number and then its room."""
    lent = [*tables(levels, jobs), *numbers(levels, parameters)]
    return call(library().ramyearly_nearest, lent, NEAREST_BUFFERS)
