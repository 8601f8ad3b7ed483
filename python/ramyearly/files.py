"""Files written whole or not at all."""

import contextlib
import os
import signal
import stat
import tempfile

STOPS = (signal.SIGHUP, signal.SIGINT, signal.SIGTERM)


class Stopped(BaseException):
    """A signal asked the command to stop. What was begun is cleaned up on the way out."""

    def __init__(self, number):
        super().__init__(number)
        self.number = number


def stop_in_order():
    """Lets a signal that ends the command clean up first."""

    def stop(number, _frame):
        raise Stopped(number)

    for number in STOPS:
        # nohup and background jobs ignore some of them, and so it stays.
        if signal.getsignal(number) != signal.SIG_IGN:
            signal.signal(number, stop)


@contextlib.contextmanager
def stops_held_back():
    """Signals that end the command wait until the block is through."""
    before = signal.pthread_sigmask(signal.SIG_BLOCK, STOPS)
    try:
        yield
    finally:
        signal.pthread_sigmask(signal.SIG_SETMASK, before)


def write_files(files):
    """Writes files, given as (path, bytes). A stopped run leaves each as it was or as it is to be.

    All are written under temporary names first, and renamed one right after the other: a full disk changes none of them.
    """
    # What a name leads to is written: a link stays a link.
    goals = [(os.path.realpath(path), data) for path, data in files]
    with contextlib.ExitStack() as stack:
        renames = [(stack.enter_context(written_beside(path, data)), path) for path, data in goals]
        with stops_held_back():
            for temporary, path in renames:
                with named(path):
                    os.replace(temporary, path)
            for folder in {os.path.dirname(path) for _, path in renames}:
                keep_names(folder)


def write_file(path, data):
    """Writes one file. A name that is no plain file, as a device or a pipe, is written to as it is."""
    if os.path.exists(path) and not os.path.isfile(path):
        with named(path), open(path, "wb") as file:
            file.write(data)
    else:
        write_files([(path, data)])


@contextlib.contextmanager
def named(path):
    """An error of the block is said of this file: nobody knows the temporary one."""
    try:
        yield
    except OSError as error:
        error.filename = path
        raise


@contextlib.contextmanager
def written_beside(path, data):
    """A temporary file beside a path, with this content, on the disk. It is removed unless it was renamed."""
    temporary = None
    try:
        # Held back, so that no file is made whose name is not known here.
        with named(path), stops_held_back():
            handle, temporary = tempfile.mkstemp(dir=os.path.dirname(path), prefix=f".{os.path.basename(path)}.")
        with named(path), open(handle, "wb") as file:
            file.write(data)
            file.flush()
            os.fchmod(file.fileno(), mode_of(path))
            os.fsync(file.fileno())
        yield temporary
    finally:
        if temporary is not None:
            with contextlib.suppress(FileNotFoundError):
                os.unlink(temporary)


def mode_of(path):
    """The permissions of a file that is there, or those that a new one gets."""
    try:
        return stat.S_IMODE(os.stat(path).st_mode)
    except FileNotFoundError:
        mask = os.umask(0)
        os.umask(mask)
        return 0o666 & ~mask


def keep_names(folder):
    """Asks that the renames are on the disk too. Not every file system can."""
    with contextlib.suppress(OSError):
        handle = os.open(folder, os.O_RDONLY)
        try:
            os.fsync(handle)
        finally:
            os.close(handle)
