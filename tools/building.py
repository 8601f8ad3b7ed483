#!/usr/bin/env python3
"""Builds what the command, the tests and a release need, where it is not up to date.

That is the listing program target/bin/listing, the archive target/staticlib/libcapi.a with the
functions for C, and the same functions as a shared object, target/lib/libramyearly.so. The
crates are proved first. Nothing is printed where nothing is to be done.

With --proved-since SECONDS all of it is built, out of what rt ci has proved and built since that
time (in seconds since 1970), so that no crate is proved again but the one of the archive. What rt ci
did not make since then is proved and built as ever.
"""

import contextlib
import fcntl
import os
import re
import shutil
import signal
import subprocess
import sys

ROOT = os.path.dirname(os.path.dirname(os.path.realpath(__file__)))
sys.path[:0] = [os.path.join(ROOT, "python"), os.path.dirname(os.path.realpath(__file__))]

import proved_libraries
from ramyearly.errors import Trouble
from ramyearly.terminal import NAME, say

TARGET = os.path.join(ROOT, "target")
PROGRAM = os.path.join(TARGET, "bin", "listing")
ARCHIVE = os.path.join(TARGET, "staticlib", "libcapi.a")
SHARED_OBJECT = os.path.join(TARGET, "lib", "libramyearly.so")
EXPORTS = os.path.join(ROOT, "tools", "exports.map")
CRATES = os.path.join(ROOT, "crates")
CRATE_LIST = os.path.join(ROOT, "crates.txt")
# The crates of the program and of the archive, and what rt makes in them.
PROGRAM_CRATE, ARCHIVE_CRATE = "listing", "capi"
PROGRAM_OF_RT = os.path.join(CRATES, PROGRAM_CRATE, "out", PROGRAM_CRATE)
ARCHIVE_OF_RT = os.path.join(CRATES, ARCHIVE_CRATE, "out", f"lib{ARCHIVE_CRATE}.a")
LOG = os.path.join(TARGET, "ramyearly.log")
LOCK = os.path.join(TARGET, "ramyearly.lock")
RECORD = os.path.join(TARGET, "ramyearly.built")
SHOWN_LINES = 40  # of the log, where something failed


# What is up to date.


def files_below(folder):
    with os.scandir(folder) as entries:
        for entry in entries:
            if entry.is_dir(follow_symlinks=False):
                yield from files_below(entry.path)
            else:
                yield entry.path, entry.stat(follow_symlinks=False)


def list_sources():
    """A line with size and time for each file that a build reads: every change of a file changes the text."""
    # Not what rt makes, in the folder out of each crate.
    made = re.compile(re.escape(CRATES) + "/[^/]*/out/")
    files = [(path, status) for path, status in files_below(CRATES) if not made.match(path)]
    read = CRATE_LIST, EXPORTS, os.path.realpath(__file__), os.path.realpath(proved_libraries.__file__)
    files += [(path, os.stat(path)) for path in read]
    lines = (f"{path.removeprefix(ROOT)} {status.st_size} {status.st_mtime_ns}\n" for path, status in files)
    return "".join(sorted(lines))


def ask_version():
    """The toolchain's identity, or None where there is none."""
    rt = shutil.which("rt")
    if rt is None:
        return None
    return subprocess.run([rt, "version"], capture_output=True, text=True).stdout.strip()


def is_up_to_date(compare_toolchain):
    """Whether the last build ended well, what it made is still there, and it read the files of now.

    The record is removed when a build begins and written when all of it has passed, so that what a
    stopped build left is never taken.
    """
    try:
        with open(RECORD, encoding="utf-8", errors="surrogateescape") as file:
            version, _, sources = file.read().partition("\n")
    except FileNotFoundError:
        return False
    made = os.access(PROGRAM, os.X_OK) and os.path.exists(ARCHIVE) and os.path.exists(SHARED_OBJECT)
    if not made or sources != list_sources():
        return False
    return not compare_toolchain or ask_version() in (None, version)


def write_record(version, sources):
    # A file's name may have bytes that are no text.
    with open(RECORD + ".new", "w", encoding="utf-8", errors="surrogateescape") as file:
        file.write(f"{version}\n{sources}")
    os.replace(RECORD + ".new", RECORD)


# How far a build is.


def proving_order(wanted, crates):
    """Crates and all that they need, as rt goes through them where it is asked for one after another."""
    return list(dict.fromkeys(name for crate in wanted for name in [*proved_libraries.all_below(crate, crates), crate]))


def clear_line():
    """Removes a line that is rewritten, of this build or of the command, where there is one."""
    if sys.stderr.isatty():
        sys.stderr.write("\r\x1b[K")
        sys.stderr.flush()


def announce(text):
    clear_line()
    say(text)


class Progress:
    """Shows how many crates are proved: a line that is rewritten on a terminal, a line for each crate elsewhere.

    rt proves one crate after another, in this order, and does not speak of those that it finds proved.
    """

    def __init__(self, crates):
        self.crates = crates
        self.current = None
        self.shown = None
        self.rewrites = sys.stderr.isatty()
        self.show(crates[0])

    def read(self, line):
        """Takes a line of rt's: it begins with a crate, or has proved it."""
        if found := re.match(r"rt: chose --jobs \d+ for (\w+)", line):
            self.current = found[1] if found[1] in self.crates else None
            self.show(self.current)
        elif line.startswith("logic=proved") and self.current:
            number = self.crates.index(self.current) + 1
            if not self.rewrites:
                say(f"proved crate {number} of {len(self.crates)}: {self.current}")
            # Until rt speaks of a crate, the next one is what it goes on with.
            self.show(self.crates[number] if number < len(self.crates) else None)
            self.current = None

    def show(self, crate):
        if self.rewrites and crate and crate != self.shown:
            clear_line()
            text = f"{NAME}: proving crate {self.crates.index(crate) + 1} of {len(self.crates)}: {crate}"
            sys.stderr.write(text[: shutil.get_terminal_size().columns - 1])
            sys.stderr.flush()
            self.shown = crate


# Building.


@contextlib.contextmanager
def stopped_by_exception():
    """Inside, a signal that would end this process raises SystemExit, so that the processes it started are ended too."""

    def stop(number, _):
        raise SystemExit(128 + number)

    signals = [number for number in (signal.SIGTERM, signal.SIGHUP) if signal.getsignal(number) == signal.SIG_DFL]
    for number in signals:
        signal.signal(number, stop)
    try:
        yield
    finally:
        for number in signals:
            signal.signal(number, signal.SIG_DFL)


def run(words, lock, log, read=lambda line: None, folder=ROOT):
    """Runs a command in a folder and answers whether it ended well. Its output goes to the log, and line by line to `read`.

    It has the lock too: where this process is killed, the lock is held until the command has ended
    as well. It is in a group of its own, to be ended with all that it started.
    """
    settings = {"stdin": subprocess.DEVNULL, "stdout": subprocess.PIPE, "stderr": subprocess.STDOUT}
    with subprocess.Popen(words, cwd=folder, start_new_session=True, pass_fds=[lock], **settings) as process:
        try:
            for line in process.stdout:
                log.write(line)
                read(line.decode(errors="replace"))
            return process.wait() == 0
        except BaseException:
            with contextlib.suppress(ProcessLookupError):
                os.killpg(process.pid, signal.SIGTERM)
            raise


def fail(what, who):
    """Shows the end of the log, and stops."""
    with open(LOG, encoding="utf-8", errors="replace") as file:
        sys.stderr.write("".join(file.readlines()[-SHOWN_LINES:]))
    raise Trouble(f"{what} not built; {os.path.relpath(LOG, ROOT)} has all that {who} said")


# Crate, what rt is asked for there, and what it makes. rt runs the program once.
PROGRAM_STEP = PROGRAM_CRATE, "run", PROGRAM_OF_RT
ARCHIVE_STEP = ARCHIVE_CRATE, "lib", ARCHIVE_OF_RT


def prove(rt, steps, crates, lock, log):
    """Has rt prove and build the program, the archive or both."""
    progress = Progress(proving_order([crate for crate, _, _ in steps], crates))
    try:
        for crate, verb, made in steps:
            is_done = run([rt, verb], lock, log, progress.read, os.path.join(CRATES, crate)) and os.path.exists(made)
            if not is_done:
                break
    finally:
        clear_line()
    if not is_done:
        fail("the proved archive and the listing program were", "rt")


def steps_left_by_rt_ci(rt, crates, lock, log, proved_since):
    """Builds the archive over the libraries that rt ci has proved, and answers what is left for rt.

    It leaves the program built, but no archive. What another rt made earlier is not taken, since rt ci
    puts that back when it ends.
    """
    steps = [] if proved_libraries.is_made_since(PROGRAM_OF_RT, proved_since) else [PROGRAM_STEP]
    if not proved_libraries.are_made_since(proved_since, ARCHIVE_CRATE, crates, CRATES):
        return [*steps, ARCHIVE_STEP]
    os.makedirs(os.path.dirname(ARCHIVE_OF_RT), exist_ok=True)
    words = proved_libraries.words_to_build(rt, ARCHIVE_CRATE, crates, CRATES, ARCHIVE_OF_RT)
    try:
        is_built = run(words, lock, log, folder=os.path.join(CRATES, ARCHIVE_CRATE))
    except OSError as error:
        log.write(f"{words[0]}: {error.strerror}\n".encode())
        is_built = False
    return steps if is_built else [*steps, ARCHIVE_STEP]


def put_in_place(made, path):
    """Copies what rt has made to where it is looked for."""
    os.makedirs(os.path.dirname(path), exist_ok=True)
    shutil.copy(made, path + ".new")
    os.replace(path + ".new", path)


def link(compiler, lock, log):
    """Makes the shared object of all that the archive has."""
    os.makedirs(os.path.dirname(SHARED_OBJECT), exist_ok=True)
    new = SHARED_OBJECT + ".new"
    words = [compiler, "-shared", "-o", new, f"-Wl,-soname,{os.path.basename(SHARED_OBJECT)}"]
    words += [f"-Wl,--version-script={os.path.relpath(EXPORTS, ROOT)}", "-Wl,-z,defs", "-Wl,-z,now"]
    words += ["-Wl,--whole-archive", ARCHIVE, "-Wl,--no-whole-archive"]
    if not run(words, lock, log):
        fail("the shared object was", "the C compiler")
    os.replace(new, SHARED_OBJECT)


def find_commands():
    rt, compiler = shutil.which("rt"), shutil.which("gcc") or shutil.which("cc")
    if rt is None:
        raise Trouble("rt is missing: the Rattle toolchain builds the proved archive and the listing program")
    if compiler is None:
        raise Trouble("gcc is missing: the C compiler links the proved archive into a shared object")
    return rt, compiler


@contextlib.contextmanager
def building_alone():
    """Waits until no other call builds, and gives the lock."""
    os.makedirs(TARGET, exist_ok=True)
    with open(LOCK, "w") as file:
        try:
            fcntl.flock(file, fcntl.LOCK_EX | fcntl.LOCK_NB)
        except BlockingIOError:
            announce("another call is building; waiting for it")
            fcntl.flock(file, fcntl.LOCK_EX)
        yield file.fileno()


def make_all(rt, compiler, lock, proved_since):
    announce("building the proved archive and the listing program, which takes minutes the first time")
    with contextlib.suppress(FileNotFoundError):
        os.remove(RECORD)
    # Taken before the build, so that a file that changes meanwhile is not taken for one that was read.
    version, sources = ask_version(), list_sources()
    crates = proved_libraries.read_crate_list(CRATE_LIST)
    with open(LOG, "wb", buffering=0) as log, stopped_by_exception():
        steps = [PROGRAM_STEP, ARCHIVE_STEP]
        if proved_since is not None:
            steps = steps_left_by_rt_ci(rt, crates, lock, log, proved_since)
        if steps:
            prove(rt, steps, crates, lock, log)
        put_in_place(PROGRAM_OF_RT, PROGRAM)
        put_in_place(ARCHIVE_OF_RT, ARCHIVE)
        link(compiler, lock, log)
    write_record(version, sources)


def build(compare_toolchain=False, proved_since=None):
    """Makes what is not up to date; a Trouble says what stopped it.

    What another toolchain has proved and built is as good as ever for who uses it, so the command
    does not start rt at each call to ask for its version, and goes on working where rt is gone. The
    tests and a release speak of the toolchain of now, and compare. After rt ci all is made anew, so
    that the gate tries what it has proved.
    """
    try:
        if proved_since is None and is_up_to_date(compare_toolchain):
            return
        rt, compiler = find_commands()
        with building_alone() as lock:
            # Another call may have built all of it meanwhile.
            if proved_since is not None or not is_up_to_date(compare_toolchain):
                make_all(rt, compiler, lock, proved_since)
    except OSError as error:
        place = f"{error.filename}: " if error.filename else ""
        raise Trouble(f"the build stopped: {place}{error.strerror}") from error


def main(arguments):
    proved_since = None
    if len(arguments) == 2 and arguments[0] == "--proved-since" and re.fullmatch(r"\d+", arguments[1]):
        proved_since = int(arguments[1])
    elif arguments:
        is_help = arguments in (["-h"], ["--help"])
        usage = "usage: python3 tools/building.py [--proved-since SECONDS]\n\n"
        print(usage + __doc__, end="", file=sys.stdout if is_help else sys.stderr)
        return 0 if is_help else 2
    try:
        build(compare_toolchain=True, proved_since=proved_since)
    except Trouble as trouble:
        say(trouble)
        return 2
    except KeyboardInterrupt:
        return 128 + signal.SIGINT
    return 0


if __name__ == "__main__":
    sys.exit(main(sys.argv[1:]))
