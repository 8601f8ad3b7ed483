"""What the command prints: results on standard output, messages and progress on standard error."""

import os
import sys

from .errors import Trouble

NAME = "ramyearly"


def accept_any_name():
    """A folder's name may have bytes that are no text. They are printed as they are."""
    for stream in (sys.stdout, sys.stderr):
        stream.reconfigure(errors="surrogateescape")


def put(text):
    """Prints a result, whole. What can't be printed stops the command."""
    try:
        sys.stdout.write(text)
        sys.stdout.flush()
    except OSError as error:
        # What is left in the buffer would be tried again at the end.
        os.dup2(os.open(os.devnull, os.O_WRONLY), sys.stdout.fileno())
        raise Trouble(f"standard output: {error.strerror}") from None


def say(message):
    """Prints a message."""
    print(f"{NAME}: {message}", file=sys.stderr, flush=True)


class Progress:
    """Which of several folders is at work, in one line of a terminal that results write over."""

    def __init__(self, count):
        self.count = count
        self.shown = count > 1 and sys.stderr.isatty()

    def show(self, number, folder):
        if self.shown:
            print(f"\r\x1b[K{NAME}: {number} of {self.count}: {folder}", end="", file=sys.stderr, flush=True)

    def clear(self):
        if self.shown:
            print("\r\x1b[K", end="", file=sys.stderr, flush=True)
