"""The convention of the commands in tools/, vectors/ and bench/.

- `-h` prints the usage, which is the command's docstring, with status 0.
- Bad arguments, and files or programs that are not there, are told in one sentence on standard error, with status 2.
- Status 1 is a finding (a difference, a refusal, a layout that is left) or a write that failed. A reader that goes away ends
  a command quietly.
- While long work goes on, a line on standard error says how far it is, where that is a terminal.
"""

import argparse
import os
import pathlib
import re
import subprocess
import sys
import threading
import time

HIGHEST = 2**64 - 1


def name():
    """The name by which the command was called."""
    return pathlib.Path(sys.argv[0]).name


class Failed(Exception):
    """Why a command ends, in a sentence."""

    def __init__(self, sentence, status=2):
        super().__init__(sentence)
        self.status = status


class Parser(argparse.ArgumentParser):
    """Arguments by the convention; the usage is that of the docstring."""

    def __init__(self, usage):
        super().__init__(allow_abbrev=False)
        self.text = usage

    def print_help(self, file=None):
        # The inherited one passes over a write that fails.
        sys.stdout.write(self.text)

    def error(self, message):
        raise Failed(f"{message}; {name()} -h says how it is used")


def number(low=0, high=HIGHEST):
    """The type of an argument that is a whole number within these."""
    def read(word):
        if re.fullmatch("[0-9]{1,20}", word) and low <= int(word) <= high:
            return int(word)
        raise argparse.ArgumentTypeError(f"`{word[:40]}` is not a whole number from {low} " + (f"to {high}" if high < HIGHEST else "on"))
    return read


def load(path):
    """The bytes of a file; of standard input where none is named, or `-`."""
    try:
        if path not in (None, "-"):
            return pathlib.Path(path).read_bytes()
        if sys.stdin is None:
            raise Failed("standard input is closed")
        return sys.stdin.buffer.read()
    except OSError as error:
        raise Failed(f"{path or 'standard input'}: {error.strerror}")
    except ValueError:  # a name that no file can have
        raise Failed(f"{path!r} is not the name of a file")


def call(words, **more):
    """Runs a program that must succeed, and gives what it printed."""
    try:
        done = subprocess.run(words, stdout=subprocess.PIPE, **more)
    except OSError as error:
        raise Failed(f"{words[0]}: {error.strerror}")
    if done.returncode:
        raise Failed(f"`{' '.join(map(str, words))}` ended with status {done.returncode}")
    return done.stdout


class Progress:
    """A line on standard error that is written again every half second while work goes on, only on a terminal."""

    def __init__(self, what, total=0):
        self.what, self.total, self.done, self.began = what, total, 0, time.monotonic()
        self.ended = threading.Event()
        self.line = threading.Thread(target=self.show, daemon=True)

    def __enter__(self):
        if sys.stderr.isatty():
            self.line.start()
        return self

    def __exit__(self, *_):
        self.ended.set()
        if self.line.is_alive():
            self.line.join()

    def each(self, items):
        """The items as they come, each counted when it is done with."""
        for item in items:
            yield item
            self.done += 1

    def show(self):
        while not self.ended.wait(.5):
            far = f"{self.done} of {self.total} " if self.total else ""
            said = f"{name()}: {far}{self.what}, {time.monotonic() - self.began:.0f} s so far"
            print(f"\r{said[:78]:78}", end="", file=sys.stderr, flush=True)
        print(f"\r{'':78}\r", end="", file=sys.stderr, flush=True)


def run(main):
    """Runs a command to its end, which its status tells."""
    sys.stderr = sys.stderr or open(os.devnull, "w")
    if sys.stdout is None:
        tell("writing failed: standard output is closed")
        sys.exit(1)
    sys.stdout.reconfigure(errors="backslashreplace")
    status = outcome(main)
    sys.exit(outcome(sys.stdout.flush) or status)


def outcome(work):
    """The status of a piece of work; what went wrong is told."""
    try:
        return work() or 0
    except SystemExit as ended:
        return ended.code or 0
    except Failed as failed:
        tell(failed)
        return failed.status
    except BrokenPipeError:
        pass
    except OSError as error:
        tell(f"{error.filename}: {error.strerror}" if error.filename else f"writing failed: {error.strerror}")
    except KeyboardInterrupt:
        drop()
        return 130
    drop()
    return 1


def drop():
    """What is not written yet never will be."""
    os.dup2(os.open(os.devnull, os.O_WRONLY), 1)


def tell(said):
    print(f"{name()}: {said}", file=sys.stderr)
