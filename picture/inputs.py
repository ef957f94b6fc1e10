"""What the programs of this folder read and write, with what fails in words: each answers a status, whatever it is given."""
import contextlib
import os
import sys

from events import Unreadable, read

try:
    from posted import with_posts
except ImportError:  # bench/ isn't there
    with_posts = None


def said(why):
    """What the system says of an error, after the file it is about."""
    words = why.strerror or str(why)
    return "%s: %s" % (why.filename, words.lower()) if why.filename else words.lower()


def text_of(path):
    """The text of a file, or of the standard input where no file is named."""
    if path:
        with open(path, "rb") as file:
            return file.read().decode("utf-8", "replace")
    if sys.stdin is None:
        raise Unreadable("the standard input is closed, and no file of a trace is named")
    return sys.stdin.buffer.read().decode("utf-8", "replace")


def run_of(trace, script=None):
    """The run of a trace's text. Where the trace has no lines of posts, as those of older programs, they are taken from its script and its results."""
    lines = trace.split("\n")
    run = read(lines)
    if script and with_posts and not any(turn.posts for turn in run.turns.values()) and lines[-1] == "":
        with contextlib.suppress(Exception):  # a script that isn't the trace's, or is refused
            run = read(with_posts(lines, script, run))
    return run


def write(text):
    """Writes all of a text on the standard output, or says why not."""
    if sys.stdout is None:
        raise Unreadable("the standard output is closed")
    sys.stdout.buffer.write(text.encode("utf-8", "replace"))
    sys.stdout.flush()


def answer(name, work):
    """The status of a program: 0, or 2 with the reason where something can't be read or written."""
    try:
        work()
        return 0
    except (Unreadable, OSError, MemoryError) as why:
        words = said(why) if isinstance(why, OSError) else str(why) or "out of memory"
        with contextlib.suppress(Exception):
            print("%s: %s" % (name, words), file=sys.stderr)
            sys.stderr.flush()
        silence()
        return 2


def silence():
    """Nothing more is written: what couldn't be written isn't tried again at the end."""
    with contextlib.suppress(Exception):
        os.dup2(os.open(os.devnull, os.O_WRONLY), 1)
