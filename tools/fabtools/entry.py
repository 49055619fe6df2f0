"""The one way into each tool: its help, its version, and an end with a documented status and one line for what went wrong."""

import errno
import os
import re
import signal
import sys
from contextlib import suppress
from pathlib import Path

# What `make install` writes beside the tools: the revision, and what is known of the program.
INSTALLED = Path(__file__).resolve().parent.parent / "installed"
TOOL = re.compile(r"\btools/(?=[a-z])")
FAILED, INTERRUPTED = 2, 128 + signal.SIGINT
MORE = f"""
Each tool also ends with status {FAILED} where its output can't be written, and {INTERRUPTED} where it is interrupted;
--version says which program it runs, and whether that one is proved."""


class Failure(Exception):
    """What keeps a tool from its work, in one line."""


def named(text):
    """A text of ours with the names under which the tools are installed, where they are."""
    return TOOL.sub("myrifab-", text) if INSTALLED.exists() else text


class Closed:
    """Standard input that isn't open."""

    def __getattr__(self, name):
        raise OSError(errno.EBADF, os.strerror(errno.EBADF), "standard input")


class Named:
    """Standard error, on which tools have the names under which they are installed; what standard output was given stands before."""

    def __init__(self, to):
        self.to = to

    def write(self, text):
        # A failure shows again when the tool ends.
        if sys.stdout:
            with suppress(OSError, ValueError):
                sys.stdout.flush()
        return self.to.write(named(text))

    def __getattr__(self, name):
        return getattr(self.to, name)


def start(main, told):
    """Runs a tool's main over its words, and ends the process with its status; what it tells by --help begins with its name."""
    signal.signal(signal.SIGINT, signal.default_int_handler)
    open_streams()
    status = ended(main, told, sys.argv[1:])
    if status == INTERRUPTED:
        # So that a shell's loop ends too.
        signal.signal(signal.SIGINT, signal.SIG_DFL)
        os.kill(os.getpid(), signal.SIGINT)
    sys.exit(status)


def open_streams():
    """Standard error with the tools' names, and what can be shown in place of what can't; input that is closed says so."""
    sys.stdin = sys.stdin or Closed()
    sys.stderr = Named(sys.stderr or open(os.devnull, "w"))
    if sys.stdout:
        # Pages and pictures say that they are UTF-8, whatever the locale.
        sys.stdout.reconfigure(encoding="utf-8", errors="backslashreplace")


def ended(main, told, words):
    """The status with which a tool ends, once all that it says is written."""
    name = told.strip().partition(":")[0]
    try:
        status = run(main, told, words)
        sys.stdout.flush()
        return status
    except SystemExit as it:
        return it.code
    except (Failure, OSError) as why:
        failed(name, why_text(why))
    except KeyboardInterrupt:
        failed(name, "interrupted")
        return INTERRUPTED
    except MemoryError:
        failed(name, "out of memory")
    except Exception as why:
        failed(name, f"a fault of the tool itself, which we should know of: {fault_text(why)}")
    return FAILED


def run(main, told, words):
    if not sys.stdout:
        raise OSError(errno.EBADF, os.strerror(errno.EBADF))
    if words in (["--help"], ["-h"]):
        print(named(told.strip()) + f"\n{MORE}")
        return 0
    if words == ["--version"]:
        # Only here, since what finds the program takes its time to load.
        from fabtools import version

        print("\n".join(version.lines(told.strip().partition(":")[0])))
        return 0
    return main(words)


def failed(name, why):
    """Says why in one line, also where nothing more can be written to standard output."""
    finish(sys.stderr, f"{name}: {why}\n")
    if sys.stdout is sys.__stdout__ and sys.stdout:
        finish(sys.stdout, "")


def finish(stream, text):
    """Writes the last text to a stream. Where that fails, what is left in it goes nowhere, as Python would fail over it again."""
    try:
        stream.write(text)
        stream.flush()
    except OSError:
        os.dup2(os.open(os.devnull, os.O_WRONLY), stream.fileno())


def why_text(why):
    """A failure in one line. An error of the system that names no file is one of standard output."""
    if isinstance(why, Failure):
        told = str(why)
    else:
        told = f"{why.filename or 'standard output'}: {why.strerror or why}"
    # A file's name may hold the end of a line.
    return told.replace("\n", "\\n")


def fault_text(why):
    """What nobody foresaw, with its place in the tools."""
    at = why.__traceback__
    while at.tb_next:
        at = at.tb_next
    return f"{type(why).__name__} at {Path(at.tb_frame.f_code.co_filename).name}:{at.tb_lineno}"
