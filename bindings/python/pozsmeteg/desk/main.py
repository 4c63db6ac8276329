"""The command line of `desk`. Status: 0; 1 where what was asked about is not so; 2 for bad input or a refusal; 3 where something could not be read
or written. An error is one sentence on standard error."""
import argparse
import contextlib
import os
import signal
import sys
import traceback

import pozsmeteg

from . import compare, cut, days, explain, final, folder, picture, record, run, table
from .faults import BadInput, Fault, NoAccess, reason

SUBJECTS = (folder, run, explain, table, picture, final, compare, record, days, cut)
ABOUT = """From a folder of plain numbers to a record of years: residuals of a satellite pair, and which of them are final.

Status: 0; 1 what was asked about is not so (a final entry moved, a record differs); 2 bad input, or refused; 3 something could not be
read or written. Formats: docs/FORMAT.md. Each command has its own --help with examples."""


class Parser(argparse.ArgumentParser):
    """Errors of the command line are one sentence, too."""

    def error(self, message):
        raise BadInput(f"{message} (see {self.prog} --help)")

    def _print_message(self, message, file=None):
        """Without this, help that could not be written would be lost in silence."""
        (file or sys.stdout).write(message)


def parser():
    whole = Parser(prog="desk", description=ABOUT, formatter_class=argparse.RawDescriptionHelpFormatter)
    whole.add_argument("--version", action="version", version=f"desk, pozsmeteg {pozsmeteg.__version__}")
    tasks = whole.add_subparsers(metavar="COMMAND", required=True, parser_class=Parser)

    def add(name, task, about, *examples, among=tasks):
        lines = "\n".join(["examples:", *(f"  {example}" for example in examples)])
        form = argparse.RawDescriptionHelpFormatter
        one = among.add_parser(name, help=about.split("\n")[0], description=about, epilog=lines, formatter_class=form)
        if task:
            one.set_defaults(task=task)
        return one

    for subject in SUBJECTS:
        subject.register(add)
    return whole


def main(words=None):
    """The status of a command; what went wrong is said on standard error."""
    try:
        signal.signal(signal.SIGTERM, lambda number, frame: sys.exit(128 + number))  # so that what is begun is taken away
    except ValueError:
        pass  # only the main thread can say so
    try:
        return performed(words)
    except Fault as fault:
        say(str(fault))
        return fault.status
    except pozsmeteg.Refused as refused:
        say(f"refused {refused.number}: {refused.words}")
        return 2
    except KeyboardInterrupt:
        return 130
    except Exception as error:  # a mistake in this program; 1 would say that something moved
        last = traceback.extract_tb(error.__traceback__)[-1]
        say(f"a fault of desk itself, please report it: {type(error).__name__}: {error} ({os.path.basename(last.filename)}, line {last.lineno})")
        return 3


def performed(words):
    try:
        if sys.stdout is None:
            raise NoAccess("standard output is closed")
        with contextlib.suppress(AttributeError):
            sys.stdout.reconfigure(errors="replace")  # a terminal that lacks a letter shows a question mark
        options = parsed(words)
        status = options.task(options)
        sys.stdout.flush()
        return status
    except BrokenPipeError:  # whoever reads this wants no more of it
        forget_output()
        return 3
    except OSError as error:
        forget_output()
        raise NoAccess(f"the output could not be written whole: {reason(error)}") from error
    except (pozsmeteg.LibraryMissing, pozsmeteg.WrongMode) as why:
        raise NoAccess(f"the engine cannot be called: {why}") from why
    except MemoryError as error:
        raise NoAccess("there is not enough memory") from error


def parsed(words):
    try:
        return parser().parse_args(words)
    except SystemExit:  # --help and --version have printed
        sys.stdout.flush()
        raise


def forget_output():
    """What is left in the buffer goes nowhere, so that the end of the program does not fail on it once more."""
    with contextlib.suppress(OSError, ValueError):
        os.dup2(os.open(os.devnull, os.O_WRONLY), sys.stdout.fileno())


def say(sentence):
    with contextlib.suppress(OSError, AttributeError):
        print(f"desk: {sentence}", file=sys.stderr, flush=True)
