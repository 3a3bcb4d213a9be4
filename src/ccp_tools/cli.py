"""The command line of the package: `ccp COMMAND ..`, or `python3 -m ccp_tools COMMAND ..`.

Each command is a module with

    def add_arguments(parser: argparse.ArgumentParser) -> None      adds its arguments
    def run(arguments: argparse.Namespace) -> int                   does its work, and returns the exit status

and a docstring, which is its help. It is imported when it is called. --quiet (`arguments.quiet`) and --version are
added here. Any CcpError that `run` raises is printed as one line, `ccp COMMAND: text`, and its status is returned."""
from __future__ import annotations

import argparse
import gc
import os
import shlex
import stat
import sys
import time
from contextlib import suppress
from importlib import import_module
from typing import Callable, List, Sequence

from .arguments import Parser
from .errors import CcpError, UsageError, cut, one_line
from .interrupts import Ended, caught_signals, deferred_interrupts
from .tables import COMMANDS, PACKAGES


def main(arguments: Sequence[str]) -> int:
    """Runs a command, and returns its exit status."""
    words = list(arguments)
    name = words[0] if words and words[0] in COMMANDS else ""
    return run_guarded("ccp %s" % name if name else "ccp", lambda: dispatch(words))


def run_guarded(name: str, work: Callable[[], int]) -> int:
    """Does the work of a command, and returns its exit status: whatever ends it becomes a line for its user, which
    begins with `name`."""
    open_streams()
    try:
        with caught_signals():
            return status_of(name, work)
    except Ended as ended:
        return ended.status
    except KeyboardInterrupt:
        return 130
    finally:
        flush_output()


def flush_output() -> None:
    """Writes what is left of the output. What can't be written is dropped, so that the end of the process doesn't meet
    it again."""
    try:
        sys.stdout.flush()
    except OSError:
        drop_output()


def status_of(name: str, work: Callable[[], int]) -> int:
    """Does the work of a command; whatever ends it but a signal becomes a line for its user and an exit status."""
    try:
        status = work()
        sys.stdout.flush()
        return status
    except CcpError as error:
        complain(name, str(error))
        return error.status or 1
    except BrokenPipeError:
        return leave_pipe()
    except ModuleNotFoundError as error:
        complain(name, missing_text(missing_modules(name) or [(error.name or str(error)).split(".")[0]]))
        return 1
    except RecursionError:
        complain(name, "the input is nested too deeply")
        return 1
    except MemoryError:
        complain(name, "out of memory")
        return 1
    except OSError as error:
        if closes_output(error):
            return leave_pipe()
        complain(name, "%s: %s" % (place_of(error), error.strerror or error))
        return 1


def place_of(error: OSError) -> str:
    """What an error of the system is about: a file, or, where it has no name, what was being written."""
    return cut(str(error.filename)) if error.filename else "the output can't be written"


def open_streams() -> None:
    """Gives a closed stream a place where nothing is read and nothing can be written, so that no file that is opened
    later takes its descriptor. Errors that nobody can see may be written."""
    for name, mode, flag in (("stdin", "r", os.O_RDONLY), ("stdout", "w", os.O_RDONLY), ("stderr", "w", os.O_WRONLY)):
        if getattr(sys, name) is None:
            setattr(sys, name, open(os.open(os.devnull, flag), mode, encoding="utf-8"))


def missing_modules(name: str) -> List[str]:
    """The modules that this interpreter lacks and a command uses, whose name may have `ccp` before it. What is no
    command uses none."""
    from importlib.util import find_spec

    command = COMMANDS.get(name.rpartition(" ")[2])
    return [module for module in command.modules if find_spec(module) is None] if command else []


def missing_text(names: Sequence[str]) -> str:
    """What a user can do about modules of Python that aren't there. In a virtual environment pip installs them, but in
    the one of a checkout, which sees Debian's."""
    from .program import checkout

    known = [name for name in names if name in PACKAGES]
    if sys.prefix != sys.base_prefix and not checkout():
        more = ": %s -m pip install %s" % (shlex.quote(sys.executable), " ".join(known))
    else:
        more = ": tools/install, or apt-get install %s" % " ".join(PACKAGES[name] for name in known)
    more = more if known else ""
    return "%s has no module %s%s" % (sys.executable, ", ".join(names), more)


def closes_output(error: OSError) -> bool:
    """Whether an error is that of an output that nobody reads."""
    return isinstance(error, BrokenPipeError)


def leave_pipe() -> int:
    """Ends silently where nobody reads on: what is left of the output goes nowhere."""
    drop_output()
    return 141


def drop_output() -> None:
    """Has all that is left of the output go nowhere."""
    os.dup2(os.open(os.devnull, os.O_WRONLY), sys.stdout.fileno())


def complain(name: str, text: str) -> None:
    """Prints an error as one line on standard error, which begins with `name`. Where that can't be written, the exit
    status alone says it."""
    await_pager()
    with suppress(OSError):
        print("%s: %s" % (name, one_line(text)), file=sys.stderr, flush=True)


def await_pager() -> None:
    """Waits until the pager that reads the output has left the terminal: what is printed on its page goes with it. Only
    a command that the user's shell started itself waits: in a list of commands the next one would wait too."""
    try:
        import termios
    except ImportError:
        return
    try:
        if not sys.stderr.isatty() or not stat.S_ISFIFO(os.fstat(sys.stdout.fileno()).st_mode):
            return
        if os.getpgid(os.getppid()) == os.getpgrp():
            return
        # the pager waits for the end of its input
        sys.stdout.flush()
        drop_output()
        while not termios.tcgetattr(sys.stderr.fileno())[3] & termios.ICANON:
            time.sleep(0.1)
    except (OSError, ValueError, termios.error):
        # a stream that is no file, or a terminal that is gone
        return


def dispatch(words: List[str]) -> int:
    """Parses the words and runs their command."""
    if not words or words[0] in ("-h", "--help", "help"):
        print(help_text())
        return 0
    if words[0] == "--version":
        print(version_line())
        return 0
    if words[0] not in COMMANDS:
        raise UsageError("%s is no command: the commands are %s" % (cut(words[0]), ", ".join(COMMANDS)))
    # what is imported stays, and to look for garbage in it meanwhile takes a tenth of the time
    gc.disable()
    # an interrupt within the import of numpy would be an ImportError
    with deferred_interrupts():
        module = import_module("." + COMMANDS[words[0]].module, __package__)
    gc.enable()
    parser = parser_of(words[0], module.__doc__ or "", module)
    try:
        arguments = parser.parse_args(words[1:])
    except SystemExit as done:  # --help and --version
        return int(done.code or 0)
    return int(module.run(arguments))


def parser_of(name: str, text: str, module: object) -> argparse.ArgumentParser:
    """The parser of a command's arguments."""
    parser = Parser(prog="ccp " + name, description=text)
    getattr(module, "add_arguments")(parser)
    parser.set_defaults(quiet=False)
    parser.add_argument("--version", action="version", version=version_line())
    return parser


def version_line() -> str:
    """The line that --version prints."""
    from . import version

    return "ccp %s" % version()


def console() -> None:
    """The entry point of an installed `ccp-tools`."""
    sys.exit(main(sys.argv[1:]))


def help_text() -> str:
    """The commands, with what each does."""
    rows = ["  %-9s %s" % (command.name, command.does) for command in COMMANDS.values()]
    return "usage: ccp COMMAND ..\n\n%s\n\n`ccp COMMAND --help` says more." % "\n".join(rows)
