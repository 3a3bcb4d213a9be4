"""Runs a sub-command of the package: start.py PACKAGE-FOLDER COUNT INTERPRETER.. COMMAND ARGUMENT..

The launcher starts it by the first interpreter. Where that is too old, or lacks a module that the command uses, the
next one takes its place. So it has to be readable by any Python."""
import os
import sys


def missing_modules(command):
    """The modules that a command uses and this interpreter lacks, or its version if it is too old."""
    if sys.version_info < (3, 9):
        return ["Python 3.9"]
    from importlib.util import find_spec

    from ccp_tools.tables import COMMANDS

    return [name for name in COMMANDS[command].modules if find_spec(name) is None]


def main():
    package, count = sys.argv[1], int(sys.argv[2])
    interpreters, words = sys.argv[3 : 3 + count], sys.argv[3 + count :]
    sys.path[0] = package
    missing = missing_modules(words[0])
    if missing and count > 1:
        rest = interpreters[1:]
        os.execv(rest[0], [rest[0], os.path.abspath(__file__), package, str(len(rest))] + rest + words)
    if missing == ["Python 3.9"]:
        expected = "Python 3.9 or later: apt-get install python3, or name one by CCP_PYTHON=PATH"
        sys.exit("ccp %s: it needs %s" % (words[0], expected))
    from ccp_tools.cli import main as run_command, missing_text

    if missing:
        sys.exit("ccp %s: %s" % (words[0], missing_text(missing)))
    sys.exit(run_command(words))


main()
