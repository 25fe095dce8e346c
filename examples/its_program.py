"""Which program the scripts of this folder call: the one that `--dover PROGRAM` names among their words, or that of
this checkout where it is built. What is installed calls the program that is installed with it. None builds one."""
import os
import shlex
import sys

FOLDER = os.path.dirname(os.path.realpath(__file__))
BUILT = os.path.join(os.path.dirname(FOLDER), "crates/dover_cli/out/dover_cli")
# This folder is PREFIX/share/dover then.
INSTALLED = os.path.join(os.path.dirname(os.path.dirname(FOLDER)), "bin/dover")
IS_INSTALLED = FOLDER.endswith("/share/dover")
NOT_BUILT = 7


def named(words):
    """The words without `--dover PROGRAM`, and the PROGRAM or nothing."""
    if "--dover" not in words[:-1]:
        return words, None
    at = words.index("--dover")
    return words[:at] + words[at + 2:], words[at + 1]


def command(program=None):
    """The words that call a program. It may have some of its own, as `./dover try` has; none of these is a name with
    a blank in it. Without one it is that of the checkout, and this ends where it isn't built."""
    if program is not None:
        return [program] if os.access(program, os.X_OK) else shlex.split(program)
    built = INSTALLED if IS_INSTALLED else BUILT
    if not os.access(built, os.X_OK):
        print(f"{os.path.relpath(sys.argv[0])}: not built: ./dover build proves and builds the program; "
              "--dover './dover try' takes it unproved", file=sys.stderr)
        sys.exit(NOT_BUILT)
    return [built]
