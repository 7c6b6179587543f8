"""The built program, for the scripts beside this file."""
import os
import sys

TOP = os.path.dirname(os.path.dirname(os.path.abspath(__file__)))
BUILT = os.path.join(TOP, "crates", "vfa", "out", "vfa")


def given_program(usage):
    """The program that the words name, or the built one. Where the words are of no such form, or there is no program, it says so, and
    the script ends with status 2."""
    if len(sys.argv) > 2:
        print(usage)
        sys.exit(2)
    program = os.path.abspath(sys.argv[1]) if len(sys.argv) == 2 else BUILT
    if not os.path.exists(program):
        print(f"{os.path.basename(sys.argv[0])}: {program} is not built")
        sys.exit(2)
    return program
