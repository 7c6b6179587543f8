#!/usr/bin/env python3
"""Runs the built program on the examples: it has to write what is stored beside them.

usage: bench/examples.py [PROGRAM]     (default: crates/vfa/out/vfa; build it first: `rt ci`, or `rt run -- opt` in crates/vfa)

Run by hand; the gate does not run it. `examples/NAME.opt.ll` is what `vfa opt` writes for `examples/NAME.ll`, and `NAME.report` what
`vfa facts` does. Either way standard error gets `NAME.notes`, or nothing where there is no such file, and the status is 0. The stored
files were made by an independent model. The status is 0 where all is so, 1 where a run ends otherwise, and 2 where the words are wrong
or no program is built.
"""
import dataclasses
import os
import subprocess
import sys

from programs import TOP, given_program

EXAMPLES = os.path.join(TOP, "examples")
JOBS = [("opt", ".opt.ll"), ("facts", ".report")]
SECONDS = 60


@dataclasses.dataclass
class End:
    """How a run ends."""

    status: int
    out: bytes
    err: bytes


def stored(name):
    """The bytes of a file among the examples; none where there is no such file."""
    path = os.path.join(EXAMPLES, name)
    if not os.path.exists(path):
        return b""
    with open(path, "rb") as file:
        return file.read()


def first_difference(found, wanted):
    """The first line that is not the stored one, with its number from 1."""
    found, wanted = found.split(b"\n"), wanted.split(b"\n")
    for number, line in enumerate(wanted, 1):
        if number > len(found):
            return f"line {number} lacks: {line!r}"
        if found[number - 1] != line:
            return f"line {number} is {found[number - 1]!r}, not {line!r}"
    return f"line {len(wanted) + 1} is too much: {found[len(wanted)]!r}"


def differences(found, wanted):
    """What of a run is not as stored, in words."""
    out = []
    if found.status != wanted.status:
        out.append(f"the status is {found.status}")
    for name, one, other in [("standard output", found.out, wanted.out), ("standard error", found.err, wanted.err)]:
        if one != other:
            out.append(f"{name}: {first_difference(one, other)}")
    return out


def run(program, job, source):
    """How the program ends, which does the job on the source."""
    done = subprocess.run([program, job], input=source, stdout=subprocess.PIPE, stderr=subprocess.PIPE, timeout=SECONDS)
    return End(done.returncode, done.stdout, done.stderr)


def main():
    program = given_program(__doc__)
    same = different = 0
    for file in sorted(os.listdir(EXAMPLES)):
        for job, ending in JOBS:
            if not file.endswith(ending):
                continue
            name = file[: -len(ending)]
            found = differences(run(program, job, stored(name + ".ll")), End(0, stored(file), stored(name + ".notes")))
            same, different = same + (not found), different + bool(found)
            for words in found:
                print(f"{job} {name}: {words}")
    print(f"{same} as stored, {different} otherwise")
    return 1 if different or not same else 0


if __name__ == "__main__":
    sys.exit(main())
