#!/usr/bin/env python3
"""Refuses each growth of `vfa opt` in turn: each run has to end as if memory were there, or with status 5 and nothing written.

usage: bench/refused_memory.py [PROGRAM]      (default: crates/vfa/out/vfa; build it first: `rt ci`, or `rt run -- opt` in crates/vfa)

The inputs are a loop that counts to ten, once and in 64 functions. A growth is a call of the program, or of the C library on its
behalf, that asks for memory after main has begun (refuse_growth.c, which needs a C compiler). First a run counts them, then there is
a run for each number from 1 on, in which the growth of this number is refused, and at last one in which none is left to refuse. With
one worker growths come in the same sequence in each run, so that none is missed; with several the number of each may change from
run to run.

The status is 0 where each run ended as it has to, 1 where one did not, and 2 where nothing could be run.
"""
import concurrent.futures
import dataclasses
import os
import shutil
import subprocess
import sys
import tempfile

from programs import given_program

BENCH = os.path.dirname(os.path.abspath(__file__))
OUT_OF_MEMORY = 5
SHOWN = 10

COUNT = """define i32 @NAME() {
entry:
  br label %head

head:
  %i = phi i32 [ 0, %entry ], [ %n, %body ]
  %c = icmp ult i32 %i, 10
  br i1 %c, label %body, label %exit

body:
  %n = add i32 %i, 1
  br label %head

exit:
  ret i32 %i
}
"""

COUNT_PRINTED = (
    COUNT.replace("icmp ult", "icmp samesign ult").replace("add i32", "add nuw nsw i32").replace("ret i32 %i", "ret i32 10")
)


def functions(text, count):
    return "\n".join(text.replace("NAME", f"f{number}") for number in range(count)).encode()


@dataclasses.dataclass
class Case:
    name: str
    workers: int
    module: bytes
    printed: bytes


CASES = [
    Case("the loop once, 1 worker", 1, functions(COUNT, 1), functions(COUNT_PRINTED, 1)),
    Case("the loop in 64 functions, 1 worker", 1, functions(COUNT, 64), functions(COUNT_PRINTED, 64)),
    Case("the loop in 64 functions, 4 workers", 4, functions(COUNT, 64), functions(COUNT_PRINTED, 64)),
]


@dataclasses.dataclass
class End:
    """How a run ended, and how many growths it had."""

    status: int
    out: bytes
    err: bytes
    growths: int


def built(folder):
    """The library that refuses a growth; None where it cannot be built."""
    compiler = next((name for name in ("cc", "clang", "gcc") if shutil.which(name)), None)
    library = os.path.join(folder, "refuse_growth.so")
    source = os.path.join(BENCH, "refuse_growth.c")
    if compiler is None:
        return None
    command = [compiler, "-O1", "-fno-builtin", "-shared", "-fPIC", "-o", library, source, "-ldl"]
    return library if subprocess.run(command).returncode == 0 else None


def run(program, library, case, refused):
    """Runs the case; the growth of this number is refused, none for 0."""
    count = os.memfd_create("growths")
    try:
        os.ftruncate(count, 8)
        ended = subprocess.run(
            [program, "opt", "--workers", str(case.workers)],
            input=case.module,
            capture_output=True,
            pass_fds=(count,),
            env={"LD_PRELOAD": library, "GROWTHS": str(count), "REFUSED": str(refused)},
        )
        growths = int.from_bytes(os.pread(count, 8, 0), sys.byteorder)
    finally:
        os.close(count)
    return End(ended.returncode, ended.stdout, ended.stderr, growths)


def is_done(case, end):
    return end.status == 0 and end.out == case.printed and end.err == b""


def is_stopped(end):
    return end.status == OUT_OF_MEMORY and end.out == b"" and end.err == b""


def shown(end):
    return f"status {end.status}, {len(end.out)} bytes to out, {end.err[:80]!r} to err"


def fault(case, refused, end):
    """What is wrong with the end of a run; None where nothing is."""
    if end.growths < refused and case.workers == 1:
        return f"had {end.growths} growths alone"
    if is_done(case, end) or (end.growths >= refused and is_stopped(end)):
        return None
    return shown(end)


def check(program, library, case):
    """Refuses each growth of the case in turn. Whether each run ended as it has to."""
    whole = run(program, library, case, 0)
    if not is_done(case, whole) or whole.growths == 0:
        print(f"{case.name}: with nothing refused: {whole.growths} growths, {shown(whole)}", flush=True)
        return False
    numbers = range(1, whole.growths + 1)
    with concurrent.futures.ThreadPoolExecutor(os.cpu_count()) as pool:
        ends = list(pool.map(lambda number: run(program, library, case, number), numbers))
    faults = [(number, fault(case, number, end)) for number, end in zip(numbers, ends)]
    faults = [(number, text) for number, text in faults if text]
    for number, text in faults[:SHOWN]:
        print(f"{case.name}: growth {number} refused: {text}", flush=True)
    refused = sum(end.growths >= number for number, end in zip(numbers, ends))
    stopped = sum(is_stopped(end) for end in ends)
    done = sum(is_done(case, end) for end in ends)
    print(
        f"{case.name}: {whole.growths} growths; {refused} were refused in turn: {stopped} runs ended with status {OUT_OF_MEMORY}"
        f" and nothing written, {done} with all of the text, {len(faults)} otherwise",
        flush=True,
    )
    last = run(program, library, case, whole.growths + 1)
    if case.workers == 1 and (last.growths > whole.growths or not is_done(case, last)):
        print(f"{case.name}: growth {whole.growths + 1} is one too", flush=True)
        return False
    return not faults


def main():
    program = given_program(__doc__)
    with tempfile.TemporaryDirectory() as folder:
        library = built(folder)
        if library is None:
            print("refused_memory.py: the library that refuses a growth could not be built")
            return 2
        passed = [check(program, library, case) for case in CASES]
    return 0 if all(passed) else 1


if __name__ == "__main__":
    sys.exit(main())
