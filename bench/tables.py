#!/usr/bin/env python3
"""Seconds and peak memory of `vfa facts` on functions whose tables are large: the table is most of what the run takes.

usage: bench/tables.py [PROGRAM]      (default: crates/vfa/out/vfa; build it first: `rt ci`, or `rt run -- opt` in crates/vfa)

Run by hand; the gate does not run it. The functions: a chain and a row of diamonds of 1000 blocks with 2000 names, loops one after
another, a chain at the limits of 1024 blocks and 4096 names, and thousands of small functions. Each line is the run of least time
among five; a run holds reading, the check and the report too.
"""
import os
import subprocess
import sys
import tempfile
import time

from programs import given_program

RUNS = 5
BLOCKS = 1000
MOST_BLOCKS = 1024
MOST_NAMES = 4096
SMALL = 20000


def chain(blocks, names):
    """Blocks in a row, each with so many names, and one parameter."""
    lines = ["define i32 @chain(i32 %x) {", "b0:"]
    for block in range(blocks):
        lines += [f"  %v{block}_{k} = add i32 %x, {block + k}" for k in range(names)]
        lines += [f"  br label %b{block + 1}", f"b{block + 1}:"] if block + 1 < blocks else ["  ret i32 %x", "}"]
    return "\n".join(lines) + "\n"


def diamonds(count):
    """Diamonds in a row, of three blocks and six names each: a condition, an arm, and where both ways meet."""
    lines = ["define i32 @diamonds(i32 %x) {", "m0:"]
    for k in range(count):
        lines += [
            f"  %a{k} = add i32 %x, {k}",
            f"  %c{k} = icmp ult i32 %a{k}, {1000 + k}",
            f"  br i1 %c{k}, label %t{k}, label %n{k}",
            f"t{k}:",
            f"  %b{k} = and i32 %a{k}, 255",
            f"  %d{k} = or i32 %b{k}, 1",
            f"  br label %n{k}",
            f"n{k}:",
            f"  %p{k} = phi i32 [ %a{k}, %m{k} ], [ %d{k}, %t{k} ]",
            f"  %q{k} = xor i32 %p{k}, 3",
            f"  br label %m{k + 1}",
            f"m{k + 1}:",
        ]
    return "\n".join(lines + ["  ret i32 %x", "}"]) + "\n"


def loops(count):
    """Loops one after another, of one block each, that count to a number."""
    lines = ["define i32 @loops(i32 %x) {", "e0:"]
    for k in range(count):
        lines += [
            f"  br label %h{k}",
            f"h{k}:",
            f"  %i{k} = phi i32 [ 0, %e{k} ], [ %n{k}, %h{k} ]",
            f"  %n{k} = add i32 %i{k}, 1",
            f"  %c{k} = icmp ult i32 %n{k}, {10 + k}",
            f"  br i1 %c{k}, label %h{k}, label %e{k + 1}",
            f"e{k + 1}:",
        ]
    return "\n".join(lines + ["  ret i32 %x", "}"]) + "\n"


def small():
    text = "define i8 @f{0}(i8 %x) {{\nentry:\n  %a = and i8 %x, 15\n  %b = xor i8 %a, 3\n  ret i8 %b\n}}\n"
    return "\n".join(text.format(k) for k in range(SMALL))


MODULES = {
    f"a chain of {BLOCKS} blocks, {2 * BLOCKS} names": chain(BLOCKS, 2),
    f"{BLOCKS // 4} diamonds, {BLOCKS // 4 * 6} names": diamonds(BLOCKS // 4),
    "100 loops": loops(100),
    "a chain at the limits": chain(MOST_BLOCKS, MOST_NAMES // MOST_BLOCKS - 1),
    f"{SMALL} small functions": small(),
}


def run(program, module):
    """Seconds and peak bytes of a run."""
    with open(module, "rb") as source:
        start = time.monotonic()
        child = subprocess.Popen([program, "facts"], stdin=source, stdout=subprocess.DEVNULL)
        _, status, usage = os.wait4(child.pid, 0)
        seconds = time.monotonic() - start
    child.returncode = os.waitstatus_to_exitcode(status)
    if child.returncode:
        sys.exit(f"tables.py: status {child.returncode} on {module}")
    return seconds, usage.ru_maxrss * 1024


def main():
    program = given_program(__doc__)
    with tempfile.TemporaryDirectory() as folder:
        for name, text in MODULES.items():
            module = os.path.join(folder, "module.ll")
            with open(module, "w") as out:
                out.write(text)
            seconds, peak = min(run(program, module) for _ in range(RUNS))
            print(f"{name:<40} {seconds:8.3f} s  {peak / 2**20:7.1f} MiB")
    return 0


if __name__ == "__main__":
    sys.exit(main())
