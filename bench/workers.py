#!/usr/bin/env python3
"""Seconds and peak memory of `vfa opt` with 1, 2 and 4 workers, run by hand; the gate does not run it.

The modules: 16 MiB of small functions, and one function of a thousand blocks. What reading, splitting and writing take is
measured on as many bytes of comments, and taken off: the last column is the rest beside that of one worker. Each time is the
median of five runs, the commands in turn. Build the program first: `rt run -- opt` in crates/vfa, or `rt ci`.
"""

import os
import statistics
import subprocess
import sys
import tempfile
import time

TOP = os.path.dirname(os.path.dirname(os.path.abspath(__file__)))
PROGRAM = os.path.join(TOP, "crates", "vfa", "out", "vfa")
LIMIT = 16777216
RUNS = 5
WORKERS = (1, 2, 4)


def small_functions():
    """Functions of two instructions, up to the limit of the input."""
    texts, size, number = [], 0, 0
    while True:
        text = (
            f"define i8 @f{number}(i8 %x) {{\nentry:\n  %a = and i8 %x, 15\n"
            "  %b = xor i8 %a, 3\n  ret i8 %b\n}\n\n"
        )
        size += len(text)
        if size > LIMIT:
            return "".join(texts)
        texts.append(text)
        number += 1


def large_function(blocks=1000, instructions=3):
    """One function of a chain of blocks."""
    lines = ["define i32 @large(i32 %x) {", "entry:", "  br label %b0", ""]
    for block in range(blocks):
        lines.append(f"b{block}:")
        for line in range(instructions):
            lines.append(f"  %v{block}_{line} = add i32 %x, {block + line}")
        target = f"br label %b{block + 1}" if block + 1 < blocks else f"ret i32 %v{block}_0"
        lines += [f"  {target}", ""]
    lines[-1] = "}"
    return "\n".join(lines) + "\n"


def comments(size):
    line = "; " + "x" * 77 + "\n"
    return (line * (size // len(line) + 1))[:size]


def run(module, workers):
    """Seconds, and peak bytes, of one run."""
    with open(module, "rb") as source:
        start = time.monotonic()
        child = subprocess.Popen(
            [PROGRAM, "opt", "--workers", str(workers)],
            stdin=source,
            stdout=subprocess.DEVNULL,
            stderr=subprocess.DEVNULL,
        )
        _, status, usage = os.wait4(child.pid, 0)
        seconds = time.monotonic() - start
    child.returncode = os.waitstatus_to_exitcode(status)
    if child.returncode:
        sys.exit(f"workers.py: status {child.returncode} on {module}")
    return seconds, usage.ru_maxrss * 1024


def medians(modules):
    """For each module and number of workers the median seconds and the greatest peak."""
    times = {}
    for _ in range(RUNS):
        for name, module in modules.items():
            for workers in WORKERS:
                times.setdefault((name, workers), []).append(run(module, workers))
    return {
        key: (statistics.median(s for s, _ in runs), max(peak for _, peak in runs))
        for key, runs in times.items()
    }


def main():
    if not os.path.exists(PROGRAM):
        sys.exit(f"workers.py: {PROGRAM} is not built")
    with tempfile.TemporaryDirectory() as folder:
        texts = {"small functions": small_functions(), "one function": large_function()}
        modules = {}
        for name, text in texts.items():
            for kind, content in ((name, text), (name + ", comments", comments(len(text)))):
                modules[kind] = os.path.join(folder, kind.replace(" ", "-"))
                with open(modules[kind], "w") as out:
                    out.write(content)
        measured = medians(modules)
    for name, text in texts.items():
        print(f"{name}: {len(text)} bytes")
        base = measured[name + ", comments", 1][0]
        alone = measured[name, 1][0] - base
        for workers in WORKERS:
            seconds, peak = measured[name, workers]
            print(
                f"  {workers} workers {seconds:8.3f} s  {peak / 2**20:7.1f} MiB"
                f"  {(seconds - base) / alone:5.2f} of one worker's work"
            )
        print(f"  reading, splitting and writing alone {base:.3f} s")
    print(f"processors: {os.cpu_count()}")


main()
