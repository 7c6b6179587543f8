#!/usr/bin/env python3
"""What the check of a function costs: processor seconds and peak memory of `vfa opt` on functions near the limits.

Each function is measured twice: with a fault at its first instruction, where the check ends at once, and with a use in its last block
of a name that some walk misses, which only the whole check finds. Either way the bytes are copied and a note is written, so the
difference is what the rest of the check takes. Run by hand after `rt ci`, which builds the program; the gate does not run it.
"""
import os
import resource
import subprocess
import sys
import tempfile

TOP = os.path.dirname(os.path.dirname(os.path.abspath(__file__)))
PROGRAM = os.path.join(TOP, "crates", "vfa", "out", "vfa")
RUNS = 5


def text(blocks, cases, lines, ill_typed):
    """A function of so many blocks, each with so many lines and a switch of so many cases; `%half` is defined in the second block alone."""
    first = "  %first = zext i32 %x to i32" if ill_typed else "  %first = add i32 %x, 1"
    out = ["define i32 @f(i32 %x) {", "b0:", first]
    for number in range(blocks):
        if number:
            out.append(f"b{number}:")
        if number == 1:
            out.append("  %half = add i32 %x, 2")
        for line in range(lines):
            out.append(f"  %v{number}_{line} = add i32 %first, {line}")
        if number == blocks - 1:
            out.append("  ret i32 %half")
        elif cases:
            targets = "".join(f"\n    i32 {case}, label %b{1 + (number + case) % (blocks - 1)}" for case in range(cases))
            out.append(f"  switch i32 %x, label %b{number + 1} [{targets}\n  ]")
        elif blocks > 2 and number == 0:
            out.append("  %c = icmp ult i32 %x, 9\n  br i1 %c, label %b1, label %b2")
        else:
            out.append(f"  br label %b{number + 1}")
    out.append("}\n")
    return "\n".join(out)


def measure(module):
    """The least processor seconds of some runs, the peak memory in MiB, and the note."""
    with tempfile.NamedTemporaryFile("w", suffix=".ll") as file:
        file.write(module)
        file.flush()
        least, peak, note = None, 0, ""
        for _ in range(RUNS):
            pid_read, pid_write = os.pipe()
            child = os.fork()
            if child == 0:
                with open(file.name) as source:
                    run = subprocess.run([PROGRAM, "opt"], stdin=source, stdout=subprocess.DEVNULL, stderr=subprocess.PIPE, text=True)
                usage = resource.getrusage(resource.RUSAGE_CHILDREN)
                answer = f"{usage.ru_utime + usage.ru_stime}\n{usage.ru_maxrss}\n{run.stderr}"
                os.write(pid_write, answer.encode())
                os._exit(0)
            os.close(pid_write)
            os.waitpid(child, 0)
            seconds, kibibytes, note = os.read(pid_read, 4096).decode().split("\n", 2)
            os.close(pid_read)
            least = float(seconds) if least is None else min(least, float(seconds))
            peak = max(peak, int(kibibytes) / 1024)
    return least, peak, note.strip()


def main():
    if not os.path.exists(PROGRAM):
        print("check.py: build the program first: rt ci, or rt run -- opt in crates/vfa")
        return 1
    shapes = [("1024 blocks, 500 cases each", 1024, 500, 3), ("1024 blocks without cases", 1024, 0, 3), ("3 blocks, 1300 lines each", 3, 0, 1300)]
    for name, blocks, cases, lines in shapes:
        start = measure(text(blocks, cases, lines, True))
        whole = measure(text(blocks, cases, lines, False))
        print(f"{name}: the rest of the check takes {whole[0] - start[0]:.3f} s and {whole[1] - start[1]:.1f} MiB")
        print(f"  stopped at once: {start[0]:.3f} s, {start[1]:.1f} MiB, {start[2]}")
        print(f"  whole:           {whole[0]:.3f} s, {whole[1]:.1f} MiB, {whole[2]}")
    return 0


if __name__ == "__main__":
    sys.exit(main())
