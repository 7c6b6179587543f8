#!/usr/bin/env python3
"""Runs `vfa opt` and `vfa facts` on hostile inputs: each has to end soon, in little memory, as the rules say.

usage: bench/hostile.py [PROGRAM]      (default: crates/vfa/out/vfa; build it first: `rt ci`, or `rt run -- opt` in crates/vfa)

Run by hand; the gate does not run it. First come runs in which a stream fails, then the inputs, which are made here, most of them as
long as an input may be. Beside each stands what the rules say of it (docs/LANGUAGE.md): the status, what is written, and why. For each
run its seconds, its peak memory and its status are printed. A run fails where it takes 10 seconds or more, or 1,000,000,000 bytes or
more, or ends otherwise than it has to; then the status is 1.
"""
import dataclasses
import os
import resource
import signal
import subprocess
import sys
import tempfile
import time

from programs import given_program

LIMIT = 16777216
SECONDS = 10
BYTES = 1_000_000_000
# A run is cut off there, so that a program that goes on and on does not fill the machine.
GIVEN_UP_SECONDS = 120
GIVEN_UP_BYTES = 6_000_000_000
UNCLOSED = b"refused: Unclosed at byte 0\n"


@dataclasses.dataclass
class End:
    """How a run has to end; None for a text that is not compared."""

    status: int
    out: bytes | None
    err: bytes


@dataclasses.dataclass
class Case:
    """An input, and how both jobs have to end on it."""

    text: bytes
    opt: End
    facts: End
    why: str


def copied(text, why):
    """No define: `opt` copies the bytes, and there is nothing to report on."""
    return Case(text, End(0, text, b""), End(0, b"", b""), why)


def carried(text, notes, why):
    """Every define stays as it is, with these notes."""
    return Case(text, End(0, text, notes), End(0, b"", notes), why)


def refused(text, message, why):
    return Case(text, End(1, b"", message), End(1, b"", message), why)


def accepted(text, printed, report, why):
    return Case(text, End(0, printed, b""), End(0, report, b""), why)


def filled(before, middle, after):
    """As many bytes as an input may have: the middle again and again between two texts."""
    room = LIMIT - len(before) - len(after)
    return before + (middle * (room // len(middle) + 1))[:room] + after


def of_one_byte(byte):
    return copied(byte * LIMIT, "no line begins with the word define")


def words_define():
    return refused(filled(b"", b"define ", b""), UNCLOSED, "the first define has no name, so it has no end")


def comments():
    return copied(filled(b"", b"; " + b"x" * 77 + b"\n", b""), "a comment is no define")


def one_comment():
    return copied(filled(b"; ", b"define i8 @f() {", b"\n"), "the first word of the line is none")


PLAIN = b"define i8 @f(i8 %x) {\n  ret i8 %x\n}\n"
PLAIN_REPORT = b"""function @f
  param %x i8 ???????? full maybe-poison
  block %0
    in %x i8 ???????? full maybe-poison
"""


def white_space():
    text = filled(b"define i8 @f(i8 %x) {", b" \t\r\n", b"\n  ret i8 %x\n}\n")
    return accepted(text, PLAIN, PLAIN_REPORT, "white space may stand between any two tokens")


def comments_in_a_define():
    text = filled(b"define i8 @f(i8 %x) {", b"; }\n", b"\n  ret i8 %x\n}\n")
    return accepted(text, PLAIN, PLAIN_REPORT, "so may comments, and a brace in one closes nothing")


def marks():
    text = filled(b"define i8 @f() {", b",", b"}\n")
    return carried(text, b"note: @f carried: Shape at line 1\n", "no instruction begins with a comma")


def nested_braces():
    depth = LIMIT // 2 - 10
    text = b"define i8 @f() {" + b"{" * depth + b"}" * depth + b"}\n"
    why = "the brace that closes the first one ends the define; no block begins with a brace"
    return carried(text, b"note: @f carried: Shape at line 1\n", why)


def open_braces():
    return refused(filled(b"define i8 @f() {", b"{", b""), UNCLOSED, "no brace closes the first one")


def open_parentheses():
    return refused(filled(b"define i8 @f", b"(", b""), UNCLOSED, "no brace stands outside of parentheses")


def parentheses_in_a_tail():
    depth = LIMIT // 2 - 20
    text = b"define i8 @f() " + b"(" * depth + b")" * depth + b" {\n  ret i8 0\n}\n"
    return accepted(text, text, b"function @f\n  block %0\n", "a tail may have any parentheses that match")


def open_string():
    return refused(filled(b'define i8 @"', b"f", b""), UNCLOSED, "the string has no end")


def name_of_a_parameter():
    text = filled(b"define i8 @f(i8 %", b"a", b") {\n  ret i8 0\n}\n")
    name = text[text.index(b"%") + 1 : text.index(b")")]
    report = b"function @f\n  param %" + name + b" i8 ???????? full maybe-poison\n  block %0\n"
    return accepted(text, text, report, "a name may have any length")


def name_of_a_carried_function():
    text = filled(b"define ptr @", b"a", b"(ptr %p) {\n  ret ptr %p\n}\n")
    name = text[text.index(b"@") : text.index(b"(")]
    return carried(text, b"note: " + name + b" carried: Shape at line 1\n", "a pointer is no type of the profile")


def results():
    text = b"define i8 @f() {\n" + b"%0=add i8 1,1\n" * 1_000_000 + b"ret i8 0\n}\n"
    return carried(text, b"note: @f carried: TooMany names\n", "there are more than 4096 results; that comes before their equal names")


def calls():
    count = 900_000
    text = b"define i8 @f() {\n" + b"  call void @h()\n" * count + b"  ret i8 0\n}\n"
    return accepted(text, text, b"function @f\n  block %0\n", "no call of a function that is not known goes, and none has a name")


def short_calls():
    count = 1_000_000
    text = b"define i8 @f(){" + b"call void@h()\n" * count + b"ret i8 0\n}\n"
    printed = b"define i8 @f() {\n" + b"  call void @h()\n" * count + b"  ret i8 0\n}\n"
    return accepted(text, printed, b"function @f\n  block %0\n", "as above")


def empty_defines():
    count = 1_000_000
    notes = b"".join(b"note: @f carried: Shape at line %d\n" % line for line in range(1, count + 1))
    return carried(b"define @f(){}\n" * count, notes, "each lacks its type; two carried functions may have one name")


def small_functions():
    count = 500_000
    text = b"".join(b"define i1@f%x(){ret i1 0}\n" % number for number in range(count))
    printed = b"".join(b"define i1 @f%x() {\n  ret i1 false\n}\n" % number for number in range(count))
    report = b"".join(b"function @f%x\n  block %%0\n" % number for number in range(count))
    return accepted(text, printed, report, "each is accepted")


def parameters(count):
    names = [b"%%a%d" % number for number in range(count)]
    text = b"define i8 @f(" + b", ".join(b"i8 " + name for name in names) + b") {\n  ret i8 %a0\n}\n"
    if count > 4096:
        return carried(text, b"note: @f carried: TooMany names\n", "a function has at most 4096 names")
    facts = b" i8 ???????? full maybe-poison\n"
    report = b"function @f\n" + b"".join(b"  param " + name + facts for name in names) + b"  block %0\n    in %a0" + facts
    return accepted(text, text, report, "a function may have 4096 names")


def switches_on_answers(count=600, cases=1024):
    """Switches on what a function answers, with edges to all blocks but the entry."""
    text = b"define i32 @s() {\nb0:\n"
    blocks = []
    for block in range(count):
        lines = [] if block == 0 else [b"\nb%d:\n" % block]
        lines.append(b"  %%v%d = call i32 @h()\n  switch i32 %%v%d, label %%b%d [\n" % (block, block, block + 1))
        lines += [b"    i32 %d, label %%b%d\n" % (case, 1 + (block + case) % count) for case in range(cases)]
        blocks.append(b"".join(lines) + b"  ]\n")
    text += b"".join(blocks) + b"\nb%d:\n  ret i32 0\n}\n" % count
    answers = [f"  block %b{block}\n    def %v{block} i32 {'?' * 32} full maybe-poison\n" for block in range(count)]
    report = f"function @s\n{''.join(answers)}  block %b{count}\n"
    return accepted(text, text, report.encode(), "of an answer nothing is known, so each case stays")


def switches_on_a_parameter(count=600, cases=1024):
    """Switches on one parameter, each with edges to all blocks behind its own."""
    blocks = []
    for block in range(count):
        targets = [b"    i32 %d, label %%b%d\n" % (case, block + 1 + case % (count - block)) for case in range(cases)]
        blocks.append(b"b%d:\n  switch i32 %%x, label %%b%d [\n" % (block, block + 1) + b"".join(targets) + b"  ]\n\n")
    text = b"define i32 @s(i32 %x) {\n" + b"".join(blocks) + b"b%d:\n  ret i32 %%x\n}\n" % count
    return accepted(text, None, None, "1024 blocks may each have a switch of 1024 cases")


def nested_loops(depth=200):
    """Three or more loops, each of which counts to ten in its head and has the next one as its body."""
    lines = ["define i32 @f() {", "entry:", "  br label %h0"]
    for loop in range(depth):
        before = f"h{loop - 1}" if loop else "entry"
        body = f"h{loop + 1}" if loop + 1 < depth else f"l{loop}"
        behind = f"l{loop - 1}" if loop else "exit"
        lines += ["", f"h{loop}:", f"  %i{loop} = phi i32 [ 0, %{before} ], [ %n{loop}, %l{loop} ]"]
        lines += [f"  %c{loop} = icmp ult i32 %i{loop}, 10", f"  br i1 %c{loop}, label %{body}, label %{behind}"]
    for loop in reversed(range(depth)):
        lines += ["", f"l{loop}:", f"  %n{loop} = add i32 %i{loop}, 1", f"  br label %h{loop}"]
    text = "\n".join(lines + ["", "exit:", "  ret i32 %i0", "}", ""])
    inmost = depth - 1
    printed = text.replace(f"icmp ult i32 %i{inmost},", f"icmp samesign ult i32 %i{inmost},")
    printed = printed.replace(f"add i32 %i{inmost},", f"add nuw nsw i32 %i{inmost},")
    why = "of a counter nothing is known once it went round the loops within; the inmost loop counts from 0 to 10"
    return accepted(text.encode(), printed.encode(), report_on_loops(inmost).encode(), why)


def report_on_loops(inmost):
    """The report on nested loops."""
    any_number = f"i32 {'?' * 32} full never-poison"
    few_numbers = f"i32 {'0' * 28}????"
    lines = ["function @f", "  block %entry"]
    for loop in range(inmost + 1):
        known = any_number if loop < inmost else f"{few_numbers} [0,11) never-poison"
        lines += [f"  block %h{loop}", f"    def %i{loop} {known}", f"    def %c{loop} i1 ? full never-poison"]
    lines += [f"  block %l{inmost}", f"    in %i{inmost} {few_numbers} [0,10) never-poison"]
    lines += [f"    def %n{inmost} {few_numbers} [1,11) never-poison"]
    for loop in reversed(range(inmost)):
        lines += [f"  block %l{loop}", f"    in %i{loop} {any_number}", f"    def %n{loop} {any_number}"]
    return "\n".join(lines + ["  block %exit", f"    in %i0 i32 {'?' * 32} [10,0) never-poison", ""])


def chain_of_phis(phis=64, width=128):
    """A register that is shifted by one bit a turn, in parts: each round of the facts loses one known bit of one part."""
    top = -(2 ** (width - 1))
    entries = [f"  %p{part} = phi i{width} [ 0, %entry ], [ %q{part}, %loop ]" for part in range(phis)]
    turns = []
    for part in range(phis):
        turns.append(f"  %s{part} = lshr i{width} %p{part}, 1")
        if part:
            turns.append(f"  %t{part} = shl i{width} %p{part - 1}, {width - 1}")
        turns.append(f"  %q{part} = or i{width} %s{part}, " + (f"%t{part}" if part else str(top)))
    lines = [f"define i{width} @f() {{", "entry:", "  br label %loop", "", "loop:"] + entries + turns
    lines += ["  %c = call i1 @more()", "  br i1 %c, label %loop, label %exit", "", "exit:", f"  ret i{width} %p{phis - 1}", "}", ""]
    text = "\n".join(lines)
    printed = text.replace(" or ", " or disjoint ")
    report = report_on_chain(phis, width)
    why = "at last nothing is known of the parts but that both sides of each or have no bit in common"
    return accepted(text.encode(), printed.encode(), report.encode(), why)


def report_on_chain(phis, width):
    """The report on a chain of phis: the first part is 0 or has its top bit, and nothing is known of the others."""
    half = 2 ** (width - 1)
    any_number = f"i{width} {'?' * width} full never-poison"
    lines = ["function @f", "  block %entry", "  block %loop", f"    def %p0 i{width} {'?' * width} [{half},1) never-poison"]
    lines += [f"    def %p{part} {any_number}" for part in range(1, phis)]
    for part in range(phis):
        lines.append(f"    def %s{part} i{width} 0{'?' * (width - 1)} [0,{half}) never-poison")
        if part:
            lines.append(f"    def %t{part} i{width} ?{'0' * (width - 1)} [0,{half + 1}) never-poison")
        lines.append(f"    def %q{part} " + (any_number if part else f"i{width} 1{'?' * (width - 1)} [{half},0) never-poison"))
    return "\n".join(lines + ["    def %c i1 ? full maybe-poison", "  block %exit", f"    in %p{phis - 1} {any_number}", ""])


CASES = {
    "parentheses": lambda: of_one_byte(b"("),
    "quotes": lambda: of_one_byte(b'"'),
    "braces": lambda: of_one_byte(b"{"),
    "words define": words_define,
    "NUL bytes": lambda: of_one_byte(b"\0"),
    "comments": comments,
    "one comment": one_comment,
    "a define of white space": white_space,
    "a define of comments": comments_in_a_define,
    "a define of marks": marks,
    "a define of nested braces": nested_braces,
    "a define of open braces": open_braces,
    "a define of open parentheses": open_parentheses,
    "parentheses in a tail": parentheses_in_a_tail,
    "an open string": open_string,
    "the name of a parameter": name_of_a_parameter,
    "the name of a carried function": name_of_a_carried_function,
    "1,000,000 results": results,
    "900,000 calls": calls,
    "1,000,000 calls": short_calls,
    "1,000,000 empty defines": empty_defines,
    "500,000 functions": small_functions,
    "4096 parameters": lambda: parameters(4096),
    "400,000 parameters": lambda: parameters(400_000),
    "600 switches of 1024 cases on answers": switches_on_answers,
    "600 switches of 1024 cases on a parameter": switches_on_a_parameter,
    "200 nested loops": nested_loops,
    "64 phis that lose a bit a round": chain_of_phis,
}


@dataclasses.dataclass
class Streams:
    """A run in which a stream fails: a device that takes nothing in place of out or err, or a folder in place of the input."""

    name: str
    word: str
    text: bytes
    fails: str
    end: End


NOTE = b"note: @f carried: Shape at line 1\n"
CARRIED = b"define ptr @f(ptr %p) {\n  ret ptr %p\n}\n"
USAGE = b"usage: vfa opt|facts|ask|self [--workers N] [--strict] [--function F --value V --block B [--from P]] [--seed N]\n"
STREAMS = [
    Streams("nothing fails", "opt", CARRIED, "", End(0, CARRIED, NOTE)),
    Streams("the words are no command", "", CARRIED, "", End(2, b"", USAGE)),
    Streams("the input is a folder", "opt", PLAIN, "in", End(3, b"", b"fault: read\n")),
    Streams("out takes nothing", "opt", CARRIED, "out", End(4, b"", b"")),
    Streams("out is asked nothing", "facts", CARRIED, "out", End(0, b"", NOTE)),
    Streams("err takes no note", "opt", CARRIED, "err", End(4, CARRIED, b"")),
    Streams("err is asked nothing", "opt", PLAIN, "err", End(0, PLAIN, b"")),
    Streams("err takes no refusal", "opt", b"define i8 @f() {\n", "err", End(1, b"", b"")),
    Streams("err takes no usage line", "", PLAIN, "err", End(2, b"", b"")),
]


def check_streams(program, folder, case):
    """Runs the case, and prints a line. Whether it failed."""
    paths = {part: os.path.join(folder, part) for part in ("in", "out", "err")}
    for part in paths:
        with open(paths[part], "wb") as file:
            file.write(case.text if part == "in" else b"")
    opened = dict(paths)
    if case.fails:
        opened[case.fails] = folder if case.fails == "in" else "/dev/full"
    streams = {part: os.open(path, os.O_RDONLY if part == "in" else os.O_WRONLY) for part, path in opened.items()}
    ended = subprocess.run([program, case.word], stdin=streams["in"], stdout=streams["out"], stderr=streams["err"])
    for stream in streams.values():
        os.close(stream)
    found = faults(case.end, ended.returncode, read(paths["out"]), read(paths["err"]), 0, 0)
    print(f"{case.name}: status {ended.returncode}" + "".join(f"  FAILED: {text}" for text in found), flush=True)
    return bool(found)


def measure(program, job, source, out, err):
    """Runs the program once, and prints its status, its seconds and its peak in KiB.

    This is done in a process of its own, since the peak of a program is no less than that of the process which starts it.
    """
    resource.setrlimit(resource.RLIMIT_AS, (GIVEN_UP_BYTES, GIVEN_UP_BYTES))
    with open(source, "rb") as given, open(out, "wb") as text, open(err, "wb") as notes:
        start = time.monotonic()
        child = subprocess.Popen([program, job], stdin=given, stdout=text, stderr=notes)
        signal.signal(signal.SIGALRM, lambda *_: os.kill(child.pid, signal.SIGKILL))
        signal.alarm(GIVEN_UP_SECONDS)
        _, status, usage = os.wait4(child.pid, 0)
        signal.alarm(0)
        child.returncode = os.waitstatus_to_exitcode(status)
    print(child.returncode, time.monotonic() - start, usage.ru_maxrss)


def read(path):
    with open(path, "rb") as file:
        return file.read()


def faults(want, status, out, err, seconds, peak):
    """What is wrong with a run."""
    found = []
    if status != want.status:
        found.append(f"the status is not {want.status}")
    if want.out is not None and out != want.out:
        found.append(f"{len(out)} other bytes to out: {out[:60]!r}")
    if err != want.err:
        found.append(f"{len(err)} other bytes to err: {err[:60]!r}")
    if seconds >= SECONDS:
        found.append(f"not under {SECONDS} s")
    if peak >= BYTES:
        found.append(f"not under {BYTES} bytes")
    return found


def check(program, folder, name, case):
    """Runs both jobs on the input, and prints a line for each. How many of the runs failed."""
    source, out, err = (os.path.join(folder, part) for part in ("in", "out", "err"))
    with open(source, "wb") as file:
        file.write(case.text)
    print(f"{name}: {len(case.text)} bytes; {case.why}", flush=True)
    failed = 0
    for job, want in (("opt", case.opt), ("facts", case.facts)):
        command = [sys.executable, os.path.abspath(__file__), "--measure", program, job, source, out, err]
        status, seconds, peak = subprocess.run(command, stdout=subprocess.PIPE, text=True, check=True).stdout.split()
        found = faults(want, int(status), read(out), read(err), float(seconds), int(peak) * 1024)
        failed += bool(found)
        compared = "" if want.out is not None else "  (text not compared)"
        line = f"  {job:<5}  {float(seconds):7.3f} s  {int(peak) / 1024:7.1f} MiB  status {status}{compared}"
        print(line + "".join(f"  FAILED: {text}" for text in found), flush=True)
    return failed


def main():
    if len(sys.argv) == 7 and sys.argv[1] == "--measure":
        measure(*sys.argv[2:])
        return 0
    program = given_program(__doc__)
    with tempfile.TemporaryDirectory() as folder:
        failed = sum(check_streams(program, folder, case) for case in STREAMS)
        failed += sum(check(program, folder, name, make()) for name, make in CASES.items())
    print(f"{len(STREAMS) + 2 * len(CASES)} runs, {failed} failed")
    return 1 if failed else 0


if __name__ == "__main__":
    sys.exit(main())
