#!/usr/bin/env python3
"""Asks LLVM whether it reads what `vfa opt` prints. Run by hand; the gate does not run it.

    bench/compare_with_llvm.py PROGRAM [FIRST] [LAST]

PROGRAM is the built program (crates/vfa/out/vfa once `rt run` has built it). Each number from FIRST to LAST seeds a
module of random functions of the profile. None may be carried, and LLVM's `opt -S`, which verifies a module too, has to read the
module and what vfa printed of it. It is to be of release 22 or later; LLVM knows all words that vfa prints from release 20 on.

The status is 0 where there is nothing to look at, 1 where there is, and 2 where the words are wrong or no such opt is found.
"""
import random
import re
import shutil
import subprocess
import sys

WIDTHS = [1, 3, 8, 8, 8, 16, 32, 64, 128]
NAMES = ["v", "t", "foo", "a b", "x.y", "7up", '"q', "\\", "\u00e9", "-z", "$d", ".k", "_u"]
FUNCTIONS = 200


def quoted(name):
    if re.fullmatch(r"[-a-zA-Z$._][-a-zA-Z$._0-9]*", name):
        return name
    plain = lambda byte: 32 <= byte <= 126 and byte not in (34, 92)
    return '"' + "".join(chr(b) if plain(b) else "\\%02X" % b for b in name.encode()) + '"'


class Function:
    """A random function. Blocks branch forward alone, and use the entry's values and their own."""

    def __init__(self, rng, place):
        self.rng = rng
        self.place = place
        self.count = 0
        self.number = 0
        self.values = []
        self.lines = []

    def unnamed(self):
        self.number += 1
        return str(self.number - 1)

    def name(self):
        if self.rng.random() < 0.5:
            return self.unnamed()
        self.count += 1
        return quoted(self.rng.choice(NAMES) + str(self.count))

    def literal(self, width):
        if width == 1 and self.rng.random() < 0.7:
            return self.rng.choice(["true", "false"])
        ends = [0, 1, -1, 2**width - 1, -(2 ** (width - 1)), 2 ** (width - 1) - 1]
        if self.rng.random() < 0.3:
            return str(self.rng.choice(ends))
        return str(self.rng.randrange(-(2 ** (width - 1)), 2**width))

    def operand(self, width, values=None):
        known = [name for name, of in (self.values if values is None else values) if of == width]
        if known and self.rng.random() < 0.65:
            return "%" + self.rng.choice(known)
        return "poison" if self.rng.random() < 0.1 else self.literal(width)

    def define(self, width, text):
        name = self.name()
        self.values.append((name, width))
        self.lines.append(f"  %{name} = {text}")

    def flags(self, operation):
        if operation in ("add", "sub", "mul", "shl"):
            flags = [flag for flag in ("nuw", "nsw") if self.rng.random() < 0.4]
            self.rng.shuffle(flags)
            return "".join(flag + " " for flag in flags)
        exact = operation in ("udiv", "sdiv", "lshr", "ashr") and self.rng.random() < 0.4
        return "exact " if exact else ""

    def binary(self, width):
        operation = self.rng.choice("add sub mul shl udiv sdiv lshr ashr urem srem and or xor".split())
        flags = self.flags(operation)
        self.define(width, f"{operation} {flags}i{width} {self.operand(width)}, {self.operand(width)}")

    def convert(self, _):
        low, high = sorted(self.rng.sample([1, 3, 8, 16, 32, 64, 128], 2))
        if self.rng.random() < 0.5:
            word = self.rng.choice(["zext", "sext"])
            self.define(high, f"{word} i{low} {self.operand(low)} to i{high}")
        else:
            self.define(low, f"trunc i{high} {self.operand(high)} to i{low}")

    def compare(self, width):
        predicate = self.rng.choice("eq ne ugt uge ult ule sgt sge slt sle".split())
        self.define(1, f"icmp {predicate} i{width} {self.operand(width)}, {self.operand(width)}")

    def select(self, width):
        arms = f"i{width} {self.operand(width)}, i{width} {self.operand(width)}"
        self.define(width, f"select i1 {self.operand(1)}, {arms}")

    def freeze(self, width):
        self.define(width, f"freeze i{width} {self.operand(width)}")

    def call(self, width):
        marker = self.rng.choice(["", "tail ", "notail "])
        kind = self.rng.randrange(4)
        if kind == 0:
            word = self.rng.choice("umin umax smin smax uadd.sat usub.sat sadd.sat ssub.sat".split())
            pair = f"i{width} {self.operand(width)}, i{width} {self.operand(width)}"
            self.define(width, f"{marker}call i{width} @llvm.{word}.i{width}({pair})")
        elif kind == 1:
            word = self.rng.choice(["abs", "ctlz", "cttz"])
            strict = self.rng.choice(["true", "false"])
            self.define(width, f"{marker}call i{width} @llvm.{word}.i{width}(i{width} {self.operand(width)}, i1 {strict})")
        elif kind == 2:
            self.define(width, f"{marker}call i{width} @llvm.ctpop.i{width}(i{width} {self.operand(width)})")
        else:
            self.lines.append(f"  {marker}call void @llvm.assume(i1 {self.operand(1)})")

    def overflow(self, width):
        name = self.name()
        word = self.rng.choice("uadd sadd usub ssub umul smul".split())
        pair = f"i{width} {self.operand(width)}, i{width} {self.operand(width)}"
        self.lines.append(f"  %{name} = call {{ i{width}, i1 }} @llvm.{word}.with.overflow.i{width}({pair})")
        part = self.rng.randrange(2)
        self.define(1 if part else width, f"extractvalue {{ i{width}, i1 }} %{name}, {part}")

    def instruction(self):
        kinds = [self.binary, self.binary, self.compare, self.select, self.convert, self.freeze, self.call, self.overflow]
        self.rng.choice(kinds)(self.rng.choice(WIDTHS))

    def phis(self, before, ends, names):
        for _ in range(self.rng.randrange(1, 3)):
            width = self.rng.choice(WIDTHS)
            operands = {block: self.operand(width, ends[block]) for block in before}
            entries = [f"[ {operands[block]}, %{names[block]} ]" for block in before]
            self.rng.shuffle(entries)
            self.define(width, f"phi i{width} " + ", ".join(entries))

    def terminator(self, later, go, width):
        kind = self.rng.randrange(3)
        pick = lambda: go(self.rng.choice(later))
        if not later or self.rng.random() < 0.15:
            return self.rng.choice([f"ret i{width} {self.operand(width)}"] * 4 + ["unreachable"])
        if kind == 0:
            return f"br label {pick()}"
        if kind == 1:
            return f"br i1 {self.operand(1)}, label {pick()}, label {pick()}"
        on = self.rng.choice([3, 8, 32])
        text = f"switch i{on} {self.operand(on)}, label {pick()} ["
        for number in self.rng.sample(range(4), self.rng.randrange(4)):
            text += f"\n    i{on} {number}, label {pick()}"
        return text + "\n  ]"

    def header(self, width):
        parameters = []
        for _ in range(self.rng.randrange(4)):
            of = self.rng.choice(WIDTHS)
            name = self.name()
            self.values.append((name, of))
            words = "".join(word + " " for word in ("noundef", "zeroext") if self.rng.random() < 0.3)
            parameters.append(f"i{of} {words}%{name}")
        lead = self.rng.choice(["", "dso_local ", "internal ", "noundef "])
        tail = self.rng.choice(["", " local_unnamed_addr", " #0", " nounwind #0", " align 16"])
        name = quoted(self.rng.choice(["f", "a b"]) + str(self.place))
        return f"define {lead}i{width} @{name}({', '.join(parameters)}){tail} {{"

    def text(self):
        width = self.rng.choice(WIDTHS)
        out = [self.header(width)]
        blocks = self.rng.randrange(1, 5)
        names, ends, before = {}, {}, {block: [] for block in range(blocks)}
        labelled = self.rng.random() < 0.5
        for block in range(blocks):
            self.lines = []
            if block == 0:
                names[0] = "entry" if labelled else self.unnamed()
            else:
                names[block] = self.name()
                self.values = list(ends[0])
            if block > 0 or labelled:
                out.append(names[block] + ":" + self.rng.choice(["", "    ; a comment"]))
            if before[block] and self.rng.random() < 0.7:
                self.phis(before[block], ends, names)
            for _ in range(self.rng.randrange(5)):
                self.instruction()
            ends[block] = list(self.values)

            def go(target):
                before[target].append(block)
                return f"%<{target}>"

            metadata = self.rng.choice(["", "", ", !foo !0"])
            terminator = self.terminator(list(range(block + 1, blocks)), go, width)
            out += self.lines + ["  " + terminator + metadata]
        # a later block may have no name before its place is reached
        text = "\n".join(out + ["}"])
        return re.sub(r"<(\d+)>", lambda found: names[int(found.group(1))], text)


def declarations(text):
    found = set()
    for call in re.finditer(r"call (void|i\d+|\{ i\d+, i1 \}) @(llvm\.[\w.]+)\(([^)]*)\)", text):
        types = ", ".join(argument.split()[0] for argument in call.group(3).split(","))
        found.add(f"declare {call.group(1)} @{call.group(2)}({types})")
    return "\n".join(sorted(found)) + "\n"


def module(seed):
    rng = random.Random(seed)
    functions = "\n\n".join(Function(rng, place).text() for place in range(FUNCTIONS))
    return f"; random\n\n{functions}\n\nattributes #0 = {{ nounwind }}\n!0 = !{{i32 1}}\n{declarations(functions)}"


def llvm_opt():
    """LLVM's opt, of release 22 or later, the newest that is on the path; None where there is none."""
    for name in ["opt"] + [f"opt-{version}" for version in range(40, 21, -1)]:
        if not shutil.which(name):
            continue
        version = subprocess.run([name, "--version"], capture_output=True, text=True).stdout
        release = re.search(r"LLVM version (\d+)", version)
        if release and int(release.group(1)) >= 22:
            return name
    return None


def reads(opt, text):
    """Whether LLVM reads a text and finds it well formed."""
    return subprocess.run([opt, "-S", "-o", "/dev/null"], input=text, capture_output=True).returncode == 0


def check(opt, program, seed):
    """What is to be looked at in the module of a seed; None where there is nothing."""
    text = module(seed).encode()
    printed = subprocess.run([program, "opt"], input=text, capture_output=True)
    if printed.returncode or printed.stderr:
        return f"status {printed.returncode}, {printed.stderr.decode()}"
    if not reads(opt, text):
        return f"{opt} refuses the module"
    if not reads(opt, printed.stdout):
        return f"{opt} refuses the printed text"
    return None


def main():
    words = sys.argv[1:]
    if not 1 <= len(words) <= 3 or not all(word.isdecimal() for word in words[1:]):
        print(__doc__)
        return 2
    if not shutil.which(words[0]):
        print(f"{words[0]} is no program")
        return 2
    opt = llvm_opt()
    if not opt:
        print("LLVM's opt of release 22 or later is missing")
        return 2
    first, last = (int(word) for word in words[1:] + ["1", "20"][len(words) - 1:])
    found = 0
    for seed in range(first, last + 1):
        fault = check(opt, words[0], seed)
        if fault:
            found += 1
            print(f"module {seed}: {fault}")
    print(f"{last - first + 1} modules of {FUNCTIONS} functions, {found} with something to look at")
    return 1 if found else 0


if __name__ == "__main__":
    sys.exit(main())
