#!/bin/sh
# Seconds and peak memory of `vfa opt` on two modules, beside LLVM's `opt -S` with no passes. Run by hand; the gate does not
# run it. The modules: 16 MiB of functions that vfa optimises, and 200,000 functions that it carries over as they are.
# Each line is the run of least time among three. Peaks below some 15 MiB are those of the measuring program.
# With no opt on the path, vfa alone is timed: on Debian `apt-get install -y llvm` brings it.
set -eu
top=$(cd "$(dirname "$0")/.." && pwd)
work=$(mktemp -d)
trap 'rm -rf "$work"' EXIT

# At most this many bytes are read.
limit=16777216

cat > "$work/optimised.awk" <<'AWK'
BEGIN {
    for (n = 0; ; n++) {
        text = "define i8 @f" n "(i8 %x) {\nentry:\n  %a = and i8 %x, 15\n  %b = xor i8 %a, 3\n  ret i8 %b\n}\n\n"
        bytes += length(text)
        if (bytes > limit) exit
        printf "%s", text
    }
}
AWK
cat > "$work/carried.awk" <<'AWK'
BEGIN {
    for (n = 0; n < 200000; n++) {
        text = "define i8 @g" n "(ptr %p) {\n  ret i8 0\n}\n"
        bytes += length(text)
        if (bytes > limit) exit
        printf "%s", text
    }
}
AWK
for module in optimised carried; do
    awk -v limit="$limit" -f "$work/$module.awk" > "$work/$module.ll"
done

if ! (cd "$top/crates/vfa" && rt run -- opt < "$top/examples/mask.ll") > "$work/built" 2>&1; then
    tail -n 20 "$work/built"
    echo 'modules.sh: vfa was not built'
    exit 1
fi

python3 - "$top/crates/vfa/out/vfa" "$work" <<'PYTHON'
import os
import shutil
import subprocess
import sys
import time

RUNS = 3


def run(command, module):
    """Status, seconds and peak bytes of a run, and the first line of what it wrote to standard error."""
    with open(module) as source, open(module + ".err", "w+") as err:
        start = time.monotonic()
        child = subprocess.Popen(command, stdin=source, stdout=subprocess.DEVNULL, stderr=err)
        _, status, usage = os.wait4(child.pid, 0)
        seconds = time.monotonic() - start
        child.returncode = os.waitstatus_to_exitcode(status)
        err.seek(0)
        return child.returncode, seconds, usage.ru_maxrss * 1024, err.readline().strip()


def measure(name, command, module):
    """Prints the run of least time, and gives its time; None where it failed."""
    status, seconds, peak, message = min((run(command, module) for _ in range(RUNS)), key=lambda one: one[1])
    each = peak / os.path.getsize(module)
    failed = f"  (status {status}: {message})" if status else ""
    print(f"  {name:<8} {seconds:>8.3f} s  {peak / 2**20:>8.1f} MiB of peak memory, {each:.1f} bytes a byte of input{failed}")
    return None if status else seconds


def llvm_opt():
    """The command of LLVM's opt; None where there is none."""
    for name in ["opt"] + [f"opt-{version}" for version in range(30, 13, -1)]:
        if shutil.which(name):
            version = subprocess.run([name, "--version"], capture_output=True, text=True).stdout
            # LLVM 14 reads `ptr` only when asked to.
            return [name, "-S"] + (["-opaque-pointers"] if "LLVM version 14." in version else [])
    return None


program, work = sys.argv[1:]
opt = llvm_opt()
for kind in ["optimised", "carried"]:
    module = f"{work}/{kind}.ll"
    with open(module) as lines:
        count = sum(line.startswith("define") for line in lines)
    print(f"{kind}: {count} functions, {os.path.getsize(module)} bytes")
    ours = measure("vfa opt", [program, "opt"], module)
    if opt:
        theirs = measure("opt -S", opt, module)
    if opt and ours and theirs:
        print(f"  vfa opt takes {ours / theirs:.2f} times as long as opt -S")
if not opt:
    print("LLVM's opt is missing: on Debian `apt-get install -y llvm` brings it")
PYTHON
