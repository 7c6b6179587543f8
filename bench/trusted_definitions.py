#!/usr/bin/env python3
"""Prints the files of definitions that stand under the clauses of a function, and those under no public contract.

usage: bench/trusted_definitions.py [CRATE FUNCTION]      (default: vfa vfa_run)

A clause names definitions; a definition names others by its `use` lines. Both are followed to the end. Files are printed
lowest first, as they are read. With --check it exits with 1 where docs/TRUST.md names other files, where a file under no
contract of a `pub` item does not say so in its first line, or where one under a contract that a crate offers says so.
"""
import pathlib
import re
import sys

ROOT = pathlib.Path(__file__).resolve().parent.parent
HELPER = "-- helper: in no public contract"
USE = re.compile(r"^[ \t]*(?:ghost )?use Rattle\.(\w+)\.specs\.([\w.]+)\.\{([^}]*)\}", re.M)


def spec_path(crate, path):
    file = ROOT / "crates" / crate / "specs" / (path.replace(".", "/") + ".antt")
    return file if file.exists() else None


def imports(text):
    """The definitions that a text names: name -> file."""
    found = {}
    for crate, path, names in USE.findall(text):
        file = spec_path(crate, path)
        if file is None:
            continue
        for name in names.split(","):
            found[name.split(" as ")[-1].strip()] = file
    return found


def needs(file):
    return sorted(set(imports(file.read_text()).values()))


def closure(start):
    order, seen = [], set()

    def visit(file):
        if file in seen:
            return
        seen.add(file)
        for low in needs(file):
            visit(low)
        order.append(file)

    for file in sorted(start):
        visit(file)
    return order


def clauses(text, public_only=True, function=None):
    """The contracts of the functions of a source: the text between a signature and its body."""
    kind = r"^[ \t]*pub (?:const )?fn (\w+)" if public_only else r"^[ \t]*(?:pub )?(?:const )?fn (\w+)"
    for found in re.finditer(kind, text, re.M):
        if function is not None and found.group(1) != function:
            continue
        rest = text[found.start():]
        end = re.search(r"^[ \t]*\{|;[ \t]*$", rest, re.M)
        yield rest[: end.start() if end else len(rest)]
    if function is None:
        for found in re.finditer(r"^[ \t]*ghost (?!use)\w+.*?$", text, re.M):
            yield found.group(0)
        for found in re.finditer(r"^pub trait .*?^\}", text, re.M | re.S):
            yield found.group(0)
        for found in re.finditer(r"^impl.*?^\}", text, re.M | re.S):
            if " for " in found.group(0).split("{")[0]:
                yield found.group(0)


def named(source, contracts):
    known = imports(source)
    return {known[word] for part in contracts for word in re.findall(r"[\w']+", part) if word in known}


def under(crate, function):
    start = set()
    for source in (ROOT / "crates" / crate / "src").rglob("*.rt"):
        text = source.read_text()
        start |= named(text, clauses(text, True, function))
    return closure(start)


def offered(crate):
    """The names that a crate offers, and the modules that it offers whole."""
    root = crate / "src" / "lib.rt"
    text = root.read_text() if root.exists() else ""
    names = {word for use in re.findall(r"^pub use ([^;]*);", text, re.M) for word in re.findall(r"\w+", use)}
    return names, set(re.findall(r"^pub mod (\w+);", text, re.M))


def offered_text(text, names):
    """The items of a module with one of these names, and what is said of types with one."""
    kept = []
    for item in re.split(r"^(?=(?:pub|fn|impl|trait|struct|enum|type|const)\b)", text, flags=re.M):
        head = item.split("{")[0] if item.startswith("impl") else " ".join(re.findall(r"\b(?:fn|trait|struct|enum|type) (\w+)", item)[:1])
        if names & set(re.findall(r"\w+", head)):
            kept.append(item)
    return "".join(kept)


def sources(crate):
    return [f for f in sorted((crate / "src").rglob("*.rt")) if f.name != "tests.rt" and "tests" not in f.parts]


def public():
    """The files under contracts of `pub` items, also of modules that are not offered."""
    start = set()
    for crate in sorted((ROOT / "crates").iterdir()):
        for source in sources(crate):
            text = source.read_text()
            start |= named(text, clauses(text))
    return closure(start)


def offered_files():
    """The files under contracts of items that crates offer."""
    start = set()
    for crate in sorted((ROOT / "crates").iterdir()):
        names, modules = offered(crate)
        for source in sources(crate):
            text = source.read_text()
            start |= named(text, clauses(text if source.stem in modules else offered_text(text, names)))
    return closure(start)


def specs():
    return [f for f in sorted(ROOT.glob("crates/*/specs/**/*.antt")) if f.name != "Lib.antt" and "declared" not in f.parts]


def main():
    words = [w for w in sys.argv[1:] if w != "--check"]
    crate, function = words if len(words) == 2 else ("vfa", "vfa_run")
    trusted = under(crate, function)
    some, firm = set(public()), set(offered_files())
    inner = [f for f in specs() if f not in some]
    name = lambda f: str(f.relative_to(ROOT / "crates"))
    print(f"{len(trusted)} of {len(specs())} files stand under {crate}::{function}:")
    for file in trusted:
        print("  " + name(file))
    print(f"{len(inner)} files are in no public contract:")
    for file in inner:
        print("  " + name(file))
    if "--check" not in sys.argv:
        return 0
    page = (ROOT / "docs" / "TRUST.md").read_text()
    listed = set(re.findall(r"`(vfa\w*/specs/[\w/]+\.antt)`", page))
    wrong = listed ^ {name(f) for f in trusted}
    for file in specs():
        says = file.read_text().startswith(HELPER)
        if file in firm if says else file in inner:
            wrong.add(name(file))
    for file in sorted(wrong):
        print("wrong: " + file)
    return 1 if wrong else 0


if __name__ == "__main__":
    sys.exit(main())
