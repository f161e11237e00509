#!/usr/bin/env python3
"""Spells this repository's own definitions, lemmas and fields as today's Rattle does: snake case for words, camel case for types.

Run once, at the top of the checkout, after the toolchain's port.py.
Names of src/, strings, inputs and outputs stay. With --list, prints the renamings and changes nothing.
"""
import pathlib
import re
import sys

TOKEN = re.compile(r"[^\s(){}\[\];,.`]+")
OWN = re.compile(r"Rattle\.(\w+)\.")
SIGNATURE = re.compile(r"^(?:(?:abbrev|unfoldable)\s+)?(?:pub\s+)?(?:record\s+|data\s+)?([^\s(){}:]+(?:\s+[^\s(){}:]+)*)(?:\s+[({].*)?\s+:\s")
FIELD = re.compile(r"^\s+(?:pub\s+)?([^\s(){}:λ]+(?:\s+[^\s(){}:λ]+)*)\s+:\s")
CASE = re.compile(r"^\s*\|?\s*([^\s(){}:λ]+)\s+:\s")
KEYWORDS = {"use", "pub", "mod", "abbrev", "unfoldable", "record", "data", "let", "in", "where", "syntax", "ruleset", "as"}


def snake(name):
    parts = [re.sub(r"(?<=[a-z0-9])([A-Z])", lambda m: "_" + m.group(1).lower(), part) for part in name.split("-")]
    return "_".join(parts)


def spelled(name):
    """The name as it is to read, or None where it stays."""
    if not re.match(r"^[a-z]", name) or not re.match(r"^[A-Za-z0-9_'\-₀-₉]+$", name):
        return None
    if not re.search(r"[A-Z]|-", name):
        return None
    return snake(name)


def antt_files(root):
    for crate in sorted((root / "crates").iterdir()):
        yield from sorted((crate / "specs").glob("**/*.antt"))
        yield from sorted((crate / "proofs").glob("**/*.antt"))


def defined_in(text):
    names = set()
    for line in text.splitlines():
        if line.startswith("--"):
            continue
        for pattern in (SIGNATURE, FIELD):
            match = pattern.match(line)
            if match:
                names.update(n for n in match.group(1).split() if n not in KEYWORDS)
    return names


def used_of_others(text):
    """Names taken from modules that are not this repository's."""
    names = set()
    for match in re.finditer(r"^(?:pub )?(?:ghost )?use ([^{;\n]+)\.\{([^}]*)\}", text, re.M):
        if not OWN.match(match.group(1) + ".") or match.group(1).startswith(("Rattle.std", "Rattle.check")):
            names.update(n.strip() for n in match.group(2).split(","))
    return names


def main():
    root = pathlib.Path.cwd()
    texts = {path: path.read_text() for path in antt_files(root)}
    sources = {path: path.read_text() for path in sorted(root.glob("crates/*/src/**/*.rt"))}
    foreign = set()
    for text in list(texts.values()) + list(sources.values()):
        foreign |= used_of_others(text)
    defined = set()
    for path, text in texts.items():
        if path.name in ("Proof.antt",):
            defined |= {n for n in defined_in(text) if n.endswith("-spec")}
        else:
            defined |= defined_in(text)
    table = {}
    for name in sorted(defined):
        new = spelled(name)
        if new and name not in foreign:
            table[name] = new
    # a lemma that would have its function's name gets _lem
    functions = {new for name, new in table.items() if "-" not in name}
    for name, new in table.items():
        if "-" in name and new in functions:
            table[name] = new + "_lem"
    table["back_to"] = "back_to_lem"  # port.py spelled this lemma as the function backTo is spelled here
    taken = {}
    for name, new in table.items():
        if new in taken or new in foreign:
            print(f"falls together: {name} -> {new}" + (f", as {taken[new]}" if new in taken else ", which a library has"))
        taken[new] = name
    if "--list" in sys.argv:
        for name, new in table.items():
            print(f"{name} {new}")
        return

    def turn(text):
        return TOKEN.sub(lambda m: table.get(m.group(0), m.group(0)), text)

    for path, text in texts.items():
        path.write_text(turn(text))
    for path, text in sources.items():
        parts = re.split(r'("(?:[^"\\]|\\.)*")', text)
        path.write_text("".join(part if i % 2 else turn(part) for i, part in enumerate(parts)))
    # a module specs.contracts is made by Rattle, so this file has another name
    old = root / "crates/trace_text/specs/Contracts.antt"
    if old.exists():
        old.rename(old.with_name("Promises.antt"))
        for path in [p for p in root.glob("crates/*/**/*.*t*") if p.is_file() and "out" not in p.parts]:
            if path.suffix in (".antt", ".rt"):
                text = path.read_text()
                new = text.replace("Rattle.trace_text.specs.Contracts.", "Rattle.trace_text.specs.Promises.")
                if path.parent == old.parent and path.name == "Lib.antt":
                    new = new.replace("mod Contracts", "mod Promises")
                if new != text:
                    path.write_text(new)
    # Rattle has a library named lru, so the crate of the LRU policy has another name
    if (root / "crates/lru").exists():
        (root / "crates/lru").rename(root / "crates/lru_policy")
        for path in [p for p in root.glob("crates/*/**/*.*t*") if p.is_file() and "out" not in p.parts]:
            if path.suffix in (".antt", ".rt"):
                text = path.read_text()
                new = text.replace("Rattle.lru.", "Rattle.lru_policy.").replace("use lru::", "use lru_policy::")
                if new != text:
                    path.write_text(new)
        crates = root / "crates.txt"
        crates.write_text(re.sub(r"\blru\b", "lru_policy", crates.read_text()))
    for path in sorted((root / "docs").glob("*.md")):
        path.write_text(re.sub(r"`[^`\n]+`", lambda m: turn(m.group(0)), path.read_text()))
    print(f"spelled: {len(table)} names")


main()
