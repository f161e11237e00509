#!/usr/bin/env python3
"""Has every file take `if◌then◌else◌` from the library, where this repository had its own. Run once, at the top of the checkout."""
import pathlib
import re

NAME = "if◌then◌else◌"
OWN = "Rattle.meaning.specs.Base"
LIBRARY = "Rattle.std.specs.Prelude"


def turn(text, ghost):
    word = "ghost use " if ghost else "use "
    end = ";" if ghost else ""
    line = re.search(rf"(?m)^{word}{re.escape(OWN)}\.\{{([^}}]*)\}}{end}\n", text)
    if not line or NAME not in line.group(1):
        return text
    names = [n.strip() for n in line.group(1).split(",") if n.strip() and n.strip() != NAME]
    rest = f"{word}{OWN}.{{{', '.join(names)}}}{end}\n" if names else ""
    there = re.search(rf"(?m)^{word}{re.escape(LIBRARY)}\.\{{([^}}]*)\}}{end}\n", text)
    if there:
        text = text.replace(line.group(0), rest)
        return text.replace(there.group(0), f"{word}{LIBRARY}.{{{there.group(1)}, {NAME}}}{end}\n")
    return text.replace(line.group(0), f"{word}{LIBRARY}.{{{NAME}}}{end}\n{rest}")


def main():
    root = pathlib.Path.cwd()
    changed = 0
    for path in sorted(root.glob("crates/*/**/*")):
        if path.suffix in (".antt", ".rt") and "out" not in path.parts:
            text = path.read_text()
            new = turn(text, path.suffix == ".rt")
            if new != text:
                path.write_text(new)
                changed += 1
    print(f"turned: {changed} files")


main()
